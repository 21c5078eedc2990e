//! The network's copy of the shared data and the factory image, as the lines of C-16
//! have them: bytes of any size, so that every size can be tried.

use crate::refusal::Refusal;
use crate::shared::{self, Held, Source, IMAGE};

#[derive(Clone, Debug, PartialEq, Eq)]
pub struct Images {
    network: Vec<u8>,
    factory: Vec<u8>,
}

/// Both are blank before the first line.
impl Default for Images {
    fn default() -> Images {
        Images { network: vec![0; IMAGE], factory: vec![0; IMAGE] }
    }
}

impl Images {
    pub fn of(&self, source: Source) -> &[u8] {
        match source {
            Source::Network => &self.network,
            Source::Factory => &self.factory,
        }
    }

    pub fn set(&mut self, source: Source, bytes: Vec<u8>) {
        match source {
            Source::Network => self.network = bytes,
            Source::Factory => self.factory = bytes,
        }
    }

    pub fn store(&mut self, sector: u8, record: &[u8]) -> Result<usize, Refusal> {
        shared::store(&mut self.network, sector, record)
    }

    pub fn fetch(&self, sector: u8) -> Result<Option<Held<'_>>, Refusal> {
        shared::fetch(&self.network, &self.factory, sector)
    }

    pub fn write_answer(&self, sector: u8, out: &mut [u8]) -> Result<usize, Refusal> {
        shared::write_answer(&self.network, &self.factory, sector, out)
    }
}

#[cfg(test)]
mod tests {
    use super::*;

    #[test]
    fn neither_image_is_the_other() {
        let mut images = Images::default();
        images.set(Source::Factory, vec![7; 8080]);
        assert_eq!(
            (images.of(Source::Network), images.of(Source::Factory)),
            (&[0; 8080][..], &[7; 8080][..])
        );
        assert_eq!(images.store(9, &[1, 2, 3, 4, 5, 6]), Ok(1));
        assert_eq!(images.of(Source::Factory), &[7; 8080]);
        let source = |sector| images.fetch(sector).unwrap().map(|held| held.source);
        let sources = [Some(Source::Network), Some(Source::Factory), None];
        assert_eq!([source(9), source(7), source(8)], sources);
        images.set(Source::Network, vec![9]);
        assert_eq!(
            (images.of(Source::Network), images.fetch(7)),
            (&[9][..], Err(Refusal::StateUnfit))
        );
    }
}
