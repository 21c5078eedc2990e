//! Setups that are taken and setups that are refused.

use super::Generator;
use crate::line::Line;
use crate::state::MAX_MAC;

impl Generator<'_> {
    pub(super) fn setup_line(&mut self, k: usize) -> Line {
        let pool = match self.rng.below(3) {
            0 => (16..16 + k as u8).collect(),
            _ => self.rising_pool(k),
        };
        let mac = self.any_mac();
        self.setup_of(mac, &pool)
    }

    /// k different addresses of 1 to 254, rising; 1 and 254 are frequent.
    fn rising_pool(&mut self, k: usize) -> Vec<u8> {
        let mut pool: Vec<u8> = vec![self.rng.pick(&[1, 254])];
        while pool.len() < k {
            let address = self.rng.between(1, 254) as u8;
            if !pool.contains(&address) {
                pool.push(address);
            }
        }
        pool.sort_unstable();
        pool
    }

    fn setup_of(&mut self, mac: u64, pool: &[u8]) -> Line {
        let any = self.rng.byte();
        let subnet = self.rng.pick(&[3, 2, 0, 255, any]);
        let internal = self.rng.pick(&[1, 0, 21, 165]);
        let session = self.any_session();
        let mut text = format!("setup {subnet} {internal} {mac} {session}");
        for address in pool {
            text.push_str(&format!(" {address}"));
        }
        Line::plain(text)
    }

    pub(super) fn refused_setup(&mut self) -> Line {
        let good = self.any_mac();
        let bad = self.bad_mac();
        let (mac, pool) = match self.rng.below(8) {
            0 => (good, vec![5, 5]),
            1 => (good, vec![0, 5]),
            2 => (good, vec![5, 255]),
            3 => (good, vec![9, 5]),
            4 => (good, (1..=41).collect()),
            5 => (bad, vec![7, 6]),
            6 => (bad, (1..=40).collect()),
            _ => (bad, vec![16]),
        };
        self.setup_of(mac, &pool)
    }

    pub(super) fn any_mac(&mut self) -> u64 {
        match self.rng.below(12) {
            0 => MAX_MAC,
            1 => 1 + self.rng.draw() % 500,
            _ => 1 + self.rng.draw() % MAX_MAC,
        }
    }

    pub(super) fn bad_mac(&mut self) -> u64 {
        let high = self.rng.draw() | (1 << 56);
        self.rng.pick(&[0, 0, MAX_MAC + 1, u64::MAX, high])
    }

    pub(super) fn any_session(&mut self) -> u64 {
        let value = self.rng.draw();
        self.rng.pick(&[value, value, value, value % 1000, u64::MAX, 0])
    }
}
