//! Room that is lent to the writer of a payload.

use crate::refusal::Refusal;

/// Puts the payload at the front of `out` and gives its length: 11 where it is
/// longer than `out`. Bytes of `out` past it stay.
pub fn put(payload: &[u8], out: &mut [u8]) -> Result<usize, Refusal> {
    let place = out.get_mut(..payload.len()).ok_or(Refusal::NoRoom)?;
    place.copy_from_slice(payload);
    Ok(payload.len())
}

#[cfg(test)]
mod tests {
    use super::*;

    #[test]
    fn what_does_not_fit_changes_nothing() {
        for room in 0..=5 {
            let mut out = vec![0xEE; room];
            if room < 3 {
                assert_eq!(put(&[1, 2, 3], &mut out), Err(Refusal::NoRoom));
                assert_eq!(out, vec![0xEE; room]);
            } else {
                assert_eq!(put(&[1, 2, 3], &mut out), Ok(3));
                assert_eq!(out, [&[1, 2, 3][..], &vec![0xEE; room - 3]].concat());
            }
        }
        assert_eq!(put(&[], &mut []), Ok(0));
    }
}
