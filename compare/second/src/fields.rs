//! Little-endian numbers and ranges at a place of a slice.

use crate::Refusal;
use std::ops::Range;

/// The most bytes that an image or guest memory may have.
pub const SLICE_LIMIT: u64 = 1 << 40;

/// A sum of two addresses must stay below this.
pub const ADDRESS_LIMIT: u128 = 1 << 64;

/// Refuses a slice over the limit of sizes.
pub fn within_limit(length: usize) -> Result<(), Refusal> {
    if length as u64 > SLICE_LIMIT {
        return Err(Refusal::SliceTooLong);
    }
    Ok(())
}

/// Where `count` bytes from `place` on stand in a slice of `length` bytes, if all of them do.
pub fn range(length: usize, place: u128, count: u128) -> Option<Range<usize>> {
    let end = place + count;
    if end <= length as u128 {
        Some(place as usize..end as usize)
    } else {
        None
    }
}

/// The least multiple of 4 that is not below `size`.
pub fn rounded_up(size: u32) -> u64 {
    (u64::from(size) + 3) / 4 * 4
}

pub fn u16_at(bytes: &[u8], place: usize) -> u16 {
    u16::from_le_bytes(bytes[place..place + 2].try_into().unwrap())
}

pub fn u32_at(bytes: &[u8], place: usize) -> u32 {
    u32::from_le_bytes(bytes[place..place + 4].try_into().unwrap())
}

pub fn u64_at(bytes: &[u8], place: usize) -> u64 {
    u64::from_le_bytes(bytes[place..place + 8].try_into().unwrap())
}

#[cfg(test)]
mod tests {
    use super::*;

    #[test]
    fn numbers_are_little_endian() {
        let bytes = [0xff, 1, 2, 3, 4, 5, 6, 7, 8];
        assert_eq!(u16_at(&bytes, 1), 0x0201);
        assert_eq!(u32_at(&bytes, 1), 0x0403_0201);
        assert_eq!(u64_at(&bytes, 1), 0x0807_0605_0403_0201);
    }

    #[test]
    fn a_range_may_end_at_the_end_and_be_empty_there() {
        assert_eq!(range(8, 3, 5), Some(3..8));
        assert_eq!(range(8, 8, 0), Some(8..8));
        assert_eq!(range(8, 9, 0), None);
        assert_eq!(range(8, 3, 6), None);
        let far = u128::from(u64::MAX);
        assert_eq!(range(8, far, far), None);
    }

    #[test]
    fn rounding_never_wraps() {
        assert_eq!([0, 1, 3, 4, 5].map(rounded_up), [0, 4, 4, 4, 8]);
        assert_eq!(rounded_up(u32::MAX), 1 << 32);
    }

    #[test]
    fn the_limit_itself_is_allowed() {
        assert_eq!(within_limit(1 << 40), Ok(()));
        assert_eq!(within_limit((1 << 40) + 1), Err(Refusal::SliceTooLong));
    }
}
