//! The map of guest memory: which ranges of the lent slice there is memory in.

use crate::Refusal;
use std::ops::Range;

/// The most ranges that a map may have.
pub const RANGE_LIMIT: usize = 16;

/// A good map over a slice.
#[derive(Clone, Debug, PartialEq, Eq)]
pub struct Map {
    ranges: Vec<Range<u128>>,
}

impl Map {
    /// The map that a list of numbers gives over a slice of `length` bytes: start, size, start, size, and so on. The ranges are not
    /// empty, lie within the slice, and each begins behind the end of the one before, with at least one byte between them.
    pub fn from_numbers(numbers: &[u64], length: usize) -> Result<Map, Refusal> {
        if numbers.len() % 2 != 0 || numbers.len() / 2 > RANGE_LIMIT {
            return Err(Refusal::BadMap);
        }
        let mut ranges: Vec<Range<u128>> = Vec::new();
        for pair in numbers.chunks_exact(2) {
            let start = u128::from(pair[0]);
            let end = start + u128::from(pair[1]);
            if pair[1] == 0 || end > length as u128 {
                return Err(Refusal::BadMap);
            }
            if ranges.last().is_some_and(|before| start <= before.end) {
                return Err(Refusal::BadMap);
            }
            ranges.push(start..end);
        }
        Ok(Map { ranges })
    }

    /// Where `size` bytes from `address` on stand in the slice, if all of them lie within one range.
    pub fn room(&self, address: u64, size: u64) -> Option<Range<usize>> {
        let first = u128::from(address);
        let end = first + u128::from(size);
        let holds = |range: &&Range<u128>| range.start <= first && end <= range.end;
        self.ranges.iter().find(holds)?;
        Some(first as usize..end as usize)
    }
}

/// The numbers of the map that has the whole slice: one range, or none where the slice is empty.
pub fn whole(length: usize) -> Vec<u64> {
    if length == 0 {
        return vec![];
    }
    vec![0, length as u64]
}

#[cfg(test)]
mod tests {
    use super::*;

    fn is_good(numbers: &[u64], length: usize) -> bool {
        Map::from_numbers(numbers, length).is_ok()
    }

    #[test]
    fn ranges_rise_and_do_not_touch() {
        assert!(is_good(&[0, 4, 5, 5], 10));
        assert!(!is_good(&[0, 4, 4, 6], 10));
        assert!(!is_good(&[0, 4, 3, 6], 10));
        assert!(!is_good(&[5, 5, 0, 4], 10));
        assert!(!is_good(&[0, 4, 0, 4], 10));
    }

    #[test]
    fn no_range_is_empty_or_passes_the_slice() {
        assert!(is_good(&[9, 1], 10));
        assert!(!is_good(&[9, 0], 10));
        assert!(!is_good(&[9, 2], 10));
        assert!(!is_good(&[10, 1], 10));
        assert!(!is_good(&[u64::MAX, 2], 10));
        assert!(!is_good(&[2, u64::MAX], 10));
    }

    #[test]
    fn there_are_0_to_16_ranges_of_two_numbers() {
        let numbers: Vec<u64> = (0..17).flat_map(|index| [2 * index, 1]).collect();
        for count in 0..=numbers.len() {
            let good = count % 2 == 0 && count <= 32;
            assert_eq!(is_good(&numbers[..count], 99), good, "{count}");
        }
        assert!(is_good(&[], 0));
        assert!(!is_good(&[0, 0], 0));
    }

    #[test]
    fn room_lies_within_one_range() {
        let map = Map::from_numbers(&[2, 4, 7, 3], 10).unwrap();
        assert_eq!(map.room(2, 4), Some(2..6));
        assert_eq!(map.room(7, 3), Some(7..10));
        for (address, size) in [(1, 1), (2, 5), (5, 2), (6, 1), (5, 3), (8, 3), (10, 1)] {
            assert_eq!(map.room(address, size), None, "{address} {size}");
        }
        assert_eq!(map.room(u64::MAX, u64::MAX), None);
        assert_eq!(Map::from_numbers(&[], 10).unwrap().room(0, 1), None);
    }

    #[test]
    fn the_whole_slice_is_a_good_map() {
        for length in 0..3 {
            let map = Map::from_numbers(&whole(length), length).unwrap();
            assert_eq!(map.room(0, length as u64).is_some(), length > 0);
            assert_eq!(map.room(1, length as u64), None);
        }
    }
}
