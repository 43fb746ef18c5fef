//! The map of guest memory that has regions.

use vm_memory::{GuestMemoryBackend, GuestMemoryRegion};

use crate::entry::LONGEST_SLICE;
use crate::{GuestAddress, Map};

/// The ranges of guest memory: regions that touch are one range. What lies at 2^40 or above is left out.
pub(crate) fn map_of<M: GuestMemoryBackend>(guest_mem: &M) -> Map {
    let regions = guest_mem.iter().map(|region| {
        let start = region.start_addr().0;
        let end = start.saturating_add(region.len());
        (start, end.min(LONGEST_SLICE))
    });
    joined(regions.collect())
        .into_iter()
        .map(|(start, end)| (GuestAddress(start), (end - start) as usize))
        .collect()
}

/// The end of the last region.
pub(super) fn end_of<M: GuestMemoryBackend>(guest_mem: &M) -> u64 {
    let ends = guest_mem
        .iter()
        .map(|region| region.start_addr().0.saturating_add(region.len()));
    ends.max().unwrap_or(0)
}

/// The same map with no range but the one that has an address: what lies within one range of the map lies within that one.
pub(super) fn range_with(map: &Map, address: GuestAddress) -> Map {
    map.ranges()
        .filter(|(start, size)| *start <= address && address.0 - start.0 < *size as u64)
        .collect()
}

/// Starts and ends in rising order, joined where they touch or overlap. Empty ones are left out.
pub(super) fn joined(mut ranges: Vec<(u64, u64)>) -> Vec<(u64, u64)> {
    ranges.retain(|(start, end)| start < end);
    ranges.sort_unstable();
    let mut joined: Vec<(u64, u64)> = Vec::new();
    for (start, end) in ranges {
        match joined.last_mut() {
            Some(last) if start <= last.1 => last.1 = last.1.max(end),
            _ => joined.push((start, end)),
        }
    }
    joined
}

#[cfg(test)]
mod tests {
    use super::*;

    #[test]
    fn ranges_that_touch_or_overlap_are_one() {
        assert_eq!(joined(vec![]), []);
        assert_eq!(joined(vec![(3, 3), (5, 4)]), []);
        assert_eq!(joined(vec![(4, 6), (0, 2), (2, 3)]), [(0, 3), (4, 6)]);
        assert_eq!(
            joined(vec![(0, 9), (1, 2), (3, 10), (11, 12)]),
            [(0, 10), (11, 12)]
        );
    }

    #[test]
    fn the_range_of_an_address_alone_is_kept() {
        let map = Map::from_ranges(&[(GuestAddress(2), 3), (GuestAddress(7), 1)]);
        let kept = |address| range_with(&map, GuestAddress(address)).numbers().to_vec();
        for (address, numbers) in [
            (1, vec![]),
            (2, vec![2, 3]),
            (4, vec![2, 3]),
            (5, vec![]),
            (7, vec![7, 1]),
            (8, vec![]),
        ] {
            assert_eq!(kept(address), numbers, "{address}");
        }
    }
}
