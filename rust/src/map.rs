//! Which ranges of guest memory there is memory in.

use crate::GuestAddress;

/// The ranges of guest memory in which there is memory; what lies between them are holes, and no load writes there. A kernel's segment, a
/// kernel or a line has room at an address where all its bytes lie within one range.
///
/// A map is good over a slice of guest memory where it has at most 16 ranges, no range is empty, each ends within the slice, and each begins
/// behind the end of the one before with a byte or more between them: ranges that touch are one range. Any ranges can be put into a map; a
/// load refuses one that is not good over the slice that it is given.
///
/// ```
/// use rekusoyen::{GuestAddress, Map};
///
/// // a gap below 4 GiB
/// let map = Map::from_ranges(&[(GuestAddress(0), 0xc000_0000), (GuestAddress(0x1_0000_0000), 0x4000_0000)]);
/// assert_eq!(map.ranges().count(), 2);
/// assert_eq!(Map::whole(64), Map::from_ranges(&[(GuestAddress(0), 64)]));
/// ```
#[derive(Clone, Debug, Default, PartialEq, Eq)]
pub struct Map {
    /// start and size in turn
    numbers: Vec<u64>,
}

impl Map {
    /// The map of these ranges, each by its first address and its size in bytes.
    pub fn from_ranges(ranges: &[(GuestAddress, usize)]) -> Map {
        ranges.iter().copied().collect()
    }

    /// The map of a slice without holes: one range, or none where the slice is empty.
    pub fn whole(length: usize) -> Map {
        let range = (GuestAddress(0), length);
        (length > 0).then(|| range).into_iter().collect()
    }

    /// Its ranges.
    pub fn ranges(&self) -> impl Iterator<Item = (GuestAddress, usize)> + '_ {
        let pairs = self.numbers.chunks_exact(2);
        pairs.map(|pair| (GuestAddress(pair[0]), pair[1] as usize))
    }

    pub(crate) fn numbers(&self) -> &[u64] {
        &self.numbers
    }

    /// Where its last range ends: the size of the smallest guest memory over which it is good, if it is good over any.
    pub(crate) fn end(&self) -> u64 {
        let last = self.numbers.chunks_exact(2).last();
        last.map_or(0, |pair| pair[0].saturating_add(pair[1]))
    }
}

impl FromIterator<(GuestAddress, usize)> for Map {
    fn from_iter<I: IntoIterator<Item = (GuestAddress, usize)>>(ranges: I) -> Map {
        let pairs = ranges.into_iter();
        Map {
            numbers: pairs
                .flat_map(|(start, size)| [start.0, size as u64])
                .collect(),
        }
    }
}
