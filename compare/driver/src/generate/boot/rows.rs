//! Rows of a memory map around what a boot uses.

use crate::parts::Part;
use crate::question::PVH;
use crate::rng::Rng;

/// How many rows there are to be.
pub fn count(rng: &mut Rng, entry: u64) -> usize {
    match rng.below(128) {
        0 if entry != PVH => rng.length(127, 129),
        1 => rng.length(9, 20),
        _ => rng.length(1, 7),
    }
}

/// So many rows, of which those of type 1 have every part; three numbers each, and four for a start block.
pub fn rows(rng: &mut Rng, used: Vec<Part>, end: u64, count: usize, entry: u64) -> Vec<u64> {
    let used = used.into_iter().filter(|(_, size)| *size > 0);
    let touching = rng.one_in(2);
    let each = merged(used.collect(), touching);
    let mut rows: Vec<[u64; 3]> = match rng.below(3) {
        0 => vec![[0, end + rng.below(9), 1]],
        1 if each.len() <= count => each
            .iter()
            .map(|(from, to)| [*from, to - from, 1])
            .collect(),
        _ => {
            let first = each.first().map_or(0, |(from, _)| *from);
            let last = each.last().map_or(1, |(_, to)| *to);
            vec![[first, last - first, 1]]
        }
    };
    let mut next = end + 20;
    while rows.len() < count {
        let size = 1 + rng.below(9);
        rows.push([next, size, rng.pick(&[0, 1, 2, 2, 3, 5, u32::MAX.into()])]);
        next += size + rng.below(2);
    }
    for last in (1..rows.len()).rev() {
        rows.swap(last, rng.length(0, last));
    }
    let numbers = rows.into_iter().flat_map(|[address, size, kind]| {
        let reserved = (entry == PVH).then_some(0);
        [address, size, kind].into_iter().chain(reserved)
    });
    numbers.collect()
}

/// Starts and ends, with those in one that overlap, and those that touch if that is wanted.
pub fn merged(mut parts: Vec<Part>, touching: bool) -> Vec<(u64, u64)> {
    parts.sort_unstable();
    let mut merged: Vec<(u64, u64)> = Vec::new();
    for (address, size) in parts {
        let end = address.saturating_add(size);
        match merged.last_mut() {
            Some((_, last)) if address < *last + u64::from(touching) => *last = end.max(*last),
            _ => merged.push((address, end)),
        }
    }
    merged
}
