//! What a map costs the library: loads of many program headers over one range and over several. Every segment lies in the last range, so
//! that the search for its room looks at all of them.

use crate::images::{self, START};
use crate::memory::{Memory, GUEST};
use crate::report::{cell, duration};
use crate::rounds::{interleaved, ratio, spread};
use rekusoyen::loader::Elf;
use rekusoyen::{GuestAddress, Map};
use std::hint::black_box;
use std::time::{Duration, Instant};

/// The counts of program headers, of which the last is the greatest that an image can have, and the counts of ranges.
const HEADERS: [usize; 3] = [16_384, 32_768, 65_535];
const RANGES: [usize; 3] = [1, 4, 16];

/// The bytes of each segment.
const SEGMENT: usize = 16;

const ROUNDS: usize = 60;

/// Ranges of a page with a page between them, and behind them the one that the kernel goes to.
fn map(ranges: usize) -> Map {
    const PAGE: u64 = 4096;
    let before =
        (0..ranges as u64 - 1).map(|range| (GuestAddress(2 * PAGE * range), PAGE as usize));
    let last = (GuestAddress(START), GUEST - START as usize);
    before.chain([last]).collect()
}

/// One of the loads that are measured.
struct Load {
    image: Memory,
    map: Map,
}

/// An image of so many headers, and a map of so many ranges.
pub fn load(headers: usize, ranges: usize) -> (Memory, Map) {
    let Load { image, map } = Load::new(headers, ranges);
    (image, map)
}

impl Load {
    fn new(headers: usize, ranges: usize) -> Load {
        Load {
            image: images::elf(headers, SEGMENT),
            map: map(ranges),
        }
    }

    fn repeat(&self, guest: &mut Memory, times: u32) -> Duration {
        let start = Instant::now();
        for _ in 0..times {
            let loaded = Elf::load_into_map(guest, black_box(&self.map), None, &self.image, None);
            black_box(loaded.expect("a good image"));
        }
        start.elapsed()
    }
}

/// Does one load so often, for a profiler to look at.
pub fn repeat(headers: usize, ranges: usize, times: u32) {
    let mut guest = Memory::filled(GUEST, 1);
    Load::new(headers, ranges).repeat(&mut guest, times);
}

/// Measures all of them and prints a table.
pub fn print() {
    let pairs = HEADERS.map(|headers| RANGES.map(|ranges| Load::new(headers, ranges)));
    let loads: Vec<&Load> = pairs.iter().flatten().collect();
    let mut guest = Memory::filled(GUEST, 1);
    for load in &loads {
        load.repeat(&mut guest, 1);
    }
    let times = interleaved(loads.len(), ROUNDS, |which| {
        loads[which].repeat(&mut guest, 1)
    });
    let of = |headers: usize, ranges: usize| &times[headers * RANGES.len() + ranges];
    println!("\nThe library over maps, ELF, segments of {SEGMENT} bytes, all in the last range:\n");
    println!(
        "| headers | 1 range | 4 ranges / 1 | 16 ranges / 1 | 16 ranges: all headers / {} |",
        HEADERS[0]
    );
    println!("|---|---|---|---|---|");
    for (row, headers) in HEADERS.iter().enumerate() {
        println!(
            "| {headers} | {} | {} | {} | {} |",
            duration(spread(of(row, 0).clone()).median),
            cell(ratio(of(row, 1), of(row, 0))),
            cell(ratio(of(row, 2), of(row, 0))),
            cell(ratio(of(row, 2), of(0, 2))),
        );
    }
}

#[cfg(test)]
mod tests {
    use super::*;

    /// Over any count of ranges the same is loaded as without a map, and nothing where the last range is left out.
    #[test]
    fn every_map_has_room_in_its_last_range_alone() {
        let image = images::elf(100, SEGMENT);
        let mut without = Memory::filled(GUEST, 7);
        let wanted = Elf::load_into(&mut without, None, &image, None).unwrap();
        for ranges in RANGES {
            let map = map(ranges);
            assert_eq!(map.ranges().count(), ranges);
            let mut guest = Memory::filled(GUEST, 7);
            let loaded = Elf::load_into_map(&mut guest, &map, None, &image, None);
            assert_eq!(loaded, Ok(wanted));
            assert!(guest == without);
            let fewer: Map = map.ranges().take(ranges - 1).collect();
            assert!(Elf::load_into_map(&mut guest, &fewer, None, &image, None).is_err());
        }
    }
}
