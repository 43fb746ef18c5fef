//! What a step of a load costs the library, by how many program headers the image has and how many of them were passed before: segments of
//! one byte, and a budget of 1.

use crate::images;
use crate::memory::{Memory, GUEST};
use crate::report::{cell, duration};
use crate::rounds::{interleaved, ratio, spread};
use rekusoyen::loader::ElfSteps;
use rekusoyen::Map;
use std::hint::black_box;
use std::time::{Duration, Instant};

/// How many steps are timed together.
const STEPS: usize = 500;

/// Program headers, of which 65,535 is the greatest count that an image can have, and those that were passed before the timed steps.
const CASES: [(usize, usize); 4] = [(1_024, 1), (65_535, 1), (65_535, 32_768), (65_535, 65_000)];

const ROUNDS: usize = 60;

/// A load that stands behind some of its headers.
struct Load {
    image: Memory,
    map: Map,
    passed: usize,
}

impl Load {
    fn new(headers: usize, passed: usize) -> Load {
        Load {
            image: images::elf(headers, 1),
            map: Map::whole(GUEST),
            passed,
        }
    }

    fn step(&self, load: &mut ElfSteps, guest: &mut Memory, budget: u64) -> u64 {
        let step = load.step(guest, &self.map, &self.image, budget);
        step.expect("a good image").copied
    }

    /// The time of so many steps behind the headers that are passed in one.
    fn repeat(&self, guest: &mut Memory, steps: usize) -> Duration {
        let mut load = ElfSteps::new(None, None);
        self.step(&mut load, guest, self.passed as u64);
        let start = Instant::now();
        for _ in 0..steps {
            black_box(self.step(&mut load, guest, 1));
        }
        start.elapsed()
    }
}

/// Takes so many steps, for a profiler to look at.
pub fn repeat(headers: usize, passed: usize, steps: usize) {
    let mut guest = Memory::filled(GUEST, 1);
    Load::new(headers, passed).repeat(&mut guest, steps);
}

/// Measures all of them and prints a table.
pub fn print() {
    let loads = CASES.map(|(headers, passed)| Load::new(headers, passed));
    let mut guest = Memory::filled(GUEST, 1);
    for load in &loads {
        load.repeat(&mut guest, STEPS);
    }
    let times = interleaved(loads.len(), ROUNDS, |which| {
        loads[which].repeat(&mut guest, STEPS)
    });
    println!("\nThe library in steps, ELF, segments of 1 byte, a budget of 1, {STEPS} steps:\n");
    println!("| headers | passed before | all steps | to the first row |");
    println!("|---|---|---|---|");
    for ((headers, passed), seconds) in CASES.iter().zip(&times) {
        println!(
            "| {headers} | {passed} | {} | {} |",
            duration(spread(seconds.clone()).median),
            cell(ratio(seconds, &times[0])),
        );
    }
}

#[cfg(test)]
mod tests {
    use super::*;
    use rekusoyen::loader::Elf;

    /// Behind the headers that are passed each step copies a byte, and all of them together load what one load does.
    #[test]
    fn the_steps_are_those_of_the_whole_load() {
        let load = Load::new(100, 40);
        let mut whole = Memory::filled(GUEST, 7);
        Elf::load_into(&mut whole, None, &load.image, None).unwrap();
        let mut guest = Memory::filled(GUEST, 7);
        let mut steps = ElfSteps::new(None, None);
        assert_eq!(load.step(&mut steps, &mut guest, 40), 40);
        for _ in 40..100 {
            assert_eq!(load.step(&mut steps, &mut guest, 1), 1);
        }
        assert!(guest == whole);
        assert_eq!(load.step(&mut steps, &mut guest, 1), 0);
    }

    #[test]
    fn enough_headers_are_left_for_the_timed_steps() {
        assert!(CASES
            .iter()
            .all(|(headers, passed)| headers - passed >= STEPS));
    }
}
