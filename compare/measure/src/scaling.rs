//! How the library's time grows: with the image, the segments, the notes, the ranges of a map and the length of a line. Each should be a
//! straight line.

use crate::chart::{Chart, Panel};
use crate::images::{self, CAPACITY};
use crate::memory::{Memory, GUEST};
use crate::ranges;
use crate::report::duration;
use crate::rounds::{interleaved, spread};
use crate::words;
use rekusoyen::cmdline::Cmdline;
use rekusoyen::loader::Elf;
use std::collections::HashMap;
use std::hint::black_box;
use std::path::Path;
use std::time::{Duration, Instant};

const ROUNDS: usize = 40;
const SAMPLE: Duration = Duration::from_millis(10);

/// What is measured at growing sizes.
pub struct Series {
    /// part of the plot's file name, and what a profiler asks for it by
    pub name: &'static str,
    title: &'static str,
    /// what the size counts
    unit: &'static str,
    /// how much of it the figure in the last columns is for
    share: usize,
    pub sizes: &'static [usize],
    make: fn(usize) -> Work,
}

/// Does the work once, in this guest memory.
type Work = Box<dyn Fn(&mut Memory)>;

pub fn all() -> Vec<Series> {
    vec![
        Series {
            name: "image",
            title: "ELF, 4 segments, by the bytes of the image",
            unit: "MiB",
            share: 1,
            sizes: &[4, 8, 16, 24, 32, 48],
            make: |mib| elf(images::elf(4, mib << 18)),
        },
        Series {
            name: "segments",
            title: "ELF, segments of 64 bytes, by their count",
            unit: "segments",
            share: 1,
            sizes: &[2_000, 8_000, 16_000, 32_000, 48_000, 65_535],
            make: |segments| elf(images::elf(segments, 64)),
        },
        Series {
            name: "notes",
            title: "ELF, one note header, by the notes it has",
            unit: "notes",
            share: 1,
            sizes: &[2_000, 8_000, 16_000, 32_000, 48_000, 64_000],
            make: |notes| elf(images::notes(1, notes)),
        },
        Series {
            name: "note-headers",
            title: "ELF, note headers over the same 1,000 notes, by their count",
            unit: "note headers",
            share: 1,
            sizes: &[10, 50, 100, 200, 400, 800],
            make: |headers| elf(images::notes(headers, 1_000)),
        },
        Series {
            name: "ranges",
            title: "ELF, 16,384 segments of 16 bytes in the last range, by the ranges of the map",
            unit: "ranges",
            share: 1,
            sizes: &[1, 4, 7, 10, 13, 16],
            make: |count| {
                let (image, map) = ranges::load(16_384, count);
                Box::new(move |guest| {
                    let loaded = Elf::load_into_map(guest, black_box(&map), None, &image, None);
                    black_box(loaded.expect("a good image"));
                })
            },
        },
        Series {
            name: "text",
            title: "A line made from its text, by the bytes of the text",
            unit: "bytes",
            share: 1_000,
            sizes: &[1_000, 4_000, 7_000, 10_000, 13_000, 16_000],
            make: |length| {
                let text = "name=value ".repeat(length.div_ceil(11))[..length].to_string();
                Box::new(move |_| {
                    let line = Cmdline::try_from(black_box(&text), CAPACITY);
                    black_box(line.expect("a good text"));
                })
            },
        },
        Series {
            name: "words",
            title: "The words of a line, by its bytes",
            unit: "bytes",
            share: 1_000,
            sizes: &[1_005, 4_005, 7_005, 10_005, 13_005, 16_005],
            make: |length| {
                let text = words::pairs(length);
                let lists = std::cell::RefCell::new(words::Lists::new());
                Box::new(move |_| {
                    black_box(words::library(black_box(&text), &mut lists.borrow_mut()));
                })
            },
        },
    ]
}

fn elf(image: Memory) -> Work {
    Box::new(move |guest| {
        let loaded = Elf::load_into(guest, None, black_box(&image), None);
        black_box(loaded.expect("a good image"));
    })
}

impl Series {
    /// Does the work of one size so often, for a profiler to look at.
    pub fn repeat(&self, size: usize, times: u32) {
        let work = (self.make)(size);
        let mut guest = Memory::untouched(GUEST);
        for _ in 0..times {
            work(&mut guest);
        }
    }

    /// The seconds of each size: the median of the rounds.
    fn seconds(&self) -> Vec<f64> {
        let works: Vec<_> = self.sizes.iter().map(|size| (self.make)(*size)).collect();
        let mut guest = Memory::filled(GUEST, 1);
        let mut timed = |which: usize, repetitions: u32| {
            let start = Instant::now();
            for _ in 0..repetitions {
                works[which](&mut guest);
            }
            start.elapsed()
        };
        let repetitions: Vec<_> = (0..works.len())
            .map(|which| {
                timed(which, 1);
                let once = timed(which, 1).as_nanos().max(1);
                SAMPLE.as_nanos().div_ceil(once) as u32
            })
            .collect();
        let times = interleaved(works.len(), ROUNDS, |which| {
            timed(which, repetitions[which]) / repetitions[which]
        });
        times.into_iter().map(|one| spread(one).median).collect()
    }

    fn print(&self, counts: &Counts, folder: &Path) {
        let seconds = self.seconds();
        let counted: Option<Vec<u64>> = self
            .sizes
            .iter()
            .map(|size| counts.get(&(self.name.to_string(), *size)).copied())
            .collect();
        let (of, share) = match self.share {
            1 => (String::new(), self.unit.trim_end_matches('s')),
            many => (format!("{} ", grouped(many as u64)), self.unit),
        };
        println!("\n{}:\n", self.title);
        println!(
            "| {} | time | per {of}{share} | instructions | per {of}{share} |",
            self.unit
        );
        println!("|---|---|---|---|---|");
        for (which, size) in self.sizes.iter().enumerate() {
            let shares = *size as f64 / self.share as f64;
            let (all, one) = match &counted {
                Some(counts) => (
                    grouped(counts[which]),
                    grouped((counts[which] as f64 / shares).round() as u64),
                ),
                None => ("not counted".to_string(), String::new()),
            };
            println!(
                "| {} | {} | {} | {all} | {one} |",
                grouped(*size as u64),
                duration(seconds[which]),
                small(seconds[which] / shares),
            );
        }
        let sizes: Vec<_> = self.sizes.iter().map(|size| *size as f64).collect();
        let micros: Vec<_> = seconds.iter().map(|seconds| seconds * 1e6).collect();
        let mut panels = vec![Panel::new("time, µs", &sizes, &micros)];
        if let Some(counts) = counted {
            let counts: Vec<_> = counts.iter().map(|count| *count as f64).collect();
            panels.push(Panel::new("instructions", &sizes, &counts));
        }
        let chart = Chart {
            title: self.title,
            unit: self.unit,
            panels,
        };
        let file = folder.join(format!("speed-{}.svg", self.name));
        std::fs::write(&file, chart.svg()).expect("the folder can be written");
    }
}

/// Instructions by series and size.
type Counts = HashMap<(String, usize), u64>;

/// Lines of SERIES SIZE COUNT.
fn read_counts(text: &str) -> Counts {
    let line = |line: &str| {
        let words: Vec<_> = line.split_whitespace().collect();
        let number = |word: &str| word.parse::<u64>().expect("a number");
        (
            (words[0].to_string(), number(words[1]) as usize),
            number(words[2]),
        )
    };
    text.lines().map(line).collect()
}

/// Measures every series, prints the tables and writes the plots into the folder. The file has what was counted, as lines of SERIES SIZE
/// COUNT; what it lacks is left out.
pub fn print(counts: &Path, folder: &Path) {
    let counts = std::fs::read_to_string(counts).expect("a file of counts");
    let counts = read_counts(&counts);
    for series in all() {
        series.print(&counts, folder);
    }
}

/// Prints every SERIES and SIZE, for whoever counts.
pub fn list() {
    for series in all() {
        for size in series.sizes {
            println!("{} {size}", series.name);
        }
    }
}

/// A short time, in three digits.
fn small(seconds: f64) -> String {
    match seconds {
        s if s >= 1e-4 => format!("{:.0} µs", s * 1e6),
        s if s >= 1e-6 => format!("{:.2} µs", s * 1e6),
        s => format!("{:.1} ns", s * 1e9),
    }
}

/// A number with commas.
fn grouped(number: u64) -> String {
    let digits = number.to_string();
    let groups: Vec<_> = digits.as_bytes().rchunks(3).rev().collect();
    groups
        .iter()
        .map(|group| std::str::from_utf8(group).expect("digits"))
        .collect::<Vec<_>>()
        .join(",")
}

#[cfg(test)]
mod tests {
    use super::*;

    #[test]
    fn numbers_have_commas() {
        assert_eq!(
            [0, 999, 1_000, 65_535, 1_234_567].map(grouped),
            ["0", "999", "1,000", "65,535", "1,234,567"]
        );
    }

    #[test]
    fn counts_are_read_by_series_and_size() {
        let counts = read_counts("image 4 100\nnotes 2000 7\n");
        assert_eq!(counts[&("image".to_string(), 4)], 100);
        assert_eq!(counts[&("notes".to_string(), 2000)], 7);
    }

    /// Every work does what it is for, at its smallest size.
    #[test]
    fn every_series_can_be_done() {
        for series in all() {
            series.repeat(series.sizes[0], 1);
        }
    }

    #[test]
    fn short_times_have_a_unit() {
        assert_eq!(
            [2.5e-4, 2.5e-6, 2.5e-8].map(small),
            ["250 µs", "2.50 µs", "25.0 ns"]
        );
    }
}
