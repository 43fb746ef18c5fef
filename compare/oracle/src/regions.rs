//! The Rust crate of this repository over vm-memory: a region for each range of a map, and now and then several that touch. Images are read
//! by a `Cursor`.

use crate::guest::{content, Guests};
use driver::answer::{Answer, BzimageLoaded, ElfLoaded, Pvh, UNNUMBERED};
use driver::backend::{Backend, Reply};
use driver::domain;
use driver::question::{LineLoad, Load, Question};
use driver::rng::Rng;
use rekusoyen as program;
use rekusoyen::loader::elf::PvhBootCapability;
use rekusoyen::loader::{
    self, arm64, load_cmdline, BzImage, Elf, KernelLoader, KernelLoaderResult,
};
use std::io::Cursor;
use vm_memory::{Address, ByteValued, GuestAddress, GuestMemoryMmap};

#[path = "lines.rs"]
mod lines;

fn number_of(error: program::cmdline::Error) -> u8 {
    error.number() as u8
}

#[derive(Default)]
pub struct Regions {
    guests: Guests,
}

impl Backend for Regions {
    fn name(&self) -> &str {
        "regions"
    }

    fn ask(&mut self, question: &Question) -> Reply {
        let is_asked = match question {
            // what vm-memory has no regions for cannot be asked
            Question::Elf(_) | Question::Bzimage(_) | Question::Arm64(_) => {
                domain::has_regions(question)
            }
            // its lines are texts of Rust's, as the published crate's are
            Question::LineLoad(_) => domain::asks_crate(question),
            _ => false,
        };
        if !is_asked {
            return Reply::Outside;
        }
        let regions = split(&question.numbers(), question.guest());
        Reply::Answer(match question {
            Question::Elf(load) => self.elf(load, &regions),
            Question::Bzimage(load) => self.bzimage(load, &regions),
            Question::Arm64(load) => self.arm64(load, &regions),
            Question::LineLoad(load) => self.line_load(load, &regions),
            _ => unreachable!("it is not asked"),
        })
    }
}

type Loaded = Result<KernelLoaderResult, u8>;

impl Regions {
    fn elf(&mut self, load: &Load, regions: &[u64]) -> Answer {
        let memory = self.guests.holding(&load.guest, Some(regions));
        let outcome = run::<Elf>(memory, load).map(|loaded| ElfLoaded {
            load: loaded.kernel_load.raw_value(),
            end: loaded.kernel_end,
            pvh: match loaded.pvh_boot_cap {
                PvhBootCapability::PvhEntryPresent(address) => Pvh::At(address.raw_value(), None),
                PvhBootCapability::PvhEntryNotPresent => Pvh::None,
                PvhBootCapability::PvhEntryIgnored => Pvh::Ignored,
            },
        });
        let guest = content(memory, &load.guest);
        Answer::Elf { outcome, guest }
    }

    fn bzimage(&mut self, load: &Load, regions: &[u64]) -> Answer {
        let memory = self.guests.holding(&load.guest, Some(regions));
        let outcome = run::<BzImage>(memory, load).map(|loaded| BzimageLoaded {
            load: loaded.kernel_load.raw_value(),
            end: loaded.kernel_end,
            header: loaded
                .setup_header
                .map_or(vec![], |header| header.as_slice().to_vec()),
        });
        let guest = content(memory, &load.guest);
        Answer::Bzimage { outcome, guest }
    }

    fn arm64(&mut self, load: &Load, regions: &[u64]) -> Answer {
        let memory = self.guests.holding(&load.guest, Some(regions));
        let outcome = run::<arm64::Image>(memory, load);
        let outcome = outcome.map(|loaded| (loaded.kernel_load.raw_value(), loaded.kernel_end));
        let guest = content(memory, &load.guest);
        Answer::Arm64 { outcome, guest }
    }

    fn line_load(&mut self, load: &LineLoad, regions: &[u64]) -> Answer {
        let (calls, line) = lines::answer_calls(&load.calls);
        let memory = self.guests.holding(&load.guest, Some(regions));
        let outcome = load_cmdline(memory, GuestAddress(load.address), &line).map_err(number);
        Answer::LineLoad {
            calls,
            outcome,
            guest: content(memory, &load.guest),
        }
    }
}

fn run<L: KernelLoader>(memory: &GuestMemoryMmap, load: &Load) -> Loaded {
    let [offset, highmem] = [load.options.offset, load.options.highmem];
    let image = &mut Cursor::new(&load.image);
    L::load(
        memory,
        offset.map(GuestAddress),
        image,
        highmem.map(GuestAddress),
    )
    .map_err(number)
}

fn number(error: loader::Error) -> u8 {
    error.number().map_or(UNNUMBERED, |number| number as u8)
}

/// The ranges of a map, each cut now and then into regions that touch. Where is told by the guest's bytes, so that a question has one answer.
fn split(map: &[u64], guest: &[u8]) -> Vec<u64> {
    let mixed = |seed: u64, byte: &u8| seed.wrapping_mul(31).wrapping_add((*byte).into());
    let seed = guest.iter().take(16).fold(7, mixed);
    let mut rng = Rng::new(seed);
    let mut regions = Vec::new();
    for range in map.chunks_exact(2) {
        let (mut start, mut size) = (range[0], range[1]);
        while size > 1 && rng.one_in(2) {
            let cut = 1 + rng.below(size - 1);
            regions.extend([start, cut]);
            (start, size) = (start + cut, size - cut);
        }
        regions.extend([start, size]);
    }
    regions
}

#[cfg(test)]
mod tests {
    use super::*;
    use driver::{examples, over_second};

    #[test]
    fn the_worked_examples_are_answered_over_regions() {
        let mut regions = Regions::default();
        let mut asked = 0;
        for question in examples::all() {
            let wanted = over_second::answer(&question);
            let reply = regions.ask(&question);
            asked += usize::from(matches!(reply, Reply::Answer(_)));
            assert!(regions.agrees(&question, &wanted, &reply), "{reply:?}");
        }
        assert!(asked > 3, "{asked}");
    }

    #[test]
    fn ranges_are_cut_into_regions_that_touch() {
        let mut most = 0;
        for byte in 0..100 {
            let regions = split(&[5, 10, 20, 1], &[byte]);
            assert_eq!(regions[regions.len() - 2..], [20, 1]);
            let mut end = 5;
            for region in regions[..regions.len() - 2].chunks_exact(2) {
                assert_eq!(region[0], end);
                end += region[1];
            }
            assert_eq!(end, 15);
            most = most.max(regions.len() / 2);
        }
        assert!(most > 3, "{most}");
    }
}
