//! The published crate as a backend, asked only inside its domain.

use crate::guest::{content, Guests};
use crate::numbers;
use crate::pages;
use crate::starts;
use driver::answer::{Answer, BzimageLoaded, ElfLoaded, NoteWalked, Pvh};
use driver::backend::{Backend, Reply};
use driver::compare;
use driver::domain::{self, WALK_FRONT};
use driver::examples::put;
use driver::question::{LineLoad, Load, Options, Question, StartWrite, Walk};
use driver::Rules;
use linux_loader::loader::elf::PvhBootCapability;
use linux_loader::loader::{load_cmdline, BzImage, Elf, KernelLoader, KernelLoaderResult};
use std::io::Cursor;
use std::panic::{catch_unwind, AssertUnwindSafe};
use vm_memory::{Address, ByteValued, GuestAddress, GuestMemoryMmap};

use linux_loader as program;
use numbers::of_cmdline as number_of;

#[path = "lines.rs"]
mod lines;

#[derive(Default)]
pub struct Published {
    guests: Guests,
}

impl Backend for Published {
    fn name(&self) -> &str {
        "crate"
    }

    fn rules(&self) -> Rules {
        Rules::PUBLISHED
    }

    fn ask(&mut self, question: &Question) -> Reply {
        if !domain::asks_crate(question) {
            return Reply::Outside;
        }
        // a panic is a difference to be shown, not the end of the run
        let answered = catch_unwind(AssertUnwindSafe(|| self.answer(question)));
        answered.map_or(Reply::Failed("panicked".into()), Reply::Answer)
    }

    fn agrees(&self, question: &Question, wanted: &Answer, reply: &Reply) -> bool {
        compare::agrees_but_for_failed_copy(question, wanted, reply)
    }
}

type Loaded = Result<KernelLoaderResult, u8>;

impl Published {
    fn answer(&mut self, question: &Question) -> Answer {
        match question {
            Question::Elf(load) => self.elf(load),
            Question::Note(walk) => Answer::Note(self.note(walk)),
            Question::Bzimage(load) => self.bzimage(load),
            Question::Line(calls) => Answer::Line(lines::answer_calls(calls).0),
            Question::LineLoad(load) => self.line_load(load),
            Question::Words(_) | Question::Arm64(_) | Question::Job(_) | Question::Boot(_) => {
                unreachable!("the crate is not asked for these")
            }
            Question::PageBuild(build) => pages::build(build),
            Question::PageRead(read) => pages::read(read),
            Question::Steps(_) => unreachable!("the crate has no load in steps"),
            Question::StartWrite(write) => self.start_write(write),
            Question::StartCheck(_) => unreachable!("the crate is not asked to check a block"),
        }
    }

    fn elf(&mut self, load: &Load) -> Answer {
        let memory = self.guests.holding(&load.guest, load.map.as_deref());
        let outcome = run::<Elf>(memory, load.options, &load.image);
        Answer::Elf {
            outcome: outcome.map(|loaded| ElfLoaded {
                load: loaded.kernel_load.raw_value(),
                end: loaded.kernel_end,
                pvh: pvh(loaded.pvh_boot_cap),
            }),
            guest: content(memory, &load.guest),
        }
    }

    fn bzimage(&mut self, load: &Load) -> Answer {
        let memory = self.guests.holding(&load.guest, load.map.as_deref());
        let outcome = run::<BzImage>(memory, load.options, &load.image);
        Answer::Bzimage {
            outcome: outcome.map(|loaded| BzimageLoaded {
                load: loaded.kernel_load.raw_value(),
                end: loaded.kernel_end,
                header: loaded
                    .setup_header
                    .map_or(vec![], |header| header.as_slice().to_vec()),
            }),
            guest: content(memory, &load.guest),
        }
    }

    /// The crate walks notes inside an ELF load alone, so the walk is asked as the load of an image with one note header.
    fn note(&mut self, walk: &Walk) -> Result<NoteWalked, u8> {
        let mut image = vec![0; WALK_FRONT as usize];
        put(&mut image, 0, b"\x7fELF\x02\x01\x01");
        put(&mut image, 32, &64u64.to_le_bytes());
        put(&mut image, 54, &56u16.to_le_bytes());
        put(&mut image, 56, &1u16.to_le_bytes());
        put(&mut image, 64, &4u32.to_le_bytes());
        put(&mut image, 72, &(walk.place + WALK_FRONT).to_le_bytes());
        put(&mut image, 96, &walk.size.to_le_bytes());
        image.extend(&walk.image);
        let memory = self.guests.holding(&[0], None);
        let loaded = run::<Elf>(memory, Options::default(), &image)?;
        Ok(NoteWalked {
            pvh: pvh(loaded.pvh_boot_cap),
            headers: None,
        })
    }

    fn start_write(&mut self, write: &StartWrite) -> Answer {
        let memory = self.guests.holding(&write.guest, Some(&write.map));
        starts::write(write, memory);
        Answer::StartWrite {
            outcome: Ok(()),
            guest: content(memory, &write.guest),
        }
    }

    fn line_load(&mut self, load: &LineLoad) -> Answer {
        let (calls, line) = lines::answer_calls(&load.calls);
        let memory = self.guests.holding(&load.guest, load.map.as_deref());
        let outcome = load_cmdline(memory, GuestAddress(load.address), &line);
        Answer::LineLoad {
            calls,
            outcome: outcome.map_err(|error| numbers::of_line_load(error, load.map.is_some())),
            guest: content(memory, &load.guest),
        }
    }
}

fn run<L: KernelLoader>(memory: &GuestMemoryMmap, options: Options, image: &[u8]) -> Loaded {
    let offset = options.offset.map(GuestAddress);
    let highmem = options.highmem.map(GuestAddress);
    L::load(memory, offset, &mut Cursor::new(image), highmem).map_err(numbers::of_loader)
}

fn pvh(capability: PvhBootCapability) -> Pvh {
    match capability {
        PvhBootCapability::PvhEntryPresent(address) => Pvh::At(address.raw_value(), None),
        PvhBootCapability::PvhEntryNotPresent => Pvh::None,
        PvhBootCapability::PvhEntryIgnored => Pvh::Ignored,
    }
}

#[cfg(test)]
mod tests {
    use super::*;
    use driver::{examples, over_second};

    #[test]
    fn the_crate_answers_the_worked_examples_as_the_second_program_does() {
        let mut published = Published::default();
        for question in examples::all() {
            let wanted = over_second::answer_by(&question, published.rules());
            let reply = published.ask(&question);
            assert!(matches!(reply, Reply::Answer(_)));
            assert!(published.agrees(&question, &wanted, &reply), "{reply:?}");
        }
    }

    #[test]
    fn the_crate_answers_over_a_region_for_each_range() {
        let mut published = Published::default();
        let mut asked = 0;
        for question in examples::all() {
            let length = question.guest().len() as u64;
            for hole in 1..length.saturating_sub(1) {
                let map = vec![0, hole, hole + 1, length - hole - 1];
                let question = question.clone().over(Some(map));
                let wanted = over_second::answer_by(&question, published.rules());
                let reply = published.ask(&question);
                asked += usize::from(matches!(reply, Reply::Answer(_)));
                assert!(published.agrees(&question, &wanted, &reply), "{reply:?}");
            }
        }
        assert!(asked > 200, "{asked}");
    }

    #[test]
    fn the_crate_is_not_asked_outside_its_domain() {
        let mut load = examples::small_elf();
        load.guest.clear();
        let reply = Published::default().ask(&Question::Elf(load));
        assert!(matches!(reply, Reply::Outside));
    }
}
