//! The works: what is done, that all contestants do the same, and how long it takes each.

use crate::contestants::{Contestant, Load};
use crate::images::{self, Pairs};
use crate::memory::{Memory, GUEST};
use crate::rounds;
use rekusoyen::loader::KernelLoaderResult;
use std::hint::black_box;
use std::time::{Duration, Instant};

/// The rounds of each work.
const ROUNDS: usize = 60;

/// How long a sample takes, about: each contestant repeats the work so often.
const SAMPLE: Duration = Duration::from_millis(20);

/// What one repetition takes each contestant, in seconds, round by round.
pub type Times = Vec<Vec<f64>>;

pub struct Work {
    pub title: &'static str,
    given: Given,
}

/// What a work is given.
enum Given {
    Elf(Memory),
    BzImage(Memory),
    Insertions(Vec<Pairs>),
    /// the text of a full line: made from it, written, put into guest memory
    Parsing(String),
    Writing(String),
    Putting(String),
}

/// Is guest memory there when a load begins, or does each page cost a fault?
#[derive(Clone, Copy)]
pub enum Pages {
    Touched,
    Untouched,
}

/// The name of a work, its title, and what it is given.
type Row = (&'static str, &'static str, fn() -> Given);

const ROWS: [Row; 8] = [
    ("large", "ELF, 4 segments of 8 MiB", || elf(4, 8 << 20)),
    ("bzimage", "bzImage of 14 MiB", || {
        Given::BzImage(images::bzimage(14 << 20))
    }),
    ("pages", "ELF, 1,000 segments of 4 KiB", || elf(1000, 4096)),
    ("small", "ELF, 1,000 segments of 64 bytes", || elf(1000, 64)),
    // a line is full after some 960 of these pairs
    ("lines", "1,000 insertions, into 5 lines", || {
        Given::Insertions(images::pairs(5, 200))
    }),
    ("parse", "try_from of a full line", || {
        Given::Parsing(images::full_text())
    }),
    ("write", "as_cstring of a full line", || {
        Given::Writing(images::full_text())
    }),
    ("put", "load_cmdline of a full line", || {
        Given::Putting(images::full_text())
    }),
];

fn elf(segments: usize, size: usize) -> Given {
    Given::Elf(images::elf(segments, size))
}

fn made(&(_, title, given): &Row) -> Work {
    let given = given();
    Work { title, given }
}

pub fn all() -> Vec<Work> {
    ROWS.iter().map(made).collect()
}

/// The one of this name: a profiler need not see the others made.
pub fn named(name: &str) -> Option<Work> {
    ROWS.iter().find(|row| row.0 == name).map(made)
}

impl Work {
    pub fn is_load(&self) -> bool {
        matches!(self.given, Given::Elf(_) | Given::BzImage(_))
    }

    /// Does the work so often, and gives the time. What is made ready for a load does not count; the making of lines does.
    pub fn repeat(
        &self,
        contestant: &dyn Contestant,
        pages: Pages,
        guest: &mut Memory,
        repetitions: u32,
    ) -> Duration {
        match (&self.given, pages) {
            (Given::Insertions(lists), _) => {
                timed(repetitions, || contestant.lines(black_box(lists)))
            }
            (Given::Parsing(text), _) => timed(repetitions, || contestant.parsed(black_box(text))),
            (Given::Writing(text), _) => timed(repetitions, contestant.writing(text)),
            (Given::Putting(text), _) => timed(repetitions, contestant.putting(guest, text)),
            (_, Pages::Touched) => timed(repetitions, self.ready(contestant, guest)),
            (_, Pages::Untouched) => (0..repetitions)
                .map(|_| timed(1, self.ready(contestant, &mut Memory::untouched(GUEST))))
                .sum(),
        }
    }

    fn ready<'a>(&'a self, contestant: &dyn Contestant, guest: &'a mut [u8]) -> Load<'a> {
        match &self.given {
            Given::Elf(image) => contestant.elf(guest, image),
            Given::BzImage(image) => contestant.bzimage(guest, image),
            _ => unreachable!("a work on a line is no load"),
        }
    }

    pub fn times(&self, contestants: &[Box<dyn Contestant>], pages: Pages) -> Times {
        let mut guest = Memory::filled(GUEST, 1);
        let mut sample = |which: usize, repetitions| {
            self.repeat(contestants[which].as_ref(), pages, &mut guest, repetitions)
        };
        // the first repetition warms up, the second tells how many make a sample
        let mut repetitions = vec![];
        for which in 0..contestants.len() {
            sample(which, 1);
            let once = sample(which, 1).as_nanos().max(1);
            repetitions.push(SAMPLE.as_nanos().div_ceil(once) as u32);
        }
        rounds::interleaved(contestants.len(), ROUNDS, |which| {
            sample(which, repetitions[which]) / repetitions[which]
        })
    }

    fn outcome(&self, contestant: &dyn Contestant) -> Outcome {
        let mut guest = Memory::filled(GUEST, 0xa5);
        match &self.given {
            Given::Insertions(lists) => return Outcome::Built(contestant.lines(lists)()),
            Given::Parsing(text) => return Outcome::Built(contestant.parsed(text)()),
            Given::Writing(text) => return Outcome::Built(vec![contestant.writing(text)()]),
            Given::Putting(text) => {
                contestant.putting(&mut guest, text)();
                return Outcome::Put(guest);
            }
            Given::Elf(_) | Given::BzImage(_) => {}
        }
        let answer = self.ready(contestant, &mut guest)();
        Outcome::Loaded(answer, guest)
    }
}

/// What a work leaves: the answer and guest memory, the texts of the lines, or guest memory alone.
#[derive(PartialEq)]
enum Outcome {
    Loaded(KernelLoaderResult, Memory),
    Built(Vec<Vec<u8>>),
    Put(Memory),
}

/// Every contestant does every work: all give the same answer and leave the same bytes.
pub fn check(works: &[Work], contestants: &[Box<dyn Contestant>]) {
    for work in works {
        let first = work.outcome(contestants[0].as_ref());
        for other in &contestants[1..] {
            assert!(
                work.outcome(other.as_ref()) == first,
                "{}: {} does not do as {} does",
                work.title,
                other.name(),
                contestants[0].name()
            );
        }
    }
}

fn timed<T>(repetitions: u32, mut work: impl FnMut() -> T) -> Duration {
    let start = Instant::now();
    for _ in 0..repetitions {
        black_box(work());
    }
    start.elapsed()
}

#[cfg(test)]
mod tests {
    use super::*;
    use crate::contestants::{Library, Lines, Plain, Putting, Writing};

    /// Does as the plain loader does, but for one byte.
    struct Spoilt;

    impl Contestant for Spoilt {
        fn name(&self) -> &'static str {
            "spoilt"
        }

        fn elf<'a>(&self, guest: &'a mut [u8], image: &'a [u8]) -> Load<'a> {
            Box::new(move || {
                let answer = Plain.elf(guest, image)();
                guest[GUEST - 1] ^= 1;
                answer
            })
        }

        fn bzimage<'a>(&self, guest: &'a mut [u8], image: &'a [u8]) -> Load<'a> {
            Box::new(move || {
                let mut answer = Plain.bzimage(guest, image)();
                answer.kernel_end ^= 1;
                answer
            })
        }

        fn lines(&self, lists: &[Pairs]) -> Lines {
            let lines = Plain.lines(lists);
            Box::new(move || {
                let mut texts = lines();
                texts[0][0] ^= 1;
                texts
            })
        }

        fn parsed(&self, text: &str) -> Lines {
            let lines = Plain.parsed(text);
            Box::new(move || {
                let mut texts = lines();
                texts[0][0] ^= 1;
                texts
            })
        }

        fn writing(&self, text: &str) -> Writing {
            let mut line = Plain.writing(text);
            Box::new(move || {
                let mut written = line();
                written[0] ^= 1;
                written
            })
        }

        fn putting<'a>(&self, guest: &'a mut [u8], text: &str) -> Putting<'a> {
            let text = text.to_string();
            Box::new(move || {
                Plain.putting(guest, &text)();
                guest[GUEST - 1] ^= 1;
            })
        }
    }

    #[test]
    fn a_single_byte_is_noticed() {
        let given = [
            Given::Elf(images::elf(2, 100)),
            Given::BzImage(images::bzimage(8 * 512 + 100)),
            Given::Insertions(images::pairs(1, 2)),
            Given::Parsing(images::full_text()),
            Given::Writing(images::full_text()),
            Given::Putting(images::full_text()),
        ];
        for given in given {
            let work = Work { title: "", given };
            let wanted = work.outcome(&Plain);
            assert!(work.outcome(&Library) == wanted);
            assert!(work.outcome(&Spoilt) != wanted);
        }
    }
}
