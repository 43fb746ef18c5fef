//! What is answered, and the line of text that says it.

use std::fmt::Write;

/// The number that stands for an error to which the rules give no number. None is ever expected.
pub const UNNUMBERED: u8 = 255;

#[derive(Clone, Copy, Debug, PartialEq, Eq)]
pub enum Pvh {
    Ignored,
    None,
    /// The entry's address, and the note that it was read from; the published crate does not tell which.
    At(u64, Option<Note>),
}

/// The descriptor of a note: its place in the image, and its size as the note's header has it.
#[derive(Clone, Copy, Debug, PartialEq, Eq)]
pub struct Note {
    pub place: u64,
    pub size: u64,
}

#[derive(Clone, Debug, PartialEq, Eq)]
pub struct ElfLoaded {
    pub load: u64,
    pub end: u64,
    pub pvh: Pvh,
}

#[derive(Clone, Debug, PartialEq, Eq)]
pub struct NoteWalked {
    pub pvh: Pvh,
    /// How many note headers were read; the published crate does not tell.
    pub headers: Option<u64>,
}

#[derive(Clone, Debug, PartialEq, Eq)]
pub struct BzimageLoaded {
    pub load: u64,
    pub end: u64,
    pub header: Vec<u8>,
}

/// The address of an arm64 file, and the end of its kernel's memory.
pub type Arm64Loaded = (u64, u64);

/// What stands in a page.
#[derive(Clone, Debug, PartialEq, Eq)]
pub struct PageFound {
    pub command_line: u32,
    pub ramdisk: u32,
    pub ramdisk_size: u32,
    pub header: Vec<u8>,
    /// Three for each row.
    pub numbers: Vec<u64>,
}

/// What an accepted start block says: its ten numbers, and four for each row of its lists.
#[derive(Clone, Debug, PartialEq, Eq)]
pub struct StartFound {
    pub block: Vec<u64>,
    pub modules: Vec<u64>,
    pub ranges: Vec<u64>,
}

/// What an accepted boot answers.
#[derive(Clone, Debug, PartialEq, Eq)]
pub struct Booted {
    pub load: u64,
    pub end: u64,
    pub pvh: Pvh,
    pub entry: u64,
}

/// How many numbers of a start block's list are told.
pub const NUMBERS_TOLD: usize = 400;

#[derive(Clone, Debug, PartialEq, Eq)]
pub enum CallAnswer {
    Ok,
    Refused(u8),
    /// What `as_cstring` wrote with its zero, or its refusal, and whether it changed any other byte of the lent output.
    Written {
        outcome: Result<Vec<u8>, u8>,
        spoilt: bool,
    },
    Equal(bool),
    /// A call that the published crate is not asked, for its rules differ there by intent.
    Unasked,
}

/// An answer; `guest` is the guest's whole content afterwards.
#[derive(Clone, Debug, PartialEq, Eq)]
pub enum Answer {
    Elf {
        outcome: Result<ElfLoaded, u8>,
        guest: Vec<u8>,
    },
    Note(Result<NoteWalked, u8>),
    Bzimage {
        outcome: Result<BzimageLoaded, u8>,
        guest: Vec<u8>,
    },
    Line(Vec<CallAnswer>),
    LineLoad {
        calls: Vec<CallAnswer>,
        outcome: Result<(), u8>,
        guest: Vec<u8>,
    },
    Words(WordsRead),
    PageBuild {
        outcome: Result<(), u8>,
        page: Vec<u8>,
    },
    PageRead(Result<PageFound, u8>),
    StartWrite {
        outcome: Result<(), u8>,
        guest: Vec<u8>,
    },
    StartCheck(Result<StartFound, u8>),
    Steps(StepsTold),
    Arm64 {
        outcome: Result<Arm64Loaded, u8>,
        guest: Vec<u8>,
    },
    Job {
        /// What is printed.
        text: String,
        /// What a program leaves in its guest memory is not seen.
        guest: Option<Vec<u8>>,
    },
    Boot {
        outcome: Result<Booted, u8>,
        guest: Vec<u8>,
    },
}

/// What the calls of a load in steps were told, and the guest afterwards.
#[derive(Clone, Debug, PartialEq, Eq)]
pub struct StepsTold {
    pub calls: Vec<StepTold>,
    pub guest: Vec<u8>,
}

#[derive(Clone, Debug, PartialEq, Eq)]
pub enum StepTold {
    /// It was no step.
    Refused(u8),
    /// The bytes copied, and the load's answer where it is at its end.
    Step(u64, Option<Told>),
}

/// The answer of a load that was taken in steps.
#[derive(Clone, Debug, PartialEq, Eq)]
pub enum Told {
    Elf(Result<ElfLoaded, u8>),
    Bzimage(Result<BzimageLoaded, u8>),
    Arm64(Result<Arm64Loaded, u8>),
}

/// What reading the words of a line left.
#[derive(Clone, Debug, PartialEq, Eq)]
pub struct WordsRead {
    /// The start, end and split of each word; or the refusal, and of an unclosed quote its place.
    pub outcome: Result<Vec<[u64; 3]>, (u8, Option<u64>)>,
    /// Whether any other place of the lists was changed.
    pub spoilt: bool,
}

impl Answer {
    /// The line that the sample has for this answer, without its line feed. `before` is the guest's first content.
    pub fn line(&self, before: &[u8]) -> String {
        let mut line = String::new();
        match self {
            Answer::Elf { outcome, guest } => {
                put_elf(&mut line, outcome);
                put_guest(&mut line, before, guest);
            }
            Answer::Note(Ok(walked)) => {
                let headers = walked.headers.map_or("?".into(), |count| count.to_string());
                line += &format!("note ok pvh {} headers {headers}", pvh(walked.pvh));
            }
            Answer::Note(Err(number)) => line += &format!("note refused {number}"),
            Answer::Bzimage { outcome, guest } => {
                put_bzimage(&mut line, outcome);
                put_guest(&mut line, before, guest);
            }
            Answer::Line(calls) => put_calls(&mut line, calls),
            Answer::LineLoad {
                calls,
                outcome,
                guest,
            } => {
                put_calls(&mut line, calls);
                match outcome {
                    Ok(()) => line += " load ok",
                    Err(number) => line += &format!(" load {number}"),
                }
                put_guest(&mut line, before, guest);
            }
            Answer::Words(read) => put_words(&mut line, read),
            Answer::PageBuild { outcome, page } => {
                match outcome {
                    Ok(()) => line += "page ok",
                    Err(number) => line += &format!("page refused {number}"),
                }
                put_guest(&mut line, before, page);
            }
            Answer::PageRead(Ok(found)) => {
                let (rows, header) = (found.numbers.len() / 3, hex(&found.header));
                let (at, ramdisk, size) = (found.command_line, found.ramdisk, found.ramdisk_size);
                line += &format!("page ok {rows} {at} {ramdisk} {size} header {header} rows");
                put_numbers(&mut line, &found.numbers);
            }
            Answer::PageRead(Err(number)) => line += &format!("page refused {number}"),
            Answer::Steps(told) => {
                line += "steps";
                for call in &told.calls {
                    line += " | ";
                    put_step(&mut line, call);
                }
                put_guest(&mut line, before, &told.guest);
            }
            Answer::Arm64 { outcome, guest } => {
                put_arm64(&mut line, outcome);
                put_guest(&mut line, before, guest);
            }
            Answer::StartWrite { outcome, guest } => {
                match outcome {
                    Ok(()) => line += "start ok",
                    Err(number) => line += &format!("start refused {number}"),
                }
                put_guest(&mut line, before, guest);
            }
            Answer::StartCheck(Ok(found)) => {
                line += "start accepted";
                put_numbers(&mut line, &found.block);
                for (name, list) in [("modules", &found.modules), ("ranges", &found.ranges)] {
                    line += &format!(" {name}");
                    put_numbers(&mut line, &list[..list.len().min(NUMBERS_TOLD)]);
                }
            }
            Answer::StartCheck(Err(number)) => line += &format!("start refused {number}"),
            Answer::Job { text, .. } => line += &format!("job {text:?}"),
            Answer::Boot { outcome, guest } => {
                put_boot(&mut line, outcome);
                put_guest(&mut line, before, guest);
            }
        }
        line
    }

    /// Every refusal's number in this answer.
    pub fn numbers(&self) -> Vec<u8> {
        let mut numbers = Vec::new();
        match self {
            Answer::Elf { outcome, .. } => numbers.extend(outcome.as_ref().err()),
            Answer::Note(outcome) => numbers.extend(outcome.as_ref().err()),
            Answer::Bzimage { outcome, .. } => numbers.extend(outcome.as_ref().err()),
            Answer::Line(calls) => numbers.extend(calls.iter().filter_map(refusal)),
            Answer::LineLoad { calls, outcome, .. } => {
                numbers.extend(calls.iter().filter_map(refusal));
                numbers.extend(outcome.err());
            }
            Answer::Words(read) => {
                numbers.extend(read.outcome.as_ref().err().map(|(number, _)| *number));
            }
            Answer::PageBuild { outcome, .. } => numbers.extend(outcome.err()),
            Answer::PageRead(outcome) => numbers.extend(outcome.as_ref().err()),
            Answer::Steps(told) => numbers.extend(told.calls.iter().filter_map(step_refusal)),
            Answer::Arm64 { outcome, .. } => numbers.extend(outcome.err()),
            Answer::StartWrite { outcome, .. } => numbers.extend(outcome.err()),
            Answer::StartCheck(outcome) => numbers.extend(outcome.as_ref().err()),
            Answer::Job { text, .. } => {
                let refusal = text.strip_prefix("refused ");
                numbers.extend(refusal.and_then(|number| number.trim_end().parse::<u8>().ok()));
            }
            Answer::Boot { outcome, .. } => numbers.extend(outcome.as_ref().err()),
        }
        numbers
    }
}

fn step_refusal(call: &StepTold) -> Option<u8> {
    match call {
        StepTold::Refused(number)
        | StepTold::Step(
            _,
            Some(Told::Elf(Err(number)) | Told::Bzimage(Err(number)) | Told::Arm64(Err(number))),
        ) => Some(*number),
        StepTold::Step(..) => None,
    }
}

fn refusal(call: &CallAnswer) -> Option<u8> {
    match call {
        CallAnswer::Refused(number) => Some(*number),
        CallAnswer::Written { outcome, .. } => outcome.as_ref().err().copied(),
        _ => None,
    }
}

fn put_numbers(line: &mut String, numbers: &[u64]) {
    for number in numbers {
        *line += &format!(" {number}");
    }
}

fn put_elf(line: &mut String, outcome: &Result<ElfLoaded, u8>) {
    *line += &match outcome {
        Ok(loaded) => format!(
            "elf ok {} {} pvh {}",
            loaded.load,
            loaded.end,
            pvh(loaded.pvh)
        ),
        Err(number) => format!("elf refused {number}"),
    };
}

fn put_bzimage(line: &mut String, outcome: &Result<BzimageLoaded, u8>) {
    *line += &match outcome {
        Ok(loaded) => {
            let header = hex(&loaded.header);
            format!("bzimage ok {} {} header {header}", loaded.load, loaded.end)
        }
        Err(number) => format!("bzimage refused {number}"),
    };
}

fn put_arm64(line: &mut String, outcome: &Result<Arm64Loaded, u8>) {
    *line += &match outcome {
        Ok((load, end)) => format!("arm64 ok {load} {end}"),
        Err(number) => format!("arm64 refused {number}"),
    };
}

fn put_boot(line: &mut String, outcome: &Result<Booted, u8>) {
    *line += &match outcome {
        Ok(booted) => {
            let (load, end, entry) = (booted.load, booted.end, booted.entry);
            format!("boot ok {load} {end} pvh {} entry {entry}", pvh(booted.pvh))
        }
        Err(number) => format!("boot refused {number}"),
    };
}

fn put_step(line: &mut String, call: &StepTold) {
    match call {
        StepTold::Refused(number) => *line += &format!("refused {number}"),
        StepTold::Step(copied, told) => {
            *line += &copied.to_string();
            match told {
                None => {}
                Some(Told::Elf(outcome)) => {
                    *line += " ";
                    put_elf(line, outcome);
                }
                Some(Told::Bzimage(outcome)) => {
                    *line += " ";
                    put_bzimage(line, outcome);
                }
                Some(Told::Arm64(outcome)) => {
                    *line += " ";
                    put_arm64(line, outcome);
                }
            }
        }
    }
}

fn put_calls(line: &mut String, calls: &[CallAnswer]) {
    *line += "line";
    for call in calls {
        *line += &match call {
            CallAnswer::Ok => " ok".into(),
            CallAnswer::Refused(number) => format!(" {number}"),
            CallAnswer::Written { outcome, spoilt } => {
                let spoilt = if *spoilt { " spoilt" } else { "" };
                match outcome {
                    Ok(bytes) => format!(" ok:{}{spoilt}", hex(bytes)),
                    Err(number) => format!(" {number}{spoilt}"),
                }
            }
            CallAnswer::Equal(true) => " equal".into(),
            CallAnswer::Equal(false) => " unequal".into(),
            CallAnswer::Unasked => " ?".into(),
        };
    }
}

fn put_words(line: &mut String, read: &WordsRead) {
    *line += "words";
    match &read.outcome {
        Ok(words) => {
            *line += &format!(" ok {}", words.len());
            for [start, end, split] in words {
                *line += &format!(" {start} {end} {split}");
            }
        }
        Err((number, place)) => {
            *line += &format!(" refused {number}");
            *line += &place.map_or(String::new(), |place| format!(" {place}"));
        }
    }
    if read.spoilt {
        *line += " spoilt";
    }
}

fn pvh(pvh: Pvh) -> String {
    match pvh {
        Pvh::Ignored => "ignored".into(),
        Pvh::None => "none".into(),
        Pvh::At(address, Some(note)) => format!("at {address} note {} {}", note.place, note.size),
        Pvh::At(address, None) => format!("at {address} note ? ?"),
    }
}

pub fn hex(bytes: &[u8]) -> String {
    let mut text = String::with_capacity(2 * bytes.len());
    for byte in bytes {
        write!(text, "{byte:02x}").expect("a string takes what is written to it");
    }
    text
}

/// The guest's length, its sum, and how many bytes changed, with the first and the last of them.
fn put_guest(line: &mut String, before: &[u8], after: &[u8]) {
    let changed = || (0..after.len()).filter(|place| before[*place] != after[*place]);
    let (count, first, last) = (changed().count(), changed().next(), changed().last());
    let (first, last) = (first.unwrap_or(0), last.unwrap_or(0));
    let (length, sum) = (after.len(), sum(after));
    *line += &format!(" guest {length} {sum} {count} {first} {last}");
}

/// The modulus is prime, so one changed byte always changes the sum.
fn sum(bytes: &[u8]) -> u64 {
    bytes.iter().fold(0, |sum, byte| {
        (sum * 257 + u64::from(*byte)) % 4_294_967_291
    })
}

#[cfg(test)]
mod tests {
    use super::*;

    #[test]
    fn an_elf_answer_reads_as_documented() {
        let loaded = ElfLoaded {
            load: 16,
            end: 24,
            pvh: Pvh::At(5, Some(Note { place: 7, size: 4 })),
        };
        let answer = Answer::Elf {
            outcome: Ok(loaded),
            guest: vec![1, 9, 3, 9],
        };
        let sum = ((257 + 9) * 257 + 3) * 257 + 9;
        let wanted = format!("elf ok 16 24 pvh at 5 note 7 4 guest 4 {sum} 2 1 3");
        assert_eq!(answer.line(&[1, 2, 3, 4]), wanted);
    }

    #[test]
    fn a_refused_load_still_tells_of_the_guest() {
        let answer = Answer::Bzimage {
            outcome: Err(24),
            guest: vec![],
        };
        assert_eq!(answer.line(&[]), "bzimage refused 24 guest 0 0 0 0 0");
        assert_eq!(answer.numbers(), [24]);
    }

    #[test]
    fn a_boot_tells_where_it_is_entered() {
        let booted = Booted {
            load: 1,
            end: 2,
            pvh: Pvh::Ignored,
            entry: 513,
        };
        let guest = vec![];
        let answer = Answer::Boot {
            outcome: Ok(booted),
            guest: guest.clone(),
        };
        let wanted = "boot ok 1 2 pvh ignored entry 513 guest 0 0 0 0 0";
        assert_eq!(answer.line(&[]), wanted);
        let outcome = Err(91);
        let refused = Answer::Boot { outcome, guest };
        assert_eq!(refused.line(&[]), "boot refused 91 guest 0 0 0 0 0");
        assert_eq!(refused.numbers(), [91]);
    }

    #[test]
    fn words_are_told_with_their_places() {
        let told = |outcome, spoilt| Answer::Words(WordsRead { outcome, spoilt });
        let words = told(Ok(vec![[0, 1, 1], [2, 5, 3]]), false);
        assert_eq!(words.line(&[]), "words ok 2 0 1 1 2 5 3");
        let unclosed = told(Err((71, Some(4))), false);
        assert_eq!(unclosed.line(&[]), "words refused 71 4");
        assert_eq!(unclosed.numbers(), [71]);
        let few = told(Err((72, None)), true);
        assert_eq!(few.line(&[]), "words refused 72 spoilt");
    }

    #[test]
    fn steps_are_told_one_behind_the_other() {
        let calls = vec![
            StepTold::Step(2, None),
            StepTold::Refused(63),
            StepTold::Step(0, Some(Told::Elf(Err(10)))),
        ];
        let answer = Answer::Steps(StepsTold {
            calls,
            guest: vec![1],
        });
        let wanted = "steps | 2 | refused 63 | 0 elf refused 10 guest 1 1 0 0 0";
        assert_eq!(answer.line(&[1]), wanted);
        assert_eq!(answer.numbers(), [63, 10]);
    }

    #[test]
    fn calls_are_answered_in_turn() {
        let written = |outcome, spoilt| CallAnswer::Written { outcome, spoilt };
        let calls = vec![
            CallAnswer::Ok,
            CallAnswer::Refused(47),
            written(Ok(vec![b'a', 0]), false),
            written(Err(62), true),
            CallAnswer::Equal(true),
            CallAnswer::Equal(false),
        ];
        let answer = Answer::Line(calls);
        let wanted = "line ok 47 ok:6100 62 spoilt equal unequal";
        assert_eq!(answer.line(&[]), wanted);
        assert_eq!(answer.numbers(), [47, 62]);
    }
}
