//! Refusals of an ELF load.

use rekusoyen::loader::elf::{segments, Segment};
use rekusoyen::{GuestAddress, Refusal};

use super::{more_guest, Explained, Looks};
use crate::arguments::{Format, Load};
use crate::notes::{walk, Stop};
use crate::report::{number, segment_details};

const HEADER: u64 = 64;
const PROGRAM_HEADER: u64 = 56;

pub fn explain(refusal: Refusal, image: &[u8], asked: &Load) -> Option<Explained> {
    match refusal {
        Refusal::InvalidElfMagicNumber => Some(magic(image, asked)),
        Refusal::ReadElfHeader => Some(header(image)),
        Refusal::BigEndianElfOnLittle => Some(Explained::new(format!(
            "byte 5 of the ELF header is {}, and not 1: its numbers are {}",
            number(image, 5, 1),
            if number(image, 5, 1) == 2 { "big-endian" } else { "of no known order" }
        ))),
        Refusal::InvalidProgramHeaderSize => Some(Explained::new(format!(
            "e_phentsize is {}, and a program header has {PROGRAM_HEADER} bytes{}",
            number(image, 54, 2),
            if number(image, 4, 1) == 1 { ": it is a 32-bit ELF image" } else { "" }
        ))),
        Refusal::InvalidProgramHeaderOffset => Some(Explained::new(format!(
            "e_phoff is {:#x}: the program headers would begin inside the ELF header, which has {HEADER} bytes",
            number(image, 32, 8)
        ))),
        Refusal::InvalidEntryAddress => asked.highmem.map(|highmem| entry(image, highmem)),
        Refusal::ReadProgramHeader => Some(table(image)),
        Refusal::Overflow => sum_of_entry(image, asked).or_else(|| by_note(refusal, image, asked)),
        Refusal::ReadNoteHeader | Refusal::InvalidPvhNote => by_note(refusal, image, asked),
        _ => segments(image)
            .enumerate()
            .filter(|(_, segment)| segment.is_loadable())
            .find_map(|(i, segment)| by_segment(refusal, i, &segment, image, asked)),
    }
}

fn magic(image: &[u8], asked: &Load) -> Explained {
    let first: Vec<_> = image
        .iter()
        .take(4)
        .map(|byte| format!("{byte:02x}"))
        .collect();
    let about = format!(
        "the image begins with {}, and an ELF image with 7f 45 4c 46",
        first.join(" ")
    );
    let looks = Looks::of(image);
    if looks == Looks::Unknown && asked.format == Format::Auto {
        return Explained::new(about + ", and there is no 'HdrS' of a bzImage at 0x202");
    }
    looks.explain(about, asked.format)
}

fn header(image: &[u8]) -> Explained {
    match image.len() {
        0 => Explained::new("standard input was empty".to_string()),
        length => Explained::new(format!(
            "the image has {length} bytes, and an ELF header has {HEADER}"
        )),
    }
}

fn entry(image: &[u8], highmem: GuestAddress) -> Explained {
    let entry = number(image, 24, 8);
    Explained::advise(
        format!(
            "e_entry is {entry:#x}, below the start of high memory, {:#x}",
            highmem.0
        ),
        format!("--highmem {entry:#x} or lower, or none"),
    )
}

fn table(image: &[u8]) -> Explained {
    let (place, count) = (number(image, 32, 8), number(image, 56, 2));
    let end = u128::from(place) + u128::from(count * PROGRAM_HEADER);
    Explained::new(format!(
        "{count} program headers of {PROGRAM_HEADER} bytes from e_phoff {place:#x} on end at {end:#x}, and the image at {:#x}",
        image.len()
    ))
}

fn sum_of_entry(image: &[u8], asked: &Load) -> Option<Explained> {
    let (offset, entry) = (asked.offset?.0, number(image, 24, 8));
    let about = format!("the offset {offset:#x} and e_entry {entry:#x} add up to 2^64 or more");
    let advice = "a lower --offset, or none".to_string();
    offset
        .checked_add(entry)
        .is_none()
        .then(|| Explained::advise(about, advice))
}

/// What is wrong with a segment that is put into memory, if it is what the refusal says.
fn by_segment(
    refusal: Refusal,
    i: usize,
    segment: &Segment,
    image: &[u8],
    asked: &Load,
) -> Option<Explained> {
    let problem = Problem::of(segment, image, asked)?;
    let is_it = match refusal {
        Refusal::InvalidProgramHeaderAddress => problem == Problem::Address,
        Refusal::ReadKernelImage => matches!(problem, Problem::Image | Problem::Guest(_)),
        Refusal::MemoryOverflow => problem == Problem::Memory,
        Refusal::InvalidProgramHeaderFileSize => problem == Problem::Overfull,
        _ => false,
    };
    let about = format!("segment {i}: {}", segment_details(segment, image, asked));
    let advice = match problem {
        Problem::Guest(_) => more_guest(needed(image, asked)),
        Problem::Address if asked.offset.is_some() => Some("a lower --offset, or none".to_string()),
        _ => None,
    };
    is_it.then_some(Explained { about, advice })
}

/// How much guest memory all segments need that pass it.
fn needed(image: &[u8], asked: &Load) -> u128 {
    let loaded = segments(image).filter(Segment::is_loadable);
    let ends = loaded.filter_map(|segment| match Problem::of(&segment, image, asked) {
        Some(Problem::Guest(end)) => Some(end),
        _ => None,
    });
    ends.max().unwrap_or(0)
}

/// Why a loadable segment is refused.
#[derive(Clone, Copy, Debug, PartialEq)]
pub enum Problem {
    /// It has more bytes in the file than in memory.
    Overfull,
    /// The offset and its address add up to 2^64 or more.
    Address,
    /// Its bytes pass the image.
    Image,
    /// They pass guest memory, and would end here.
    Guest(u128),
    /// Its address and its size in memory add up to 2^64 or more.
    Memory,
}

impl Problem {
    /// The first that there is, in the order in which they are asked.
    pub fn of(segment: &Segment, image: &[u8], asked: &Load) -> Option<Problem> {
        if segment.p_filesz > segment.p_memsz {
            return Some(Problem::Overfull);
        }
        let has_bytes = segment.p_filesz > 0;
        if !has_bytes && segment.p_memsz == 0 {
            return None;
        }
        let Some(address) = asked
            .offset
            .map_or(0, |offset| offset.0)
            .checked_add(segment.p_paddr)
        else {
            return Some(Problem::Address);
        };
        let end_of = |start: u64| u128::from(start) + u128::from(segment.p_filesz);
        if has_bytes && end_of(segment.p_offset) > image.len() as u128 {
            Some(Problem::Image)
        } else if has_bytes && end_of(address) > u128::from(asked.guest) {
            Some(Problem::Guest(end_of(address)))
        } else if address.checked_add(segment.p_memsz).is_none() {
            Some(Problem::Memory)
        } else {
            None
        }
    }
}

/// The first note at which a walk stops as the refusal says. Notes are not looked at where an offset is given.
fn by_note(refusal: Refusal, image: &[u8], asked: &Load) -> Option<Explained> {
    if asked.offset.is_some() {
        return None;
    }
    let notes = segments(image)
        .enumerate()
        .filter(|(_, segment)| segment.is_note());
    let about = notes.into_iter().find_map(|(i, segment)| {
        let walked = walk(image, segment.p_offset, segment.p_filesz);
        let told = match walked.stop {
            Stop::Passes { what, end } if refusal == Refusal::ReadNoteHeader => {
                format!(
                    "its {what} ends at {end:#x}, and the image at {:#x}",
                    image.len()
                )
            }
            Stop::Size { what, size } if refusal == Refusal::Overflow => {
                format!("its {what} is {size:#x}, which rounded up to 4 does not fit into 32 bits")
            }
            Stop::Short(size) if refusal == Refusal::InvalidPvhNote => {
                format!("the descriptor of the PVH note has {size} bytes, and an address needs 4")
            }
            _ => return None,
        };
        Some(format!(
            "segment {i}, note {} at {:#x}: {told}",
            walked.notes.len(),
            walked.place
        ))
    });
    let advice =
        "--offset 0, with which the kernel stays where it is and notes are not read".to_string();
    about.map(|about| Explained::advise(about, advice))
}
