//! The walk over the notes of one note segment, in search of the PVH entry point.

use crate::fields::{range, rounded_up, u32_at, within_limit};
use crate::Refusal;

const NOTE_HEADER_SIZE: u64 = 12;
const PVH_TYPE: u32 = 18;
const XEN: [u8; 4] = *b"Xen\0";
/// A skipped note with a greater size is refused: rounded up it would not be a 32-bit number.
const GREATEST_SIZE: u32 = 0xffff_fffc;

/// What an image says about PVH booting.
#[derive(Clone, Copy, Debug, PartialEq, Eq)]
pub enum Pvh {
    Present(Entry),
    NotPresent,
    Ignored,
}

/// The entry point, and the descriptor that it was read from: its place in the image, and its size as the note's header has it.
#[derive(Clone, Copy, Debug, PartialEq, Eq)]
pub struct Entry {
    pub address: u64,
    pub place: u64,
    pub size: u32,
}

/// What a walk found, and how many note headers it read on the way.
#[derive(Clone, Copy, Debug, PartialEq, Eq)]
pub struct Walked {
    pub pvh: Pvh,
    pub headers: u64,
}

/// Walks the notes that begin at `place`. `size` bounds where a note header may begin; what is read is bounded by the image alone.
pub fn walk(image: &[u8], place: u64, size: u64) -> Result<Walked, Refusal> {
    within_limit(image.len())?;
    let mut headers = 0;
    let mut read_size = 0;
    while read_size < size {
        let at = u128::from(place) + u128::from(read_size);
        let header = read(image, at, NOTE_HEADER_SIZE)?;
        headers += 1;
        let (name_size, descriptor_size, kind) =
            (u32_at(header, 0), u32_at(header, 4), u32_at(header, 8));
        if kind == PVH_TYPE && name_size == 4 {
            let name = read(image, at + 12, 4)?;
            if name == XEN {
                let entry = entry_point(image, at + 16, descriptor_size)?;
                let pvh = Pvh::Present(entry);
                return Ok(Walked { pvh, headers });
            }
        }
        if name_size > GREATEST_SIZE || descriptor_size > GREATEST_SIZE {
            return Err(Refusal::Overflow);
        }
        // a header that was read lies in the image, so this sum is far from 2^64
        read_size += NOTE_HEADER_SIZE + rounded_up(name_size) + rounded_up(descriptor_size);
    }
    let pvh = Pvh::NotPresent;
    Ok(Walked { pvh, headers })
}

/// What the descriptor of a found PVH note says; it stands at `at`.
fn entry_point(image: &[u8], at: u128, descriptor_size: u32) -> Result<Entry, Refusal> {
    if descriptor_size < 4 {
        return Err(Refusal::InvalidPvhNote);
    }
    let descriptor = read(image, at, 4)?;
    Ok(Entry {
        address: u64::from(u32_at(descriptor, 0)),
        // what was read lies in the image
        place: at as u64,
        size: descriptor_size,
    })
}

fn read(image: &[u8], at: u128, count: u64) -> Result<&[u8], Refusal> {
    match range(image.len(), at, u128::from(count)) {
        Some(place) => Ok(&image[place]),
        None => Err(Refusal::ReadNoteHeader),
    }
}

#[cfg(test)]
mod tests {
    use super::*;

    fn note(name_size: u32, descriptor_size: u32, kind: u32, rest: &[u8]) -> Vec<u8> {
        let mut bytes = Vec::new();
        for number in [name_size, descriptor_size, kind] {
            bytes.extend(number.to_le_bytes());
        }
        bytes.extend(rest);
        bytes
    }

    fn pvh_note() -> Vec<u8> {
        note(4, 4, 18, b"Xen\0\x00\x00\x10\x00")
    }

    /// An entry point that was found in a descriptor of 4 bytes.
    fn found(address: u64, place: u64, headers: u64) -> Result<Walked, Refusal> {
        let size = 4;
        let pvh = Pvh::Present(Entry {
            address,
            place,
            size,
        });
        Ok(Walked { pvh, headers })
    }

    fn not_found(headers: u64) -> Result<Walked, Refusal> {
        let pvh = Pvh::NotPresent;
        Ok(Walked { pvh, headers })
    }

    #[test]
    fn a_pvh_note_is_found_even_past_the_segment_size() {
        assert_eq!(walk(&pvh_note(), 0, 20), found(1_048_576, 16, 1));
        assert_eq!(walk(&pvh_note(), 0, 1), found(1_048_576, 16, 1));
        assert_eq!(walk(&pvh_note(), 0, 0), not_found(0));
    }

    #[test]
    fn every_wanted_read_must_fit_the_image() {
        let image = pvh_note();
        for length in 0..20 {
            let refused = Err(Refusal::ReadNoteHeader);
            assert_eq!(walk(&image[..length], 0, 20), refused, "{length} bytes");
        }
        assert_eq!(
            walk(&image, u64::MAX, u64::MAX),
            Err(Refusal::ReadNoteHeader)
        );
    }

    #[test]
    fn another_note_is_skipped_by_its_rounded_sizes() {
        let mut image = note(5, 1, 18, &[7; 12]);
        image.extend(pvh_note());
        assert_eq!(walk(&image, 0, 25), found(1_048_576, 40, 2));
        assert_eq!(walk(&image, 0, 24), not_found(1));
    }

    #[test]
    fn another_name_of_four_bytes_is_skipped_too() {
        let mut image = note(4, 0, 18, b"Xen!");
        image.extend(pvh_note());
        assert_eq!(walk(&image, 0, 17), found(1_048_576, 32, 2));
    }

    #[test]
    fn sizes_that_cannot_be_rounded_are_refused_in_skipped_notes_alone() {
        let refused = Err(Refusal::Overflow);
        assert_eq!(walk(&note(0xffff_fffd, 0, 1, &[]), 0, 1), refused);
        assert_eq!(walk(&note(0, 0xffff_fffd, 1, &[]), 0, 1), refused);
        assert_eq!(
            walk(&note(0xffff_fffc, 0xffff_fffc, 1, &[]), 0, 1),
            not_found(1)
        );
        let walked = walk(&note(4, u32::MAX, 18, b"Xen\0abcd"), 0, 1).unwrap();
        let entry = Entry {
            address: 0x6463_6261,
            place: 16,
            size: u32::MAX,
        };
        assert_eq!(walked.pvh, Pvh::Present(entry));
    }

    #[test]
    fn a_short_descriptor_is_refused_before_it_is_read() {
        for size in 0..4 {
            let image = note(4, size, 18, b"Xen\0");
            assert_eq!(walk(&image, 0, 1), Err(Refusal::InvalidPvhNote));
        }
    }
}
