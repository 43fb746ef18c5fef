//! The bytes of an image that a plan looks at, read from a file or another reader. All other bytes count as 0: it is
//! proved that two images of one length that agree in their footprint have the same plan, and that its parts, copied
//! from the whole image, are its load (`docs/PROMISES.md` of the repository).

use std::hint::black_box;
use std::io::{self, Read, Seek, SeekFrom};
use std::ops::Range;

use super::{arm64, bzimage, elf, errors, regions, Error, Format, Result};
use crate::entry::{LONGEST_SLICE, SETUP_HEADER_SIZE};
use crate::Refusal;

/// Where a bzImage's setup header begins.
const SETUP_HEADER: u64 = 0x1f1;

/// How many bytes behind its segment a plan looks at: of a note that begins with the last byte, all but that one of header, name and descriptor.
const NOTE_BEHIND: u64 = 19;

/// An allocation of this size is mapped anew, so that it is zero without being cleared and untouched pages cost nothing. glibc maps every one from
/// 32 MiB on, and smaller ones depending on what was freed before.
const MAPPED: usize = 33 << 20;

/// An image as long as the one that is read, with 0 for each byte that was not read.
pub(super) struct Footprint {
    bytes: Vec<u8>,
    length: usize,
}

impl Footprint {
    /// What the plan of an image of a format looks at.
    pub(super) fn of<F: Read + Seek>(
        format: Format,
        image: &mut F,
        notes_are_walked: bool,
    ) -> Result<Footprint> {
        match format {
            Format::Elf => of_elf(image, notes_are_walked),
            Format::BzImage => of_bzimage(image),
            Format::Arm64 => of_arm64(image),
        }
    }

    /// Of an image of this length, before any of it is read. An error if the system does not give the memory.
    fn blank(length: usize) -> io::Result<Footprint> {
        let size = length.max(MAPPED);
        // `vec!` would end the process where there is no memory, so it is asked for once before in a way that may fail; the hint keeps the
        // compiler from leaving that out
        let mut tried = Vec::<u8>::new();
        tried.try_reserve_exact(size)?;
        drop(black_box(tried));
        Ok(Footprint {
            bytes: vec![0; size],
            length,
        })
    }

    pub(super) fn bytes(&self) -> &[u8] {
        &self.bytes[..self.length]
    }

    /// Reads a range, as far as the image goes. The errors are those of a seek and of a read that fail.
    fn read<F: Read + Seek, E>(
        &mut self,
        image: &mut F,
        range: Range<u64>,
        [seek, read]: [E; 2],
    ) -> std::result::Result<(), E> {
        let end = range.end.min(self.length as u64);
        if range.start >= end {
            return Ok(());
        }
        if image.seek(SeekFrom::Start(range.start)).is_err() {
            return Err(seek);
        }
        let to = &mut self.bytes[range.start as usize..end as usize];
        image.read_exact(to).map_err(|_| read)
    }
}

/// The footprint of an image before any of it is read; the errors are those of a seek that fails and of memory that is not given.
fn begin<F: Seek>(format: Format, image: &mut F, [seek, memory]: [Error; 2]) -> Result<Footprint> {
    let length = image.seek(SeekFrom::End(0)).map_err(|_| seek)?;
    if length > LONGEST_SLICE {
        return Err(errors::of(format, Refusal::SliceTooLong));
    }
    Footprint::blank(length as usize).map_err(|_| memory)
}

/// The ELF header, the program headers, and the notes where they are walked.
fn of_elf<F: Read + Seek>(image: &mut F, notes_are_walked: bool) -> Result<Footprint> {
    use elf::Error::*;
    let errors = [SeekElfStart, ReadKernelImage].map(Error::Elf);
    let mut footprint = begin(Format::Elf, image, errors)?;
    let header = 0..64;
    footprint.read(image, header.clone(), [SeekElfStart, ReadElfHeader])?;
    // what is no ELF image is refused before more of it is looked at
    if !footprint.bytes().starts_with(b"\x7fELF") {
        return Ok(footprint);
    }
    let table = elf::table(footprint.bytes());
    footprint.read(image, table.clone(), [SeekProgramHeader, ReadProgramHeader])?;
    if notes_are_walked {
        for notes in note_stretches(footprint.bytes(), [header, table]) {
            footprint.read(image, notes, [SeekNoteHeader, ReadNoteHeader])?;
        }
    }
    Ok(footprint)
}

/// Where an image has notes, in rising order: each byte once, and none that is read already. A program header that passes the end of the image is
/// passed over: such an image is refused before its notes are walked.
fn note_stretches(image: &[u8], read: [Range<u64>; 2]) -> Vec<Range<u64>> {
    let notes = elf::segments(image).filter(|segment| segment.is_note() && segment.p_filesz > 0);
    let length = image.len() as u64;
    let notes = notes.map(|notes| {
        let end = notes.p_offset.saturating_add(notes.p_filesz);
        (notes.p_offset, end.saturating_add(NOTE_BEHIND).min(length))
    });
    let mut stretches: Vec<_> = regions::joined(notes.collect())
        .into_iter()
        .map(|(start, end)| start..end)
        .collect();
    for read in read {
        stretches = stretches
            .into_iter()
            .flat_map(|stretch| without(stretch, &read))
            .collect();
    }
    stretches
}

/// What a range has before another and behind it.
fn without(range: Range<u64>, other: &Range<u64>) -> impl Iterator<Item = Range<u64>> {
    let before = range.start..range.end.min(other.start);
    let behind = range.start.max(other.end)..range.end;
    [before, behind].into_iter().filter(|part| !part.is_empty())
}

/// The setup header of a bzImage.
fn of_bzimage<F: Read + Seek>(image: &mut F) -> Result<Footprint> {
    use bzimage::Error::*;
    let errors = [SeekBzImageEnd, ReadBzImageHeader].map(Error::Bzimage);
    let mut footprint = begin(Format::BzImage, image, errors)?;
    let header = SETUP_HEADER..SETUP_HEADER + SETUP_HEADER_SIZE as u64;
    footprint.read(image, header, [SeekBzImageHeader, ReadBzImageHeader])?;
    Ok(footprint)
}

/// The header of an arm64 Image.
fn of_arm64<F: Read + Seek>(image: &mut F) -> Result<Footprint> {
    use arm64::Error::*;
    let errors = [SeekImage, ReadImage].map(Error::Arm64);
    let mut footprint = begin(Format::Arm64, image, errors)?;
    footprint.read(image, 0..64, [SeekImage, ReadImage])?;
    Ok(footprint)
}

#[cfg(test)]
mod tests {
    use super::*;

    #[test]
    fn a_range_without_another() {
        let parts = |range, other| without(range, &other).collect::<Vec<_>>();
        assert_eq!(parts(0..9, 9..12), [0..9]);
        assert_eq!(parts(0..9, 3..5), [0..3, 5..9]);
        assert_eq!(parts(2..9, 0..5), [5..9]);
        assert_eq!(parts(2..9, 5..9), [2..5]);
        assert_eq!(parts(2..9, 2..9), []);
        assert_eq!(parts(2..9, 4..4), [2..4, 4..9]);
    }
}
