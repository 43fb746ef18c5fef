//! Which error stands for which refusal. Every refusal of a load has an error of its own. An error without a refusal
//! is never given for the bytes of an image: only a reader of vm-memory that fails gives it. Such a reader may give
//! one with a refusal, too: then it is the error that linux-loader gives for it.
//!
//! A map that is not valid has an error of its own if the caller gives the map. Here it stands for the one fault that
//! a map of vm-memory's regions can have, which is too many ranges.

use super::{arm64, bzimage, elf, Error, Format};
use crate::Refusal;

/// The error of a refused load or note walk.
pub(super) fn of(format: Format, refusal: Refusal) -> Error {
    known(by_format(format, refusal), refusal)
}

/// The error of a line that is not put into guest memory.
pub(super) fn of_line(refusal: Refusal) -> Error {
    known(by_line(refusal), refusal)
}

fn known(error: Option<Error>, refusal: Refusal) -> Error {
    error.unwrap_or_else(|| unreachable!("this call does not answer {refusal:?}"))
}

fn by_format(format: Format, refusal: Refusal) -> Option<Error> {
    match format {
        Format::Elf => by_elf(refusal),
        Format::BzImage => by_bzimage(refusal),
        Format::Arm64 => by_arm64(refusal),
    }
}

fn by_elf(refusal: Refusal) -> Option<Error> {
    use elf::Error::*;
    let error = match refusal {
        Refusal::InvalidElfMagicNumber => InvalidElfMagicNumber,
        Refusal::BigEndianElfOnLittle => BigEndianElfOnLittle,
        Refusal::InvalidProgramHeaderSize => InvalidProgramHeaderSize,
        Refusal::InvalidProgramHeaderOffset => InvalidProgramHeaderOffset,
        Refusal::InvalidEntryAddress => InvalidEntryAddress,
        Refusal::Overflow => Overflow,
        Refusal::ReadElfHeader => ReadElfHeader,
        Refusal::ReadProgramHeader => ReadProgramHeader,
        Refusal::InvalidProgramHeaderAddress => InvalidProgramHeaderAddress,
        Refusal::ReadKernelImage => ReadKernelImage,
        Refusal::ReadNoteHeader => ReadNoteHeader,
        Refusal::InvalidPvhNote => InvalidPvhNote,
        Refusal::MemoryOverflow => return Some(Error::MemoryOverflow),
        Refusal::InvalidProgramHeaderFileSize => SeekProgramHeader,
        Refusal::SliceTooLong => SeekKernelStart,
        Refusal::BadMap => Align,
        _ => return None,
    };
    Some(error.into())
}

fn by_bzimage(refusal: Refusal) -> Option<Error> {
    use bzimage::Error::*;
    let error = match refusal {
        Refusal::InvalidBzImage => InvalidBzImage,
        Refusal::Underflow => Underflow,
        Refusal::InvalidKernelStartAddress => return Some(Error::InvalidKernelStartAddress),
        Refusal::ReadBzImageCompressedKernel => ReadBzImageCompressedKernel,
        Refusal::SliceTooLong => SeekBzImageCompressedKernel,
        Refusal::BadMap => Overflow,
        _ => return None,
    };
    Some(error.into())
}

fn by_arm64(refusal: Refusal) -> Option<Error> {
    use arm64::Error::*;
    let error = match refusal {
        Refusal::ShortImage => ShortImage,
        Refusal::BadImageMagic => BadImageMagic,
        Refusal::BigEndianImage => BigEndianImage,
        Refusal::NoImageSize => NoImageSize,
        Refusal::UnalignedBase => UnalignedBase,
        Refusal::ImageStartWraps => ImageStartWraps,
        Refusal::NoRoomForImage => NoRoomForImage,
        Refusal::ImageEndWraps => ImageEndWraps,
        Refusal::SliceTooLong => SliceTooLong,
        Refusal::BadMap => TooManyRanges,
        _ => return None,
    };
    Some(error.into())
}

fn by_line(refusal: Refusal) -> Option<Error> {
    match refusal {
        Refusal::InvalidCommandLine => Some(Error::InvalidCommandLine),
        Refusal::CommandLineOverflow => Some(Error::CommandLineOverflow),
        // no error of lines is left for it; this one's text says it
        Refusal::SliceTooLong => Some(Error::Arm64(arm64::Error::SliceTooLong)),
        _ => None,
    }
}

impl Error {
    /// The refusal that this error stands for. `None` if it stands for none: no bytes lead to it, only a reader that
    /// fails.
    pub fn refusal(&self) -> Option<Refusal> {
        if *self == Error::CommandLineCopy {
            // linux-loader's error for a line that meets a hole of vm-memory's guest memory
            return Some(Refusal::CommandLineOverflow);
        }
        let stands_for = |refusal| {
            [by_elf, by_bzimage, by_arm64, by_line]
                .iter()
                .any(|error| error(refusal) == Some(*self))
        };
        let mut refusals = Refusal::ALL.iter().copied();
        refusals.find(|refusal| stands_for(*refusal))
    }

    /// The number of that refusal.
    ///
    /// ```
    /// use rekusoyen::loader::{bzimage, elf, Error};
    ///
    /// assert_eq!(Error::Elf(elf::Error::InvalidElfMagicNumber).number(), Some(1));
    /// assert_eq!(bzimage::Error::Underflow.number(), Some(22));
    /// assert_eq!(elf::Error::SeekElfStart.number(), None);
    /// ```
    pub fn number(&self) -> Option<u32> {
        self.refusal().map(Refusal::number)
    }
}

impl elf::Error {
    /// The number of the refusal that this error stands for, as [`loader::Error`](Error::number) has it.
    pub fn number(&self) -> Option<u32> {
        Error::Elf(*self).number()
    }
}

impl bzimage::Error {
    /// The number of the refusal that this error stands for, as [`loader::Error`](Error::number) has it.
    pub fn number(&self) -> Option<u32> {
        Error::Bzimage(*self).number()
    }
}

impl arm64::Error {
    /// The number of the refusal that this error stands for, as [`loader::Error`](Error::number) has it.
    pub fn number(&self) -> Option<u32> {
        Error::Arm64(*self).number()
    }
}
