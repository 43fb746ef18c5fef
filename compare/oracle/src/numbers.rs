//! The number of each of the crate's errors. An error without a number is none that the rules know, and shows as a difference.

use driver::answer::UNNUMBERED;
use linux_loader::{cmdline, loader};

pub fn of_loader(error: loader::Error) -> u8 {
    match error {
        loader::Error::Elf(error) => of_elf(error),
        loader::Error::Bzimage(error) => of_bzimage(error),
        loader::Error::MemoryOverflow => 13,
        loader::Error::InvalidKernelStartAddress => 23,
        loader::Error::InvalidCommandLine => 31,
        loader::Error::CommandLineOverflow => 32,
        loader::Error::CommandLineCopy => UNNUMBERED,
        // of the crate's loader of arm64 Images, which is not asked here
        #[cfg(target_arch = "aarch64")]
        loader::Error::Pe(_) => UNNUMBERED,
    }
}

/// Over a map the crate refuses a line that meets a hole with another error than one that passes the last region. The rules have one
/// number for both.
pub fn of_line_load(error: loader::Error, has_map: bool) -> u8 {
    match error {
        loader::Error::CommandLineCopy if has_map => 32,
        error => of_loader(error),
    }
}

fn of_elf(error: loader::elf::Error) -> u8 {
    use loader::elf::Error;
    match error {
        Error::InvalidElfMagicNumber => 1,
        Error::BigEndianElfOnLittle => 2,
        Error::InvalidProgramHeaderSize => 3,
        Error::InvalidProgramHeaderOffset => 4,
        Error::InvalidEntryAddress => 5,
        Error::Overflow => 6,
        Error::ReadElfHeader => 7,
        Error::ReadProgramHeader => 8,
        Error::InvalidProgramHeaderAddress => 9,
        Error::ReadKernelImage => 10,
        Error::ReadNoteHeader => 11,
        Error::InvalidPvhNote => 12,
        _ => UNNUMBERED,
    }
}

fn of_bzimage(error: loader::bzimage::Error) -> u8 {
    use loader::bzimage::Error;
    match error {
        Error::InvalidBzImage => 21,
        Error::Underflow => 22,
        Error::ReadBzImageCompressedKernel => 24,
        _ => UNNUMBERED,
    }
}

pub fn of_cmdline(error: cmdline::Error) -> u8 {
    use cmdline::Error;
    match error {
        Error::InvalidCapacity => 41,
        Error::InvalidAscii => 42,
        Error::HasSpace => 43,
        Error::HasEquals => 44,
        Error::MissingVal(_) => 45,
        Error::MmioSize => 46,
        Error::TooLarge => 47,
        Error::NoQuoteSpace => 48,
        Error::InvalidQuote => 49,
        Error::NoBootArgsInserted => 50,
        Error::NullTerminator => 51,
    }
}
