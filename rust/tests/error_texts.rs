//! The error enums have linux-loader's errors, no more and no fewer: each match here is without a rest. Their texts are
//! linux-loader's too, so that a monitor's log stays as it was, but for two that it never gives.

use std::error::Error;

use rekusoyen::loader::{bzimage, elf};
use rekusoyen::{cmdline, loader};

#[test]
fn of_elf() {
    use elf::Error::*;
    let all = [
        Align,
        BigEndianElfOnLittle,
        InvalidElfMagicNumber,
        InvalidProgramHeaderSize,
        InvalidProgramHeaderOffset,
        InvalidProgramHeaderAddress,
        InvalidEntryAddress,
        Overflow,
        ReadElfHeader,
        ReadKernelImage,
        ReadProgramHeader,
        SeekKernelStart,
        SeekElfStart,
        SeekProgramHeader,
        SeekNoteHeader,
        ReadNoteHeader,
        InvalidPvhNote,
    ];
    for error in all {
        assert_eq!(error.to_string(), elf_text(&error));
        within_loader(error.into(), Some(elf_text(&error)));
    }
}

#[test]
fn of_bzimage() {
    use bzimage::Error::*;
    let all = [
        InvalidBzImage,
        Overflow,
        ReadBzImageHeader,
        ReadBzImageCompressedKernel,
        SeekBzImageEnd,
        SeekBzImageHeader,
        SeekBzImageCompressedKernel,
        Underflow,
    ];
    for error in all {
        assert_eq!(error.to_string(), bzimage_text(&error));
        within_loader(error.into(), Some(bzimage_text(&error)));
    }
}

#[test]
fn of_loads_of_either() {
    use loader::Error::*;
    let all = [
        InvalidCommandLine,
        CommandLineCopy,
        CommandLineOverflow,
        InvalidKernelStartAddress,
        MemoryOverflow,
    ];
    for error in all {
        within_loader(error, None);
    }
}

/// The text of a loader's error, and that of the error in it.
#[track_caller]
fn within_loader(error: loader::Error, inner: Option<String>) {
    assert_eq!(error.to_string(), loader_text(&error));
    assert_eq!(error.source().map(ToString::to_string), inner);
}

#[test]
fn of_lines() {
    use cmdline::Error::*;
    let all = [
        NullTerminator,
        NoBootArgsInserted,
        InvalidCapacity,
        InvalidAscii,
        HasSpace,
        HasEquals,
        MissingVal("key".to_string()),
        MmioSize,
        TooLarge,
        NoQuoteSpace,
        InvalidQuote,
    ];
    for error in all {
        assert_eq!(error.to_string(), line_text(&error));
    }
}

fn loader_text(error: &loader::Error) -> String {
    let text = match error {
        loader::Error::Bzimage(error) => {
            format!(
                "failed to load bzImage kernel image: {}",
                bzimage_text(error)
            )
        }
        loader::Error::Elf(error) => {
            format!("failed to load ELF kernel image: {}", elf_text(error))
        }
        loader::Error::InvalidCommandLine => "invalid command line provided".into(),
        loader::Error::CommandLineCopy => "failed writing command line to guest memory".into(),
        loader::Error::CommandLineOverflow => "command line overflowed guest memory".into(),
        loader::Error::InvalidKernelStartAddress => "invalid kernel start address".into(),
        loader::Error::MemoryOverflow => "memory to load kernel image is not enough".into(),
        // not linux-loader's: its own loader of these images has another variant, where it is built with it
        loader::Error::Arm64(error) => format!("failed to load arm64 kernel image: {error}"),
    };
    format!("Kernel Loader: {text}")
}

fn bzimage_text(error: &bzimage::Error) -> String {
    let text = match error {
        bzimage::Error::InvalidBzImage => "Invalid bzImage",
        // as `Align` below
        bzimage::Error::Overflow => "Guest memory has more than 16 ranges apart from each other",
        bzimage::Error::ReadBzImageHeader => "Unable to read bzImage header",
        bzimage::Error::ReadBzImageCompressedKernel => "Unable to read bzImage compressed kernel",
        bzimage::Error::SeekBzImageEnd => "Unable to seek bzImage end",
        bzimage::Error::SeekBzImageHeader => "Unable to seek bzImage header",
        bzimage::Error::SeekBzImageCompressedKernel => "Unable to seek bzImage compressed kernel",
        bzimage::Error::Underflow => "Underflow occurred during an arithmetic operation",
    };
    format!("Kernel Loader: {text}")
}

fn elf_text(error: &elf::Error) -> String {
    let text = match error {
        // linux-loader never gives it, so that no log has its text
        elf::Error::Align => "Guest memory has more than 16 ranges apart from each other",
        elf::Error::BigEndianElfOnLittle => {
            "Trying to load big-endian binary on little-endian machine"
        }
        elf::Error::InvalidElfMagicNumber => "Invalid Elf magic number",
        elf::Error::InvalidProgramHeaderSize => "Invalid program header size",
        elf::Error::InvalidProgramHeaderOffset => "Invalid program header offset",
        elf::Error::InvalidProgramHeaderAddress => "Invalid Program Header Address",
        elf::Error::InvalidEntryAddress => "Invalid entry address",
        elf::Error::Overflow => "Overflow occurred during an arithmetic operation",
        elf::Error::ReadElfHeader => "Unable to read elf header",
        elf::Error::ReadKernelImage => "Unable to read kernel image",
        elf::Error::ReadProgramHeader => "Unable to read program header",
        elf::Error::SeekKernelStart => "Unable to seek to kernel start",
        elf::Error::SeekElfStart => "Unable to seek to elf start",
        elf::Error::SeekProgramHeader => "Unable to seek to program header",
        elf::Error::SeekNoteHeader => "Unable to seek to note header",
        elf::Error::ReadNoteHeader => "Unable to read note header",
        elf::Error::InvalidPvhNote => "Invalid PVH note header",
    };
    format!("Kernel Loader: {text}")
}

fn line_text(error: &cmdline::Error) -> String {
    match error {
        cmdline::Error::NullTerminator => {
            "Null terminator detected in the command line structure.".into()
        }
        cmdline::Error::NoBootArgsInserted => "Cmdline cannot contain only init args.".into(),
        cmdline::Error::InvalidCapacity => "Invalid cmdline capacity provided.".into(),
        cmdline::Error::InvalidAscii => "String contains a non-printable ASCII character.".into(),
        cmdline::Error::HasSpace => "String contains a space.".into(),
        cmdline::Error::HasEquals => "String contains an equals sign.".into(),
        cmdline::Error::MissingVal(key) => format!("Missing value for key {key}."),
        cmdline::Error::MmioSize => {
            "0-sized virtio MMIO device passed to the kernel command line builder.".into()
        }
        cmdline::Error::TooLarge => "Inserting string would make command line too long.".into(),
        cmdline::Error::NoQuoteSpace => {
            "Value that contains spaces need to be surrounded by quotes".into()
        }
        cmdline::Error::InvalidQuote => "Double quote can not be in the middle of the value".into(),
    }
}
