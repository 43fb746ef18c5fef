//! A whole boot, as the command does it: all pieces by one call, and the layout in a picture and a table.

pub mod arguments;
mod picture;

use std::fs::File;
use std::io;
use std::path::Path;

use rekusoyen::boot::{Boot, Booted, Error, Piece, Pvh, Tree, ZeroPage};
use rekusoyen::cmdline::Cmdline;
use rekusoyen::{GuestAddress, Map, Refusal};

use crate::arguments::Format;
use crate::explain::{self, Explained};
use crate::input::{self, Guest};
use crate::load::{base_of, format_of, image_format, Refused, CAPACITY};
use crate::report;
use crate::{Answer, Failure};
use arguments::Entry;
use picture::Shown;

/// Boots the image, and shows where each piece is.
pub fn boot(image: &[u8], asked: &arguments::Boot) -> Result<Answer, Failure> {
    let (ramdisk, tree) = (file(&asked.ramdisk)?, file(&asked.tree)?);
    let size = asked.load.guest;
    let mut guest = Guest::new(size).ok_or_else(|| {
        Failure::Usage(format!("the system gives no {size} bytes for guest memory"))
    })?;
    let format = format_of(image, asked.load.format);
    let text = asked.load.cmdline.as_deref().unwrap_or("");
    let line = Cmdline::try_from(text, CAPACITY).map_err(|error| {
        let line_at = Some(asked.load.at.unwrap_or(GuestAddress(0)));
        own_refusal(error.refusal(), format, line_at, image, asked)
    })?;

    let whole = || vec![(GuestAddress(0), size)];
    let ranges = asked.map.clone().unwrap_or_else(whole);
    let all = || {
        ranges
            .iter()
            .map(|(start, size)| (*start, *size, 1))
            .collect()
    };
    let rows = asked.rows.clone().unwrap_or_else(all);
    let map = match &asked.map {
        None => Map::whole(size as usize),
        Some(map) => map
            .iter()
            .map(|(start, size)| (*start, *size as usize))
            .collect(),
    };
    let boot = Boot::new(image).line(&line).ramdisk(&ramdisk).rows(&rows);
    match given(boot, format, &tree, asked).load(guest.bytes(), &map) {
        Ok(booted) => {
            let ranges = ranges.iter().map(|(start, size)| {
                let start = u128::from(start.0);
                start..start + u128::from(*size)
            });
            let ranges: Vec<_> = ranges.filter(|range| !range.is_empty()).collect();
            let pieces = pieces(&booted);
            Ok(Answer {
                result: format!(
                    "{}\n{}\n{}",
                    entry_line(&booted, asked),
                    picture::picture(size, &ranges, &pieces),
                    picture::table(&pieces)
                ),
                remarks: report::unused(format, &asked.load).into_iter().collect(),
            })
        }
        Err(error) => Err(told(&error, format, image, asked)),
    }
}

/// The bytes of a file that is named, or none.
fn file(name: &Option<impl AsRef<Path>>) -> Result<Vec<u8>, Failure> {
    let read =
        |name: &Path| -> io::Result<Vec<u8>> { input::image(File::open(name)?, input::LONGEST) };
    name.as_ref().map_or(Ok(Vec::new()), |name| {
        let name = name.as_ref();
        read(name)
            .map_err(|error| Failure::Usage(format!("{} cannot be read: {error}", name.display())))
    })
}

/// The boot with the options that were given.
fn given<'a>(
    mut boot: Boot<'a>,
    format: Format,
    tree: &'a [u8],
    asked: &arguments::Boot,
) -> Boot<'a> {
    let offset = match format {
        Format::Arm64 => Some(base_of(&asked.load)),
        _ => asked.load.offset,
    };
    boot = boot.format(image_format(format));
    if let Some(offset) = offset {
        boot = boot.offset(offset);
    }
    if let Some(highmem) = asked.load.highmem {
        boot = boot.highmem_start(highmem);
    }
    if let Some(limit) = asked.limit {
        boot = boot.limit(limit);
    }
    let (line, ramdisk, data) = (asked.load.at, asked.ramdisk_at, asked.data_at);
    match entry_of(format, asked) {
        Entry::Pvh => boot.pvh(Pvh {
            block: data,
            line,
            ramdisk,
            rsdp: asked.rsdp.unwrap_or(GuestAddress(0)),
        }),
        Entry::Tree => boot.tree(Tree {
            blob: tree,
            address: data,
            ramdisk,
            line_offset: None,
        }),
        page => boot.zero_page(ZeroPage {
            is_64_bit: page == Entry::Page64,
            page: data,
            line,
            ramdisk,
        }),
    }
}

/// The entry that was asked for, or that of the format.
fn entry_of(format: Format, asked: &arguments::Boot) -> Entry {
    asked.entry.unwrap_or(match format {
        Format::BzImage => Entry::Page32,
        Format::Arm64 => Entry::Tree,
        _ => Entry::Pvh,
    })
}

/// All pieces that have bytes. The line of a device tree is in the tree.
fn pieces(booted: &Booted) -> Vec<Shown> {
    let data = match booted.boot_data_is {
        Piece::StartBlock => "start block",
        Piece::Tree => "device tree",
        _ => "zero page",
    };
    let kernel = booted.kernel_memory.iter().map(|span| ("kernel", *span));
    let line = (booted.boot_data_is != Piece::Tree).then_some(("line", booted.line));
    kernel
        .chain(line)
        .chain([("ramdisk", booted.ramdisk), (data, booted.boot_data)])
        .filter(|(_, span)| span.size > 0)
        .map(|(name, span)| Shown {
            name,
            range: span.address.0.into()..span.end(),
        })
        .collect()
}

/// Where the kernel is entered, and how.
fn entry_line(booted: &Booted, asked: &arguments::Boot) -> String {
    let how = match (booted.boot_data_is, asked.entry) {
        (Piece::StartBlock, _) => "by PVH",
        (Piece::Tree, _) => "with a device tree",
        (_, Some(Entry::Page64)) => "by zero page in 64-bit mode",
        _ => "by zero page in 32-bit mode",
    };
    format!("entry {:#x}, {how}\n", booted.entry.0)
}

/// A refusal: number and name, what it was about, and what to try.
fn told(error: &Error, format: Format, image: &[u8], asked: &arguments::Boot) -> Failure {
    let refusal = error
        .refusal()
        .expect("over a slice every error stands for a refusal");
    let is_own =
        refusal.number() < Refusal::LineTooLong.number() && error.pieces() == [Piece::Kernel];
    if is_own {
        return own_refusal(refusal, format, None, image, asked);
    }
    let about = error.to_string();
    let about = about.strip_prefix("Boot: ").unwrap_or(&about);
    refused(refusal, about, advice(error))
}

/// A refusal of the kernel's own load, or of a line that is none: as of `rekusoyen load`.
fn own_refusal(
    refusal: Refusal,
    format: Format,
    line_at: Option<GuestAddress>,
    image: &[u8],
    asked: &arguments::Boot,
) -> Failure {
    let own = Refused {
        refusal,
        format,
        line_at,
    };
    let Explained { about, advice } = explain::explain(&own, image, &asked.load);
    refused(refusal, &about, advice)
}

fn refused(refusal: Refusal, about: &str, advice: Option<String>) -> Failure {
    let advice = advice.map_or(String::new(), |advice| format!("try: {advice}\n"));
    let number = refusal.number();
    Failure::Refused(format!("refused {number} {refusal:?}\n{about}\n{advice}"))
}

/// What can be tried against a refusal.
fn advice(error: &Error) -> Option<String> {
    use Refusal::*;
    let of_last = |piece: &Piece| match piece {
        Piece::Kernel => "--offset",
        Piece::Line => "--at",
        Piece::Ramdisk => "--ramdisk-at",
        _ => "--data-at",
    };
    let option = error.pieces().last().map_or("", of_last);
    let text = match error.refusal()? {
        LineTooLong => "a shorter --cmdline".to_string(),
        WrongEntry | No64BitEntry | NoPvhEntry => "another --entry".to_string(),
        LineNotInTree => "a --tree that has this command line".to_string(),
        NoRoom | KernelOutside => "more memory, by --guest or --map".to_string(),
        KernelNotInRows | LineNotInRows | RamdiskNotInRows => {
            "--rows that have it with type 1".to_string()
        }
        CommandLineOverflow | BadPart | RamdiskTooHigh | RamdiskOutside | BootDataOutside
        | KernelMeetsLine | KernelMeetsRamdisk | KernelMeetsBootData | LineMeetsRamdisk
        | LineMeetsBootData | RamdiskMeetsBootData => {
            format!("another {option}, or none: then it is placed")
        }
        _ => return None,
    };
    Some(text)
}
