//! What a load prints. Addresses and places are hexadecimal and sizes decimal; only the lines of the result have decimal addresses.

use std::fmt::Write;

use rekusoyen::loader::elf::{segments, PvhBootCapability, Segment};

use crate::arguments::{Format, Load};
use crate::explain::elf::Problem;
use crate::load::{base_of, Loaded, PutLine};
use crate::notes::{walk, Stop};

/// The result: a line each, a word and a number.
pub fn result(loaded: &Loaded) -> String {
    let kernel = &loaded.kernel;
    let mut text = format!("load {}\nend {}\n", kernel.kernel_load.0, kernel.kernel_end);
    if loaded.format == Format::Elf {
        text += &match kernel.pvh_boot_cap {
            PvhBootCapability::PvhEntryIgnored => "pvh ignored\n".to_string(),
            PvhBootCapability::PvhEntryNotPresent => "pvh none\n".to_string(),
            PvhBootCapability::PvhEntryPresent(address) => format!("pvh {}\n", address.0),
        };
    }
    if let Some(line) = &loaded.line {
        text += &format!("cmdline {}\n", line.at.0);
    }
    text
}

/// What a person should know of an accepted load beside its result.
pub fn remarks(loaded: &Loaded, image: &[u8], asked: &Load) -> Vec<String> {
    let mut remarks = Vec::new();
    let is_elf = loaded.format == Format::Elf;
    if is_elf && loaded.kernel.pvh_boot_cap == PvhBootCapability::PvhEntryIgnored {
        remarks.push(if asked.offset.is_some() {
            "pvh is ignored since --offset moves the kernel away from its PVH entry".to_string()
        } else {
            "pvh is ignored since the image has no segment with notes".to_string()
        });
    }
    remarks.extend(unused(loaded.format, asked));
    if let Some(line) = &loaded.line {
        remarks.extend(overwritten(loaded, image, asked, line));
        if line.is_too_long {
            let (has, takes) = (line.size - 1, line_limit(loaded.format, image));
            remarks.push(format!(
                "the command line has {has} bytes, and the kernel takes {takes}: a boot is refused"
            ));
        }
    }
    remarks
}

/// How long a command line the kernel takes, its zero not counted: of ELF and arm64 what Linux takes.
fn line_limit(format: Format, image: &[u8]) -> u64 {
    match format {
        Format::BzImage if number(image, 0x206, 2) < 0x206 => 255,
        Format::BzImage => number(image, 0x238, 4),
        _ => 2047,
    }
}

/// Options that are given and have no say in a load of this format.
pub fn unused(format: Format, asked: &Load) -> Option<String> {
    let options = [
        ("--offset", asked.offset.is_some(), format != Format::Arm64),
        (
            "--highmem",
            asked.highmem.is_some(),
            format != Format::Arm64,
        ),
        ("--base", asked.base.is_some(), format == Format::Arm64),
    ];
    let without = options.iter().filter(|(_, given, says)| *given && !says);
    let names: Vec<&str> = without.map(|(name, ..)| *name).collect();
    let of = match format {
        Format::Arm64 => "an arm64 Image",
        Format::BzImage => "a bzImage",
        _ => "an ELF image",
    };
    (!names.is_empty()).then(|| format!("{} has no say in a load of {of}", names.join(" or ")))
}

/// The parts of the kernel that a line lies over.
fn overwritten(loaded: &Loaded, image: &[u8], asked: &Load, line: &PutLine) -> Vec<String> {
    let line_end = line.at.0 + line.size;
    let parts: Vec<(String, u64, u64)> = match loaded.format {
        Format::BzImage => {
            let (start, end) = (loaded.kernel.kernel_load.0, loaded.kernel.kernel_end);
            vec![("the kernel".to_string(), start, end)]
        }
        Format::Arm64 => {
            let (start, end) = (loaded.kernel.kernel_load.0, loaded.kernel.kernel_end);
            let end = end.max(start + image.len() as u64);
            vec![("the kernel".to_string(), start, end)]
        }
        _ => segments(image)
            .enumerate()
            .filter(|(_, segment)| segment.is_loadable())
            .filter_map(|(i, segment)| {
                let start = address_of(&segment, asked)?;
                let end = start.checked_add(segment.p_filesz.max(segment.p_memsz))?;
                Some((format!("segment {i}"), start, end))
            })
            .collect(),
    };
    let over = parts
        .into_iter()
        .filter(|(_, start, end)| *start < line_end && line.at.0 < *end);
    let told = |(what, start, end)| {
        format!(
            "the command line at {:#x} to {line_end:#x} lies over {what} at {start:#x} to {end:#x}",
            line.at.0
        )
    };
    over.map(told).collect()
}

/// What an image says: the segments and notes of an ELF image, the parts of a bzImage, or the header of an arm64 Image. Of a refused load each says whether it is good.
pub fn details(format: Format, image: &[u8], asked: &Load) -> String {
    match format {
        Format::BzImage => bzimage_details(image, asked),
        Format::Arm64 => arm64_details(image, asked),
        _ => elf_details(image, asked),
    }
}

/// The note that the PVH entry of an accepted load was read from, if there is one.
pub fn used_note(loaded: &Loaded) -> String {
    loaded.note.map_or(String::new(), |note| {
        let (size, place) = (note.size, note.place);
        format!("pvh note: the one with the descriptor of {size} bytes at {place:#x}\n")
    })
}

fn elf_details(image: &[u8], asked: &Load) -> String {
    let mut text = String::new();
    for (i, segment) in segments(image).enumerate() {
        let _ = writeln!(
            text,
            "segment {i}: {}",
            segment_details(&segment, image, asked)
        );
        if segment.is_note() && asked.offset.is_none() {
            text += &note_details(image, &segment);
        }
    }
    text
}

fn address_of(segment: &Segment, asked: &Load) -> Option<u64> {
    let offset = asked.offset.map_or(0, |offset| offset.0);
    offset.checked_add(segment.p_paddr)
}

/// A segment, with the sizes that it asks for; where it is refused, with those that there are.
pub fn segment_details(segment: &Segment, image: &[u8], asked: &Load) -> String {
    let bytes = if segment.p_filesz == 0 && segment.is_loadable() {
        "no bytes".to_string()
    } else {
        format!("{} bytes at {:#x}", segment.p_filesz, segment.p_offset)
    };
    if segment.is_note() {
        let told = if asked.offset.is_some() {
            ", not read since there is an offset"
        } else {
            ""
        };
        return format!("notes, {bytes}{told}");
    }
    if !segment.is_loadable() {
        return format!("type {:#x}, {bytes}, skipped", segment.p_type);
    }
    if segment.p_filesz == 0 && segment.p_memsz == 0 {
        return "load, no bytes and no memory, skipped".to_string();
    }
    let address = address_of(segment, asked).unwrap_or(u64::MAX);
    match Problem::of(segment, image, asked) {
        None => {
            let end = u128::from(address) + u128::from(segment.p_memsz);
            if segment.p_filesz == 0 {
                format!("load, {bytes}, memory at guest {address:#x} to {end:#x}")
            } else {
                format!("load, {bytes} to guest {address:#x}, memory to {end:#x}")
            }
        }
        Some(Problem::Overfull) => format!(
            "load, {bytes}: they are more than its {} bytes of memory",
            segment.p_memsz
        ),
        Some(Problem::Address) => format!(
            "load, {bytes}: the offset {:#x} and p_paddr {:#x} add up to 2^64 or more",
            asked.offset.map_or(0, |offset| offset.0),
            segment.p_paddr
        ),
        Some(Problem::Image) => format!(
            "load, {bytes}: they end at {:#x}, and the image at {:#x}",
            u128::from(segment.p_offset) + u128::from(segment.p_filesz),
            image.len()
        ),
        Some(Problem::Guest(end)) => format!(
            "load, {bytes} to guest {address:#x}: they end at {end:#x}, and guest memory at {:#x}",
            asked.guest
        ),
        Some(Problem::Memory) => format!(
            "load, {bytes} to guest {address:#x}: with its {} bytes of memory it ends at 2^64 or more",
            segment.p_memsz
        ),
    }
}

/// The notes of a segment, up to the one that a load stops at.
fn note_details(image: &[u8], segment: &Segment) -> String {
    let mut text = String::new();
    let walked = walk(image, segment.p_offset, segment.p_filesz);
    for (i, note) in walked.notes.iter().enumerate() {
        let _ = writeln!(
            text,
            "  note {i}: '{}' of type {}, descriptor of {} bytes at {:#x}",
            note.name, note.kind, note.descriptor_size, note.descriptor
        );
    }
    let _ = match walked.stop {
        Stop::End => writeln!(text, "  no pvh entry"),
        Stop::Found(address) => writeln!(text, "  pvh entry {address:#x}"),
        _ => writeln!(
            text,
            "  note {} at {:#x} is refused",
            walked.notes.len(),
            walked.place
        ),
    };
    text
}

fn bzimage_details(image: &[u8], asked: &Load) -> String {
    let header = Setup::of(image);
    let size = match (image.len() as u64).checked_sub(header.size) {
        Some(kernel) => format!("{kernel} bytes at {:#x}", header.size),
        None => format!("none, since the image has {} bytes", image.len()),
    };
    format!(
        "setup: {} bytes, boot protocol {}.{:02}\nkernel: {size} to guest {:#x}\n",
        header.size,
        header.version >> 8,
        header.version & 0xff,
        asked.offset.map_or(header.code32_start, |offset| offset.0)
    )
}

fn arm64_details(image: &[u8], asked: &Load) -> String {
    let header = Arm64Header::of(image);
    let start = header.start(asked);
    format!(
        "header: text offset {:#x}, image size {}, flags {:#x}\nkernel: {} bytes to guest {start:#x}, memory to {:#x}\n",
        header.text_offset,
        header.image_size,
        header.flags,
        image.len(),
        start + u128::from(header.image_size)
    )
}

/// What the header of an arm64 Image says.
pub struct Arm64Header {
    pub text_offset: u64,
    pub image_size: u64,
    pub flags: u64,
}

impl Arm64Header {
    pub fn of(image: &[u8]) -> Arm64Header {
        Arm64Header {
            text_offset: number(image, 8, 8),
            image_size: number(image, 16, 8),
            flags: number(image, 24, 8),
        }
    }

    /// Where the file goes.
    pub fn start(&self, asked: &Load) -> u128 {
        u128::from(base_of(asked).0) + u128::from(self.text_offset)
    }
}

/// What the setup header of a bzImage says.
pub struct Setup {
    /// The bytes of the setup: its sectors, and the first one.
    pub size: u64,
    pub version: u64,
    pub code32_start: u64,
}

impl Setup {
    pub fn of(image: &[u8]) -> Setup {
        let sectors = match number(image, 0x1f1, 1) {
            0 => 4,
            sectors => sectors,
        };
        Setup {
            size: (sectors + 1) * 512,
            version: number(image, 0x206, 2),
            code32_start: number(image, 0x214, 4),
        }
    }
}

/// A number of up to 8 bytes at a place, least byte first; bytes past the image count as 0.
pub fn number(image: &[u8], place: usize, width: usize) -> u64 {
    (0..width).fold(0, |sum, i| {
        let byte = image.get(place + i).copied().unwrap_or(0);
        sum | u64::from(byte) << (8 * i)
    })
}
