//! A whole boot: kernel, command line, ramdisk and boot data, put into guest memory by one call.

use crate::line::Line;
use crate::loading::load_line;
use crate::map::Map;
use crate::note::Pvh;
use crate::setup::Setup;
use crate::{arm64, bzimage, elf, page, start, Refusal, Rules};
use std::ops::Range;

/// How many numbers a boot's list has, and how many its answer.
pub const NUMBERS: usize = 12;
pub const ANSWERS: usize = 7;

const OFFSET_GIVEN: u64 = 1;
const HIGHMEM_GIVEN: u64 = 2;
const BELOW_4_GIB: u64 = 0xffff_ffff;
const USABLE: u64 = 1;

/// What is added to the load address of a bzImage for its 64-bit entry.
const ENTRY_OF_64_BITS: u64 = 0x200;
/// What a line may have if nobody says it: Linux's own buffer without the zero.
const LINUX_LINE_MAX: u64 = 2047;

// the setup header of a page for an ELF image: three fields, and where they are in it
const BOOT_FLAG: (usize, [u8; 2]) = (0x1fe - 0x1f1, [0x55, 0xaa]);
const MAGIC: (usize, [u8; 4]) = (0x202 - 0x1f1, *b"HdrS");
const ALIGNMENT: (usize, [u8; 4]) = (0x230 - 0x1f1, [0, 0, 0, 1]);

/// Addresses, the first and the one after the last.
type Span = Range<u128>;

#[derive(Clone, Copy, Debug, PartialEq, Eq)]
pub enum Format {
    Elf,
    Bzimage,
    Arm64,
}

/// How the kernel is entered.
#[derive(Clone, Copy, Debug, PartialEq, Eq)]
pub enum Entry {
    Page32,
    Page64,
    Pvh,
    Tree,
}

/// The slices of a boot.
#[derive(Clone, Copy, Debug, Default)]
pub struct Given<'a> {
    pub image: &'a [u8],
    pub text: &'a [u8],
    pub init: &'a [u8],
    pub ramdisk: &'a [u8],
    pub rows: &'a [u64],
    pub tree: &'a [u8],
}

/// What a boot's list of numbers says.
#[derive(Clone, Copy, Debug)]
struct Numbers {
    format: Format,
    offset: Option<u64>,
    highmem: Option<u64>,
    entry: Entry,
    limit: Option<u64>,
    /// With a device tree, the offset of the line in it.
    line: u64,
    ramdisk: u64,
    data: u64,
    rsdp: u64,
}

/// What an accepted boot answers.
#[derive(Clone, Copy, Debug, PartialEq, Eq)]
pub struct Booted {
    pub load: u64,
    pub end: u64,
    pub pvh: Pvh,
    pub entry: u64,
}

/// A kernel that was loaded.
struct Kernel {
    format: Format,
    load: u64,
    end: u64,
    pvh: Pvh,
    setup: Option<Setup>,
    /// The bytes that were written, and the memory that the kernel takes.
    spans: Vec<Span>,
}

/// Boots into the ranges of `guest` that the numbers of `map` give. `list` has the numbers of the boot, and `answers`
/// is how many its answer has room for. A refusal writes nothing.
pub fn boot(
    guest: &mut [u8],
    map: &[u64],
    list: &[u64],
    given: &Given,
    answers: usize,
) -> Result<Booted, Refusal> {
    let numbers = Numbers::read(list).filter(|_| answers == ANSWERS);
    let numbers = numbers.ok_or(Refusal::BadList)?;
    // everything goes into a copy, which becomes guest memory at the end
    let mut memory = guest.to_vec();
    let booted = boot_into(&mut memory, map, &numbers, given)?;
    guest.copy_from_slice(&memory);
    Ok(booted)
}

impl Numbers {
    fn read(list: &[u64]) -> Option<Numbers> {
        let list: &[u64; NUMBERS] = list.try_into().ok()?;
        let [format, flags, offset, highmem, entry, has_limit, limit, line, ramdisk, data, rsdp, reserved] =
            *list;
        let entry = entry_of(entry)?;
        let below: &[u64] = match entry {
            Entry::Page32 | Entry::Page64 => &[line, ramdisk, data],
            Entry::Pvh => &[data],
            Entry::Tree => &[],
        };
        if reserved != 0 || below.iter().any(|address| *address > BELOW_4_GIB) {
            return None;
        }
        Some(Numbers {
            format: format_of(format)?,
            offset: (flags & OFFSET_GIVEN != 0).then_some(offset),
            highmem: (flags & HIGHMEM_GIVEN != 0).then_some(highmem),
            entry,
            limit: (has_limit != 0).then_some(limit),
            line,
            ramdisk,
            data,
            rsdp,
        })
    }
}

fn format_of(number: u64) -> Option<Format> {
    match number {
        1 => Some(Format::Elf),
        2 => Some(Format::Bzimage),
        3 => Some(Format::Arm64),
        _ => None,
    }
}

fn entry_of(number: u64) -> Option<Entry> {
    match number {
        1 => Some(Entry::Page32),
        2 => Some(Entry::Page64),
        3 => Some(Entry::Pvh),
        4 => Some(Entry::Tree),
        _ => None,
    }
}

/// The checks in their order; what they accept is written.
fn boot_into(
    memory: &mut [u8],
    map: &[u64],
    numbers: &Numbers,
    given: &Given,
) -> Result<Booted, Refusal> {
    let kernel = load_kernel(memory, map, numbers, given.image)?;
    let entry = entry_address(numbers.entry, &kernel)?;
    let text = load_text(memory, map, numbers, given)?;
    let data_bytes = boot_data(memory, map, numbers, &kernel, given)?;

    let ramdisk = span(numbers.ramdisk, given.ramdisk.len());
    if let Some(last) = ramdisk_max(numbers.entry, &kernel) {
        let is_too_long = ramdisk.end - ramdisk.start > BELOW_4_GIB.into();
        if is_too_long || !ramdisk.is_empty() && ramdisk.end - 1 > last.into() {
            return Err(Refusal::RamdiskTooHigh);
        }
    }
    if text.len() as u64 - 1 > line_max(numbers, &kernel) {
        return Err(Refusal::LineTooLong);
    }

    // with a device tree the line is in it, and no piece
    let line = match numbers.entry {
        Entry::Tree => 0..0,
        _ => span(numbers.line, text.len()),
    };
    let data = span(numbers.data, data_bytes.len());
    let ranges = Map::from_numbers(map, memory.len())?;
    let outside = |piece: &Span| !has_room(&ranges, piece);
    let kernel_meets = |piece: &Span| kernel.spans.iter().any(|part| meet(part, piece));
    let usable = usable_rows(numbers.entry, given.rows);
    let no_row = |piece: &Span| usable.as_ref().is_some_and(|rows| !is_in(rows, piece));
    let checks = [
        (kernel.spans.iter().any(outside), Refusal::KernelOutside),
        (outside(&ramdisk), Refusal::RamdiskOutside),
        (outside(&data), Refusal::BootDataOutside),
        (kernel_meets(&line), Refusal::KernelMeetsLine),
        (kernel_meets(&ramdisk), Refusal::KernelMeetsRamdisk),
        (kernel_meets(&data), Refusal::KernelMeetsBootData),
        (meet(&line, &ramdisk), Refusal::LineMeetsRamdisk),
        (meet(&line, &data), Refusal::LineMeetsBootData),
        (meet(&ramdisk, &data), Refusal::RamdiskMeetsBootData),
        (kernel.spans.iter().any(no_row), Refusal::KernelNotInRows),
        (no_row(&line), Refusal::LineNotInRows),
        (no_row(&ramdisk), Refusal::RamdiskNotInRows),
    ];
    if let Some((_, refusal)) = checks.into_iter().find(|(fails, _)| *fails) {
        return Err(refusal);
    }

    put(memory, numbers.ramdisk, given.ramdisk);
    put(memory, numbers.data, &data_bytes);
    Ok(Booted {
        load: kernel.load,
        end: kernel.end,
        pvh: kernel.pvh,
        entry,
    })
}

/// Loads the kernel by the call of its format.
fn load_kernel(
    memory: &mut [u8],
    map: &[u64],
    numbers: &Numbers,
    image: &[u8],
) -> Result<Kernel, Refusal> {
    let (format, offset, highmem) = (numbers.format, numbers.offset, numbers.highmem);
    match format {
        Format::Elf => {
            let loaded = elf::load(Rules::landed(), image, memory, map, offset, highmem)?;
            Ok(Kernel {
                format,
                load: loaded.load,
                end: loaded.end,
                pvh: loaded.pvh,
                setup: None,
                spans: elf::taken(image, offset),
            })
        }
        Format::Bzimage => {
            let loaded = bzimage::load(image, memory, map, offset, highmem)?;
            let setup = Setup(loaded.header);
            let written = loaded.load.into()..loaded.end.into();
            Ok(Kernel {
                format,
                load: loaded.load,
                end: loaded.end,
                pvh: Pvh::Ignored,
                setup: Some(setup),
                spans: vec![written, setup.taken(loaded.load)],
            })
        }
        Format::Arm64 => {
            let loaded = arm64::load(image, memory, map, offset.unwrap_or(0))?;
            let written = span(loaded.load, image.len());
            Ok(Kernel {
                format,
                load: loaded.load,
                end: loaded.end,
                pvh: Pvh::Ignored,
                setup: None,
                spans: vec![written, loaded.load.into()..loaded.end.into()],
            })
        }
    }
}

/// The address at which the kernel is entered.
fn entry_address(entry: Entry, kernel: &Kernel) -> Result<u64, Refusal> {
    let wrong = Err(Refusal::WrongEntry);
    match (entry, kernel.format) {
        (Entry::Page32, Format::Bzimage) if kernel.load > BELOW_4_GIB => wrong,
        (Entry::Page32, Format::Bzimage) => Ok(kernel.load),
        (Entry::Page32, _) => wrong,
        (Entry::Page64, Format::Bzimage) => match kernel.setup {
            Some(setup) if setup.has_64_bit_entry() => {
                // a kernel of no bytes may be at the end of 64 bits
                Ok(kernel.load.saturating_add(ENTRY_OF_64_BITS))
            }
            _ => Err(Refusal::No64BitEntry),
        },
        (Entry::Page64, Format::Elf) => Ok(kernel.load),
        (Entry::Page64, Format::Arm64) => wrong,
        (Entry::Pvh, _) => match kernel.pvh {
            Pvh::Present(entry) if entry.address > BELOW_4_GIB => wrong,
            Pvh::Present(entry) => Ok(entry.address),
            _ => Err(Refusal::NoPvhEntry),
        },
        (Entry::Tree, Format::Arm64) => Ok(kernel.load),
        (Entry::Tree, _) => wrong,
    }
}

/// The line with its zero: put into guest memory, or found in the device tree.
fn load_text(
    memory: &mut [u8],
    map: &[u64],
    numbers: &Numbers,
    given: &Given,
) -> Result<Vec<u8>, Refusal> {
    let line = Line::of_texts(given.text, given.init);
    if numbers.entry != Entry::Tree {
        load_line(memory, map, numbers.line, &line)?;
    }
    let text = line.written().map_err(|_| Refusal::InvalidCommandLine)?;
    if numbers.entry == Entry::Tree {
        let offset = usize::try_from(numbers.line).ok();
        let rest = offset.and_then(|offset| given.tree.get(offset..));
        if !rest.is_some_and(|rest| rest.starts_with(&text)) {
            return Err(Refusal::LineNotInTree);
        }
    }
    Ok(text)
}

/// The bytes of page, block or tree.
fn boot_data(
    memory: &[u8],
    map: &[u64],
    numbers: &Numbers,
    kernel: &Kernel,
    given: &Given,
) -> Result<Vec<u8>, Refusal> {
    match numbers.entry {
        Entry::Page32 | Entry::Page64 => boot_page(numbers, kernel, given),
        Entry::Pvh => start_block(memory, map, numbers, given),
        Entry::Tree => Ok(given.tree.to_vec()),
    }
}

fn boot_page(numbers: &Numbers, kernel: &Kernel, given: &Given) -> Result<Vec<u8>, Refusal> {
    let header = kernel.setup.map_or_else(elf_setup, |setup| setup.0);
    // all addresses have 32 bits, and a ramdisk whose size has more is refused next
    let addresses = page::Addresses {
        command_line: numbers.line as u32,
        ramdisk: numbers.ramdisk as u32,
        ramdisk_size: given.ramdisk.len() as u32,
    };
    let mut page = vec![0; page::SIZE];
    page::build(&mut page, &header, addresses, given.rows)?;
    Ok(page)
}

/// The setup header of a page for an ELF image.
fn elf_setup() -> [u8; page::HEADER_SIZE] {
    let mut header = [0; page::HEADER_SIZE];
    put(&mut header, BOOT_FLAG.0 as u64, &BOOT_FLAG.1);
    put(&mut header, MAGIC.0 as u64, &MAGIC.1);
    put(&mut header, ALIGNMENT.0 as u64, &ALIGNMENT.1);
    header
}

/// Block, list of modules and memory map, one after the other.
fn start_block(
    memory: &[u8],
    map: &[u64],
    numbers: &Numbers,
    given: &Given,
) -> Result<Vec<u8>, Refusal> {
    let modules = if given.ramdisk.is_empty() {
        vec![]
    } else {
        vec![numbers.ramdisk, given.ramdisk.len() as u64, 0, 0]
    };
    let modules_at = numbers.data + start::BLOCK.iter().sum::<usize>() as u64;
    let ranges_at = modules_at + 8 * modules.len() as u64;
    let start = start::Start {
        block: numbers.data,
        modules: modules_at,
        ranges: ranges_at,
        flags: 0,
        command_line: numbers.line,
        rsdp: numbers.rsdp,
    };
    let mut copy = memory.to_vec();
    start::write(&mut copy, map, start, &modules, given.rows)?;
    let end = ranges_at as usize + 6 * given.rows.len();
    Ok(copy[numbers.data as usize..end].to_vec())
}

/// The last address that a byte of the ramdisk may have in a boot by zero page.
fn ramdisk_max(entry: Entry, kernel: &Kernel) -> Option<u64> {
    match (entry, kernel.setup) {
        (Entry::Pvh | Entry::Tree, _) => None,
        (_, Some(setup)) => Some(setup.ramdisk_max()),
        (_, None) => Some(BELOW_4_GIB),
    }
}

/// How many bytes the line may have, its zero not counted.
fn line_max(numbers: &Numbers, kernel: &Kernel) -> u64 {
    match kernel.setup {
        Some(setup) => setup.line_max(),
        None => numbers.limit.unwrap_or(LINUX_LINE_MAX),
    }
}

/// The rows of type 1 that the guest is given; with a device tree it is given none.
fn usable_rows(entry: Entry, numbers: &[u64]) -> Option<Vec<Span>> {
    let row_size = match entry {
        Entry::Page32 | Entry::Page64 => 3,
        Entry::Pvh => 4,
        Entry::Tree => return None,
    };
    let rows = numbers.chunks_exact(row_size);
    let usable = rows.filter(|row| row[2] == USABLE);
    Some(usable.map(|row| row_span(row[0], row[1])).collect())
}

fn row_span(address: u64, size: u64) -> Span {
    u128::from(address)..u128::from(address) + u128::from(size)
}

fn span(address: u64, size: usize) -> Span {
    row_span(address, size as u64)
}

/// Whether two spans share an address.
fn meet(a: &Span, b: &Span) -> bool {
    a.start.max(b.start) < a.end.min(b.end)
}

/// Whether a span is in one range of guest memory; one of no bytes needs none.
fn has_room(map: &Map, span: &Span) -> bool {
    let size = (span.end - span.start) as u64;
    let start = u64::try_from(span.start);
    size == 0 || start.is_ok_and(|start| map.room(start, size).is_some())
}

/// Whether a span is in one of the rows; one of no bytes needs none.
fn is_in(rows: &[Span], span: &Span) -> bool {
    let has = |row: &Span| row.start <= span.start && span.end <= row.end;
    span.is_empty() || rows.iter().any(has)
}

fn put(bytes: &mut [u8], at: u64, new: &[u8]) {
    if !new.is_empty() {
        bytes[at as usize..][..new.len()].copy_from_slice(new);
    }
}
