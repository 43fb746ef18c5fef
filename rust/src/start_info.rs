//! The PVH start block with its list of modules and its memory map: written into guest memory, checked and read there by the proved library.
//!
//! linux-loader leaves it to the monitor to fill the structs; here the library writes block and lists and tests that they have room and are apart.

use crate::entry::{START_BLOCK_NUMBERS, START_ROW_NUMBERS};
use crate::ffi::call;
use crate::loader::elf::start_info::{hvm_memmap_table_entry, hvm_modlist_entry, hvm_start_info};
use crate::refusal::{answered, Refusal};
use crate::{GuestAddress, Map};

/// Where block and lists go, and what else the block says.
#[derive(Clone, Copy, Debug, Default, PartialEq, Eq)]
pub struct Start {
    /// The guest address of the block.
    pub block: GuestAddress,
    /// The guest address of the list of modules.
    pub modules: GuestAddress,
    /// The guest address of the memory map.
    pub memory_map: GuestAddress,
    /// The block's flags.
    pub flags: u32,
    /// The guest address of the command line, and 0 without one.
    pub command_line: GuestAddress,
    /// The guest address of the RSDP, and 0 without one.
    pub rsdp: GuestAddress,
}

/// An accepted block, and the rows that it names.
#[derive(Clone, Debug, PartialEq)]
pub struct Found {
    /// The block.
    pub block: hvm_start_info,
    /// The modules.
    pub modules: Vec<hvm_modlist_entry>,
    /// The rows of the memory map.
    pub memory_map: Vec<hvm_memmap_table_entry>,
}

/// Writes the block, with its magic number and version 1, and its lists into guest memory that has a map.
///
/// A refusal leaves guest memory as it was: [`BadMap`](Refusal::BadMap), [`BadList`](Refusal::BadList) where a reserved field is not 0, and
/// [`BadPart`](Refusal::BadPart) where block or list does not lie in one range of guest memory or two of them overlap. A list of no rows lies anywhere.
///
/// ```
/// use rekusoyen::loader::elf::start_info::hvm_memmap_table_entry;
/// use rekusoyen::start_info::{check, write, Start};
/// use rekusoyen::{GuestAddress, Map, Refusal};
///
/// let mut guest = [0u8; 0x100];
/// let map = Map::whole(guest.len());
/// let start = Start {
///     block: GuestAddress(8),
///     memory_map: GuestAddress(64),
///     command_line: GuestAddress(0x20000),
///     ..Default::default()
/// };
/// let ram = hvm_memmap_table_entry { addr: 0, size: 0x9fc00, type_: 1, reserved: 0 };
/// write(&mut guest, &map, start, &[], &[ram])?;
///
/// let found = check(&guest, &map, GuestAddress(8))?;
/// assert_eq!(found.block.cmdline_paddr, 0x20000);
/// assert_eq!(found.memory_map, [ram]);
/// assert_eq!(check(&guest, &map, GuestAddress(9)), Err(Refusal::BadStartMagic));
///
/// // the block would lie over the memory map
/// let over = Start { block: GuestAddress(9), ..start };
/// assert_eq!(write(&mut guest, &map, over, &[], &[ram]), Err(Refusal::BadPart));
/// # Ok::<(), Refusal>(())
/// ```
pub fn write(
    guest: &mut [u8],
    map: &Map,
    start: Start,
    modules: &[hvm_modlist_entry],
    memory_map: &[hvm_memmap_table_entry],
) -> Result<(), Refusal> {
    let modules: Vec<u64> = modules.iter().flat_map(|row| row.numbers()).collect();
    let ranges: Vec<u64> = memory_map.iter().flat_map(|row| row.numbers()).collect();
    write_numbers(guest, map, start, &modules, &ranges)
}

/// The same of the numbers of the rows, four each.
pub(crate) fn write_numbers(
    guest: &mut [u8],
    map: &Map,
    start: Start,
    modules: &[u64],
    ranges: &[u64],
) -> Result<(), Refusal> {
    answered(call!(rekusoyen_start_write(
        mut guest, in map.numbers(), start.block.0, start.modules.0, start.memory_map.0, start.flags,
        start.command_line.0, start.rsdp.0, in modules, in ranges
    )))
}

/// Checks the block at an address, no matter who wrote it, and reads it with its lists.
///
/// A block is accepted if it and both lists lie in guest memory, each within one range of the map, magic number and
/// version are right, and every reserved field, the rows' too, is 0. It is not checked whether parts overlap. Else what
/// is wrong first is returned: [`SliceTooLong`](Refusal::SliceTooLong) and [`BadMap`](Refusal::BadMap); of the block
/// [`BadPart`](Refusal::BadPart), [`BadStartMagic`](Refusal::BadStartMagic),
/// [`BadStartVersion`](Refusal::BadStartVersion) and [`BadStartReserved`](Refusal::BadStartReserved); of the modules,
/// then of the memory map `BadPart` and `BadStartReserved`.
pub fn check(guest: &[u8], map: &Map, block: GuestAddress) -> Result<Found, Refusal> {
    answered(call!(rekusoyen_start_check(in guest, in map.numbers(), block.0)))?;
    Ok(found(guest, block))
}

/// What an accepted block says. Its lists lie in guest memory.
fn found(guest: &[u8], block: GuestAddress) -> Found {
    let block = hvm_start_info::from_numbers(block_numbers(guest, block.0));
    let modules = module_numbers(guest, block.modlist_paddr, block.nr_modules as usize);
    let ranges = range_numbers(guest, block.memmap_paddr, block.memmap_entries as usize);
    let (modules, ranges) = (modules.chunks_exact(4), ranges.chunks_exact(4));
    Found {
        block,
        modules: modules.map(hvm_modlist_entry::from_numbers).collect(),
        memory_map: ranges.map(hvm_memmap_table_entry::from_numbers).collect(),
    }
}

/// The numbers of a block.
pub(crate) fn block_numbers(guest: &[u8], block: u64) -> [u64; START_BLOCK_NUMBERS] {
    let mut numbers = [0; START_BLOCK_NUMBERS];
    let answer = call!(rekusoyen_raw_start_block(in guest, block, mut &mut numbers));
    debug_assert_eq!(answer, 0);
    numbers
}

/// The numbers of so many modules.
pub(crate) fn module_numbers(guest: &[u8], modules: u64, count: usize) -> Vec<u64> {
    let mut numbers = vec![0; START_ROW_NUMBERS * count];
    call!(rekusoyen_start_modules(in guest, modules, mut &mut numbers));
    numbers
}

/// The numbers of so many rows of a memory map.
pub(crate) fn range_numbers(guest: &[u8], ranges: u64, count: usize) -> Vec<u64> {
    let mut numbers = vec![0; START_ROW_NUMBERS * count];
    call!(rekusoyen_start_ranges(in guest, ranges, mut &mut numbers));
    numbers
}
