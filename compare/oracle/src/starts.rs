//! Start blocks by the crate: its structs, filled field by field, and its configurator, which writes them into guest memory.

use driver::question::StartWrite;
use linux_loader::configurator::pvh::PvhBootConfigurator;
use linux_loader::configurator::{BootConfigurator, BootParams};
use linux_loader::loader::elf::start_info::{
    hvm_memmap_table_entry, hvm_modlist_entry, hvm_start_info,
};
use vm_memory::{GuestAddress, GuestMemoryMmap};

const MAGIC: u32 = 0x336e_c578;

/// Writes the block and its lists, which have room.
pub fn write(write: &StartWrite, memory: &GuestMemoryMmap) {
    let info = hvm_start_info {
        magic: MAGIC,
        version: 1,
        flags: write.flags,
        nr_modules: (write.modules.len() / 4) as u32,
        modlist_paddr: write.modules_at,
        cmdline_paddr: write.command_line,
        rsdp_paddr: write.rsdp,
        memmap_paddr: write.ranges_at,
        memmap_entries: (write.ranges.len() / 4) as u32,
        ..Default::default()
    };
    let rows = |numbers: &[u64]| -> Vec<[u64; 4]> {
        let rows = numbers.chunks(4);
        rows.map(|row| row.try_into().expect("whole rows"))
            .collect()
    };
    let ranges: Vec<_> = rows(&write.ranges)
        .into_iter()
        .map(|[addr, size, kind, reserved]| hvm_memmap_table_entry {
            addr,
            size,
            type_: kind as u32,
            reserved: reserved as u32,
        })
        .collect();
    let modules: Vec<_> = rows(&write.modules)
        .into_iter()
        .map(|[paddr, size, cmdline_paddr, reserved]| hvm_modlist_entry {
            paddr,
            size,
            cmdline_paddr,
            reserved,
        })
        .collect();
    let mut params = BootParams::new(&info, GuestAddress(write.block));
    params.set_sections(&ranges, GuestAddress(write.ranges_at));
    if !modules.is_empty() {
        params.set_modules(&modules, GuestAddress(write.modules_at));
    }
    PvhBootConfigurator::write_bootparams(&params, memory).expect("every part has room");
}
