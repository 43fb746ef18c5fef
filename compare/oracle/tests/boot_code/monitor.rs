// A monitor's boot code by the zero page and by PVH, written once: the module that includes it says which crate `program` is.

use program::configurator::linux::LinuxBootConfigurator;
use program::configurator::pvh::PvhBootConfigurator;
use program::configurator::{BootConfigurator, BootParams};
use program::loader::bootparam::{boot_e820_entry, boot_params, setup_header};
use program::loader::elf::start_info::{
    hvm_memmap_table_entry, hvm_modlist_entry, hvm_start_info,
};
use program::loader::{load_cmdline, BzImage, Cmdline, Elf, KernelLoader};

/// Where the zero page and the command line go.
const ZERO_PAGE: GuestAddress = GuestAddress(0x7000);
const COMMAND_LINE: GuestAddress = GuestAddress(0x20000);

/// Loads a bzImage and its command line, and writes the zero page with a row for each region; tells where the kernel is entered.
pub fn start(memory: &GuestMemoryMmap, image: &[u8]) -> GuestAddress {
    let kernel = BzImage::load(memory, None, &mut Cursor::new(image), None).unwrap();
    let mut line = Cmdline::new(256).unwrap();
    line.insert_str("console=ttyS0 reboot=k panic=1").unwrap();
    load_cmdline(memory, COMMAND_LINE, &line).unwrap();
    let mut params = boot_params {
        hdr: kernel.setup_header.unwrap(),
        acpi_rsdp_addr: 0xe0000,
        ..Default::default()
    };
    params.hdr.type_of_loader = 0xff;
    params.hdr.cmd_line_ptr = COMMAND_LINE.0 as u32;
    params.hdr.ramdisk_image = 0x0100_0000;
    params.hdr.ramdisk_size = 0x1234;
    for (entry, region) in params.e820_table.iter_mut().zip(memory.iter()) {
        *entry = boot_e820_entry {
            addr: region.start_addr().0,
            size: region.len(),
            r#type: 1,
        };
        params.e820_entries += 1;
    }
    write(memory, ZERO_PAGE, params.as_slice()).unwrap();
    kernel.kernel_load
}

/// Writes bytes that are a zero page; a refusal is told in words.
pub fn write(memory: &GuestMemoryMmap, at: GuestAddress, bytes: &[u8]) -> Result<(), String> {
    let params = boot_params::from_slice(bytes).unwrap();
    LinuxBootConfigurator::write_bootparams(&BootParams::new(params, at), memory)
        .map_err(|error| format!("{error:?}"))
}

/// Where the start block goes, and the list of modules behind it; the memory map goes to another region.
const START_INFO: GuestAddress = GuestAddress(0x6000);
const MODULES: GuestAddress = GuestAddress(0x6040);
const MEMORY_MAP: GuestAddress = GuestAddress(0x10_0800);

/// Loads an ELF kernel and its command line, and writes the start block with a module and a row for each region.
pub fn start_by_pvh(memory: &GuestMemoryMmap, image: &[u8]) -> GuestAddress {
    let kernel = Elf::load(memory, None, &mut Cursor::new(image), None).unwrap();
    let mut line = Cmdline::new(256).unwrap();
    line.insert_str("console=ttyS0 reboot=k panic=1").unwrap();
    load_cmdline(memory, COMMAND_LINE, &line).unwrap();
    let module = hvm_modlist_entry {
        paddr: 0x10_0000,
        size: 0x800,
        ..Default::default()
    };
    let rows: Vec<_> = memory
        .iter()
        .map(|region| hvm_memmap_table_entry {
            addr: region.start_addr().0,
            size: region.len(),
            type_: 1,
            reserved: 0,
        })
        .collect();
    let info = hvm_start_info {
        magic: 0x336e_c578,
        version: 1,
        nr_modules: 1,
        modlist_paddr: MODULES.0,
        cmdline_paddr: COMMAND_LINE.0,
        memmap_paddr: MEMORY_MAP.0,
        memmap_entries: rows.len() as u32,
        ..Default::default()
    };
    let mut params = BootParams::new(&info, START_INFO);
    params.set_sections(&rows, MEMORY_MAP);
    params.add_module(&module, Some(MODULES)).unwrap();
    PvhBootConfigurator::write_bootparams(&params, memory).unwrap();
    kernel.kernel_load
}

/// Writes bytes that are a start block, a memory map and modules, each with its address; a refusal is told in words.
pub fn write_start(memory: &GuestMemoryMmap, parts: &[(u64, Vec<u8>); 3]) -> Result<(), String> {
    let [(block, header), (map, sections), (list, modules)] = parts.clone();
    let params = BootParams {
        header,
        header_start: GuestAddress(block),
        sections: Some(sections),
        sections_start: Some(GuestAddress(map)),
        modules: (!modules.is_empty()).then_some(modules),
        modules_start: Some(GuestAddress(list)),
    };
    PvhBootConfigurator::write_bootparams(&params, memory).map_err(|error| format!("{error:?}"))
}

/// How large the structs of PVH are, and where their last fields stand.
pub fn start_layout() -> Vec<usize> {
    vec![
        std::mem::size_of::<hvm_start_info>(),
        std::mem::size_of::<hvm_modlist_entry>(),
        std::mem::size_of::<hvm_memmap_table_entry>(),
        std::mem::offset_of!(hvm_start_info, memmap_entries),
        std::mem::offset_of!(hvm_start_info, rsdp_paddr),
        std::mem::offset_of!(hvm_modlist_entry, reserved),
        std::mem::offset_of!(hvm_memmap_table_entry, type_),
    ]
}

/// Where each field that a monitor sets stands, and how large the structs are.
pub fn layout() -> Vec<usize> {
    let params = boot_params::default();
    let start = std::ptr::addr_of!(params) as usize;
    let at = |field: usize| field - start;
    vec![
        std::mem::size_of::<boot_params>(),
        std::mem::size_of::<setup_header>(),
        std::mem::size_of::<boot_e820_entry>(),
        at(std::ptr::addr_of!(params.acpi_rsdp_addr) as usize),
        at(std::ptr::addr_of!(params.ext_ramdisk_image) as usize),
        at(std::ptr::addr_of!(params.ext_cmd_line_ptr) as usize),
        at(std::ptr::addr_of!(params.efi_info) as usize),
        at(std::ptr::addr_of!(params.e820_entries) as usize),
        at(std::ptr::addr_of!(params.sentinel) as usize),
        at(std::ptr::addr_of!(params.hdr) as usize),
        at(std::ptr::addr_of!(params.edd_mbr_sig_buffer) as usize),
        at(std::ptr::addr_of!(params.e820_table) as usize),
        at(std::ptr::addr_of!(params.eddbuf) as usize),
    ]
}
