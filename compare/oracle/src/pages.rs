//! Boot pages by the crate: its struct, filled field by field, and its configurator, which writes it into guest memory.

use driver::answer::{Answer, PageFound};
use driver::question::{PageBuild, PageRead};
use linux_loader::configurator::linux::LinuxBootConfigurator;
use linux_loader::configurator::{BootConfigurator, BootParams};
use linux_loader::loader::bootparam::{boot_e820_entry, boot_params, setup_header};
use vm_memory::{ByteValued, Bytes, GuestAddress, GuestMemoryMmap};

/// The loader type of a loader without a number.
const OTHER_LOADER: u8 = 0xff;

/// Where the page is put, in guest memory that has one byte more on each side.
const AT: GuestAddress = GuestAddress(1);

pub fn build(build: &PageBuild) -> Answer {
    let header = setup_header::from_slice(&build.header);
    let mut params = boot_params {
        hdr: *header.expect("a header has 123 bytes"),
        ..Default::default()
    };
    params.hdr.type_of_loader = OTHER_LOADER;
    params.hdr.cmd_line_ptr = build.command_line;
    params.hdr.ramdisk_image = build.ramdisk;
    params.hdr.ramdisk_size = build.ramdisk_size;
    params.e820_entries = (build.numbers.len() / 3) as u8;
    for (entry, row) in params.e820_table.iter_mut().zip(build.numbers.chunks(3)) {
        *entry = boot_e820_entry {
            addr: row[0],
            size: row[1],
            r#type: row[2] as u32,
        };
    }
    let mut page = vec![0; build.page.len()];
    let memory = GuestMemoryMmap::<()>::from_ranges(&[(GuestAddress(0), page.len() + 2)]);
    let memory = memory.expect("a region of two pages can be had");
    LinuxBootConfigurator::write_bootparams(&BootParams::new(&params, AT), &memory)
        .expect("the page has room");
    memory
        .read_slice(&mut page, AT)
        .expect("what was written can be read");
    Answer::PageBuild {
        outcome: Ok(()),
        page,
    }
}

pub fn read(read: &PageRead) -> Answer {
    let mut params = boot_params::default();
    params.as_mut_slice().copy_from_slice(&read.page());
    let rows = params.e820_table.iter();
    let rows = rows.take(params.e820_entries.into());
    Answer::PageRead(Ok(PageFound {
        command_line: params.hdr.cmd_line_ptr,
        ramdisk: params.hdr.ramdisk_image,
        ramdisk_size: params.hdr.ramdisk_size,
        header: params.hdr.as_slice().to_vec(),
        numbers: rows
            .flat_map(|row| [row.addr, row.size, row.r#type.into()])
            .collect(),
    }))
}
