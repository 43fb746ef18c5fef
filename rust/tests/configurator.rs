//! The zero page written into guest memory, as a monitor does it with linux-loader.

mod images;

use images::fresh;
use rekusoyen::boot_page::Addresses;
use rekusoyen::configurator::linux::{self, LinuxBootConfigurator};
use rekusoyen::configurator::{self, BootConfigurator, BootParams};
use rekusoyen::loader::bootparam::{boot_e820_entry, boot_params};
use vm_memory::{ByteValued, Bytes, GuestAddress, GuestMemoryMmap};

const AT: GuestAddress = GuestAddress(0x2ff0);

/// Two regions, one behind the other: the page lies in both.
fn memory() -> GuestMemoryMmap {
    let ranges = [(GuestAddress(0), 0x3000), (GuestAddress(0x3000), 0x3000)];
    let memory = GuestMemoryMmap::from_ranges(&ranges).unwrap();
    memory.write_slice(&fresh(0x6000), GuestAddress(0)).unwrap();
    memory
}

fn content(memory: &GuestMemoryMmap) -> Vec<u8> {
    let mut bytes = vec![0; 0x6000];
    memory.read_slice(&mut bytes, GuestAddress(0)).unwrap();
    bytes
}

fn write(
    params: &impl ByteValued,
    at: GuestAddress,
    memory: &GuestMemoryMmap,
) -> configurator::Result<()> {
    LinuxBootConfigurator::write_bootparams(&BootParams::new(params, at), memory)
}

/// A page in which every field holds something, with this memory map.
fn page(rows: &[(u64, u64)]) -> boot_params {
    let bytes: [u8; 4096] = fresh(4096).try_into().unwrap();
    let mut params = boot_params::from(bytes);
    params.e820_entries = rows.len() as u8;
    for (entry, (addr, size)) in params.e820_table.iter_mut().zip(rows) {
        *entry = boot_e820_entry {
            addr: *addr,
            size: *size,
            r#type: 1,
        };
    }
    params
}

#[test]
fn every_field_is_written_as_the_monitor_gave_it() {
    let memory = memory();
    let params = page(&[(0x10000, 0x1000), (0, 0x10000)]);
    assert_ne!(params.hdr.type_of_loader, 0xff);
    write(&params, AT, &memory).unwrap();
    let mut wanted = fresh(0x6000);
    wanted[0x2ff0..0x3ff0].copy_from_slice(params.as_slice());
    assert_eq!(content(&memory), wanted);
}

#[test]
fn a_page_that_the_library_built_is_written() {
    let memory = memory();
    let params = boot_params::built(Default::default(), Addresses::default(), &[]).unwrap();
    write(&params, AT, &memory).unwrap();
    assert_eq!(memory.read_obj::<boot_params>(AT).unwrap(), params);
}

#[test]
fn what_is_refused_writes_nothing() {
    let memory = memory();
    let past = Err(linux::Error::ZeroPagePastRamEnd.into());
    assert_eq!(write(&page(&[]), GuestAddress(0x5001), &memory), past);
    let setup = || Err(linux::Error::ZeroPageSetup.into());
    // a memory map that overlaps, one of too many rows, and a header section that is no zero page
    assert_eq!(write(&page(&[(0, 2), (1, 1)]), AT, &memory), setup());
    let mut many = page(&[]);
    many.e820_entries = 129;
    assert_eq!(write(&many, AT, &memory), setup());
    assert_eq!(write(&0u64, AT, &memory), setup());
    assert_eq!(content(&memory), fresh(0x6000));
}
