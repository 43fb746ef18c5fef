//! The PVH start block written into guest memory, as a monitor does it with linux-loader.

mod images;

use images::fresh;
use rekusoyen::configurator::pvh::{Error, PvhBootConfigurator};
use rekusoyen::configurator::{self, BootConfigurator, BootParams};
use rekusoyen::loader::elf::start_info::{
    hvm_memmap_table_entry, hvm_modlist_entry, hvm_start_info,
};
use vm_memory::{ByteValued, Bytes, GuestAddress, GuestMemoryMmap};

const INFO: hvm_start_info = hvm_start_info {
    magic: 0x336e_c578,
    version: 1,
    flags: 5,
    nr_modules: 1,
    modlist_paddr: 0x2000,
    cmdline_paddr: 6,
    rsdp_paddr: 7,
    memmap_paddr: 0x2ff4,
    memmap_entries: 2,
    reserved: 0,
};

const MODULE: hvm_modlist_entry = hvm_modlist_entry {
    paddr: 1,
    size: 2,
    cmdline_paddr: 3,
    reserved: 0,
};

const RANGE: hvm_memmap_table_entry = hvm_memmap_table_entry {
    addr: 4,
    size: 5,
    type_: 6,
    reserved: 0,
};

const REGIONS: [(u64, usize); 3] = [(0, 0x3000), (0x3000, 0x1000), (0x8000, 0x1000)];

/// Three regions, of which two touch.
fn memory() -> GuestMemoryMmap {
    let regions = REGIONS.map(|(start, size)| (GuestAddress(start), size));
    let memory = GuestMemoryMmap::from_ranges(&regions).unwrap();
    for (start, size) in regions {
        memory.write_slice(&fresh(size), start).unwrap();
    }
    memory
}

fn content(memory: &GuestMemoryMmap) -> Vec<Vec<u8>> {
    let region = |(start, size)| {
        let mut bytes = vec![0; size];
        memory.read_slice(&mut bytes, GuestAddress(start)).unwrap();
        bytes
    };
    REGIONS.map(region).to_vec()
}

/// The block at 0x1000 of the first region, the modules in the third, and a memory map that lies in both of those that touch.
fn params() -> BootParams {
    let mut params = BootParams::new(&INFO, GuestAddress(0x1000));
    params.set_sections(&[RANGE, RANGE], GuestAddress(0x2ff4));
    params.set_modules(&[MODULE], GuestAddress(0x8ff0 - 32));
    params
}

fn write(params: &BootParams, memory: &GuestMemoryMmap) -> configurator::Result<()> {
    PvhBootConfigurator::write_bootparams(params, memory)
}

#[test]
fn every_field_is_written_as_the_monitor_gave_it() {
    let memory = memory();
    write(&params(), &memory).unwrap();
    let wanted = self::memory();
    let put = |bytes: &[u8], at| wanted.write_slice(bytes, GuestAddress(at)).unwrap();
    put(INFO.as_slice(), 0x1000);
    put(RANGE.as_slice(), 0x2ff4);
    put(RANGE.as_slice(), 0x2ff4 + 24);
    put(MODULE.as_slice(), 0x8ff0 - 32);
    assert!(content(&memory) == content(&wanted));
}

#[test]
fn what_is_refused_writes_nothing() {
    let memory = memory();
    let before = content(&memory);
    let refused = |error: Error, change: &dyn Fn(&mut BootParams)| {
        let mut params = params();
        change(&mut params);
        assert_eq!(write(&params, &memory), Err(error.into()));
        assert!(content(&memory) == before);
    };
    let info = |change: &dyn Fn(&mut hvm_start_info)| {
        let mut info = INFO;
        change(&mut info);
        info.as_slice().to_vec()
    };
    refused(Error::MemmapTableMissing, &|params| params.sections = None);
    refused(Error::MemmapTableAddressMissing, &|params| {
        params.sections_start = None;
    });
    refused(Error::ModulesAddressMissing, &|params| {
        params.modules_start = None;
    });
    refused(Error::MemmapTablePastRamEnd, &|params| {
        params.sections_start = Some(GuestAddress(0x4000 - 48));
    });
    refused(Error::StartInfoPastRamEnd, &|params| {
        params.header_start = GuestAddress(0x4000 - 56);
    });
    // over the hole, though its end lies in guest memory
    refused(Error::StartInfoSetup, &|params| {
        params.header_start = GuestAddress(0x7fff);
    });
    refused(Error::ModulesSetup, &|params| {
        params.modules_start = Some(GuestAddress(0x3fff));
    });
    // what the library does not take: another magic number, version or size, reserved fields, part of a row, parts that overlap
    refused(Error::StartInfoSetup, &|params| {
        params.header = info(&|info| info.magic += 1);
    });
    refused(Error::StartInfoSetup, &|params| {
        params.header = info(&|info| info.version = 2);
    });
    refused(Error::StartInfoSetup, &|params| {
        params.header = info(&|info| info.reserved = 1);
    });
    refused(Error::StartInfoSetup, &|params| params.header.push(0));
    refused(Error::MemmapTableSetup, &|params| {
        params.sections.as_mut().unwrap()[20] = 1;
    });
    refused(Error::MemmapTableSetup, &|params| {
        params.sections.as_mut().unwrap().pop();
    });
    refused(Error::ModulesSetup, &|params| {
        params.modules.as_mut().unwrap()[31] = 1;
    });
    refused(Error::ModulesSetup, &|params| {
        params.modules.as_mut().unwrap().pop();
    });
    for address in [0x1000 - 31, 0x1000, 0x1037] {
        refused(Error::StartInfoSetup, &|params| {
            params.modules_start = Some(GuestAddress(address));
        });
    }
    refused(Error::StartInfoSetup, &|params| {
        params.modules_start = Some(GuestAddress(0x2ff4 + 47));
    });
}

#[test]
fn parts_may_touch_and_lists_be_empty() {
    let memory = memory();
    let mut touching = params();
    touching.set_sections(&[RANGE], GuestAddress(0x1000 - 24));
    touching.set_modules(&[MODULE], GuestAddress(0x1038));
    write(&touching, &memory).unwrap();
    assert_eq!(
        memory
            .read_obj::<hvm_start_info>(GuestAddress(0x1000))
            .unwrap(),
        INFO
    );
    assert_eq!(
        memory
            .read_obj::<hvm_modlist_entry>(GuestAddress(0x1038))
            .unwrap(),
        MODULE
    );
    let mut empty = params();
    empty.modules = None;
    empty.set_sections::<hvm_memmap_table_entry>(&[], GuestAddress(0x1001));
    write(&empty, &memory).unwrap();
    empty.set_modules::<hvm_modlist_entry>(&[], GuestAddress(0x1002));
    write(&empty, &memory).unwrap();
}
