//! The PVH start block, written, checked and read.

mod images;

use images::fresh;
use rekusoyen::loader::elf::start_info::{
    hvm_memmap_table_entry, hvm_modlist_entry, hvm_start_info, XEN_HVM_START_MAGIC_VALUE,
};
use rekusoyen::start_info::{check, write, Found, Start};
use rekusoyen::{GuestAddress, Map, Refusal};

const START: Start = Start {
    block: GuestAddress(3),
    modules: GuestAddress(60),
    memory_map: GuestAddress(130),
    flags: 0x8000_0001,
    command_line: GuestAddress(0xf1f2_f3f4_f5f6_f7f8),
    rsdp: GuestAddress(0xe0000),
};

fn module(paddr: u64) -> hvm_modlist_entry {
    hvm_modlist_entry {
        paddr,
        size: u64::MAX,
        cmdline_paddr: 7,
        reserved: 0,
    }
}

fn range(addr: u64) -> hvm_memmap_table_entry {
    hvm_memmap_table_entry {
        addr,
        size: 1 << 40,
        type_: 0xffff_fffe,
        reserved: 0,
    }
}

/// The bytes of a struct of numbers without padding.
fn put(guest: &mut [u8], at: usize, fields: &[(u64, usize)]) {
    let mut place = at;
    for (number, width) in fields {
        guest[place..place + width].copy_from_slice(&number.to_le_bytes()[..*width]);
        place += width;
    }
}

#[test]
fn what_is_written_is_the_structs_and_reads_back() {
    let mut guest = fresh(200);
    let map = Map::whole(200);
    let (modules, memory_map) = ([module(1), module(2)], [range(3), range(4)]);
    write(&mut guest, &map, START, &modules, &memory_map).unwrap();
    let mut wanted = fresh(200);
    let block = [
        (XEN_HVM_START_MAGIC_VALUE.into(), 4),
        (1, 4),
        (0x8000_0001, 4),
        (2, 4),
        (60, 8),
        (START.command_line.0, 8),
        (START.rsdp.0, 8),
        (130, 8),
        (2, 4),
        (0, 4),
    ];
    put(&mut wanted, 3, &block);
    for (index, row) in modules.iter().enumerate() {
        let row = [(row.paddr, 8), (row.size, 8), (7, 8), (0, 8)];
        put(&mut wanted, 60 + 32 * index, &row);
    }
    for (index, row) in memory_map.iter().enumerate() {
        let row = [(row.addr, 8), (row.size, 8), (row.type_.into(), 4), (0, 4)];
        put(&mut wanted, 130 + 24 * index, &row);
    }
    assert_eq!(guest, wanted);
    let found = check(&guest, &map, START.block).unwrap();
    let block = hvm_start_info {
        magic: XEN_HVM_START_MAGIC_VALUE,
        version: 1,
        flags: START.flags,
        nr_modules: 2,
        modlist_paddr: 60,
        cmdline_paddr: START.command_line.0,
        rsdp_paddr: START.rsdp.0,
        memmap_paddr: 130,
        memmap_entries: 2,
        reserved: 0,
    };
    let (modules, memory_map) = (modules.to_vec(), memory_map.to_vec());
    assert_eq!(
        found,
        Found {
            block,
            modules,
            memory_map
        }
    );
}

#[test]
fn a_refusal_leaves_guest_memory() {
    let at = |block, modules, memory_map| Start {
        block: GuestAddress(block),
        modules: GuestAddress(modules),
        memory_map: GuestAddress(memory_map),
        ..START
    };
    let reserved = hvm_memmap_table_entry {
        reserved: 1,
        ..range(0)
    };
    let hole = [(GuestAddress(0), 59), (GuestAddress(60), 52)];
    let whole = Map::whole(112);
    for (refusal, map, start, row) in [
        (Refusal::BadPart, &whole, at(57, 0, 32), range(0)),
        (Refusal::BadPart, &whole, at(0, 56, 87), range(0)),
        (Refusal::BadPart, &whole, at(0, 88, 33), range(0)),
        (Refusal::BadPart, &whole, at(0, u64::MAX, 88), range(0)),
        (Refusal::BadList, &whole, at(0, u64::MAX, 88), reserved),
        (Refusal::BadMap, &Map::whole(113), at(0, 56, 88), reserved),
        (
            Refusal::BadPart,
            &Map::from_ranges(&hole),
            at(0, 56, 88),
            range(0),
        ),
    ] {
        let mut guest = fresh(112);
        let answer = write(&mut guest, map, start, &[module(0)], &[row]);
        assert_eq!(answer, Err(refusal), "{start:?}");
        assert_eq!(guest, fresh(112));
    }
    let mut guest = fresh(112);
    write(&mut guest, &whole, at(0, 56, 88), &[module(0)], &[range(0)]).unwrap();
    // no rows lie anywhere and overlap nothing
    write(&mut guest, &whole, at(56, 57, u64::MAX), &[], &[]).unwrap();
}

#[test]
fn any_block_is_checked_as_it_stands() {
    let mut guest = fresh(200);
    let map = Map::whole(200);
    write(&mut guest, &map, START, &[module(1)], &[range(2)]).unwrap();
    let reserved = (3 + 52..3 + 56)
        .chain(60 + 24..60 + 32)
        .chain(130 + 20..130 + 24);
    let changes = (3..7)
        .map(|place| (place, Refusal::BadStartMagic))
        .chain((7..11).map(|place| (place, Refusal::BadStartVersion)))
        .chain(reserved.map(|place| (place, Refusal::BadStartReserved)))
        // the address of the modules, then of the memory map
        .chain([(3 + 20, Refusal::BadPart), (3 + 44, Refusal::BadPart)]);
    for (place, refusal) in changes {
        let mut spoilt = guest.clone();
        spoilt[place] ^= 0x40;
        assert_eq!(check(&spoilt, &map, START.block), Err(refusal), "{place}");
    }
    // of several the first
    let mut spoilt = guest.clone();
    spoilt[3..11].fill(0);
    let magic = check(&spoilt, &map, START.block);
    assert_eq!(magic, Err(Refusal::BadStartMagic));
    let outside = check(&spoilt, &map, GuestAddress(145));
    assert_eq!(outside, Err(Refusal::BadPart));
    // another flag, and lists that overlap
    guest[11] ^= 1;
    guest[3 + 40] = 60;
    guest[60 + 20..60 + 24].fill(0);
    assert!(check(&guest, &map, START.block).is_ok());
    let bad = Map::whole(201);
    assert_eq!(check(&guest, &bad, START.block), Err(Refusal::BadMap));
}
