//! One boot code, compiled with the published crate and with the crate of this repository: guest memory is the same, byte for byte.

use std::io::Cursor;

use vm_memory::{
    ByteValued, Bytes, GuestAddress, GuestMemoryBackend, GuestMemoryMmap, GuestMemoryRegion,
};

mod published {
    use super::*;
    use linux_loader as program;
    include!("monitor.rs");
}

mod proved {
    use super::*;
    use rekusoyen as program;
    include!("monitor.rs");
}

/// Repeatable random numbers.
struct Random(u64);

impl Random {
    fn next(&mut self) -> u64 {
        self.0 ^= self.0 << 13;
        self.0 ^= self.0 >> 7;
        self.0 ^= self.0 << 17;
        self.0
    }

    fn fill(&mut self, bytes: &mut [u8]) {
        bytes.iter_mut().for_each(|byte| *byte = self.next() as u8);
    }
}

const REGIONS: [(u64, usize); 3] = [(0, 0x3_0000), (0x3_0000, 0x1000), (0x10_0000, 0x1000)];

/// Memory of three regions, of which two touch, and a content that shows what is untouched.
fn memory() -> GuestMemoryMmap {
    let regions = REGIONS.map(|(start, size)| (GuestAddress(start), size));
    let memory = GuestMemoryMmap::from_ranges(&regions).unwrap();
    for (start, size) in regions {
        let mut bytes = vec![0; size];
        Random(start.0 + 1).fill(&mut bytes);
        memory.write_slice(&bytes, start).unwrap();
    }
    memory
}

fn content(memory: &GuestMemoryMmap) -> Vec<Vec<u8>> {
    let region = |(start, size)| {
        let mut bytes = vec![0; size];
        memory.read_slice(&mut bytes, GuestAddress(start)).unwrap();
        bytes
    };
    REGIONS.map(region).to_vec()
}

fn bzimage() -> Vec<u8> {
    let mut image = vec![0; 1024 + 77];
    Random(3).fill(&mut image);
    image[0x1f1] = 1;
    image[0x202..0x206].copy_from_slice(b"HdrS");
    image[0x206..0x208].copy_from_slice(&0x20fu16.to_le_bytes());
    image[0x211] = 1;
    image[0x214..0x218].copy_from_slice(&0x1000u32.to_le_bytes());
    image
}

#[test]
fn structs_have_the_same_layout() {
    assert_eq!(proved::layout(), published::layout());
    assert_eq!(proved::start_layout(), published::start_layout());
}

#[test]
fn a_monitor_starts_the_same_guest() {
    let (theirs, ours) = (memory(), memory());
    let entered = published::start(&theirs, &bzimage());
    assert_eq!(proved::start(&ours, &bzimage()), entered);
    assert!(content(&ours) == content(&theirs));
}

/// A page of random bytes, whose memory map has so many rows, none of which is bad.
fn page(random: &mut Random) -> Vec<u8> {
    let mut page = vec![0; 4096];
    random.fill(&mut page);
    let count = random.next() as usize % 129;
    page[0x1e8] = count as u8;
    for row in 0..count {
        let place = 0x2d0 + 20 * row;
        let (address, size) = ((row as u64) << 32, 1 + (random.next() >> 33));
        page[place..place + 8].copy_from_slice(&address.to_le_bytes());
        page[place + 8..place + 16].copy_from_slice(&size.to_le_bytes());
    }
    page
}

#[test]
fn random_pages_are_written_alike() {
    let mut random = Random(7);
    for _ in 0..300 {
        let page = page(&mut random);
        let at = GuestAddress(random.next() % 0x3_2000);
        let (theirs, ours) = (memory(), memory());
        let answer = published::write(&theirs, at, &page);
        assert_eq!(proved::write(&ours, at, &page), answer, "{at:?}");
        assert!(content(&ours) == content(&theirs), "{at:?}");
    }
}

/// What the published crate writes and this one refuses: a memory map that its own rules do not take.
#[test]
fn a_bad_memory_map_is_refused_here_alone() {
    let mut page = page(&mut Random(9));
    page[0x1e8] = 1;
    page[0x2d8..0x2e0].fill(0);
    let (theirs, ours) = (memory(), memory());
    assert_eq!(published::write(&theirs, GuestAddress(0), &page), Ok(()));
    let refused = Err("Linux(ZeroPageSetup)".to_string());
    assert_eq!(proved::write(&ours, GuestAddress(0), &page), refused);
    assert!(content(&ours) == content(&memory()));
}

/// An ELF image of one segment, 3 bytes for address 0x1000, where it is entered.
fn elf() -> Vec<u8> {
    let mut image = vec![0; 123];
    image[..7].copy_from_slice(b"\x7fELF\x02\x01\x01");
    let fields = [
        (24, 0x1000),
        (32, 64),
        (88, 0x1000),
        (96, 3),
        (104, 3),
        (72, 120),
    ];
    for (place, number) in fields {
        image[place..place + 8].copy_from_slice(&u64::to_le_bytes(number));
    }
    (image[54], image[56], image[64]) = (56, 1, 1);
    image[120..].copy_from_slice(b"abc");
    image
}

#[test]
fn a_monitor_starts_the_same_guest_by_pvh() {
    let (theirs, ours) = (memory(), memory());
    let entered = published::start_by_pvh(&theirs, &elf());
    assert_eq!(proved::start_by_pvh(&ours, &elf()), entered);
    assert!(content(&ours) == content(&theirs));
}

/// A start block, a memory map and modules of random content, whose fixed fields are right; the counts are any.
fn start_block(random: &mut Random) -> [(u64, Vec<u8>); 3] {
    let mut part = |size: usize, fixed: std::ops::Range<usize>| {
        let mut bytes = vec![0; size];
        random.fill(&mut bytes);
        for row in bytes.chunks_mut(fixed.end) {
            row[fixed.clone()].fill(0);
        }
        bytes
    };
    let mut block = part(56, 52..56);
    block[..8].copy_from_slice(&0x1_336e_c578u64.to_le_bytes());
    let map = part(24 * 5, 20..24);
    let modules = part(32 * 3, 24..32);
    let [a, b, c] = [0, 1, 2].map(|_| random.next());
    [
        (a % 0x3_1000, block),
        (0x10_0000 + b % 0xf00, map),
        (0x10_0f00 + c % 0x80, modules),
    ]
}

#[test]
fn random_start_blocks_are_written_alike() {
    let mut random = Random(11);
    for _ in 0..300 {
        let parts = start_block(&mut random);
        // the memory map may reach the modules
        if parts[1].0 + 24 * 5 > parts[2].0 {
            continue;
        }
        let (theirs, ours) = (memory(), memory());
        let answer = published::write_start(&theirs, &parts);
        let same = proved::write_start(&ours, &parts);
        assert_eq!(same, answer, "{parts:?}");
        // a refusal of the published crate leaves what it wrote before
        match answer {
            Ok(()) => assert!(content(&ours) == content(&theirs), "{parts:?}"),
            Err(_) => assert!(content(&ours) == content(&memory()), "{parts:?}"),
        }
    }
}

/// What the published crate writes and this one refuses.
#[test]
fn overlapping_parts_are_refused_here_alone() {
    let mut parts = start_block(&mut Random(5));
    (parts[0].0, parts[1].0) = (0x10_0000, 0x10_0037);
    let (theirs, ours) = (memory(), memory());
    assert_eq!(published::write_start(&theirs, &parts), Ok(()));
    let refused = Err("Pvh(StartInfoSetup)".to_string());
    assert_eq!(proved::write_start(&ours, &parts), refused);
    assert!(content(&ours) == content(&memory()));
}
