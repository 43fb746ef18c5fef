//! Boots at the edges of the rules, each with what is answered.

use crate::boot::{boot, Booted, Given, ANSWERS};
use crate::map::whole;
use crate::note::Pvh;
use crate::page::{self, SIZE};
use crate::{start, Refusal};

/// A boot, all of whose parts may be changed.
#[derive(Clone)]
struct Case {
    guest: usize,
    map: Vec<u64>,
    list: Vec<u64>,
    image: Vec<u8>,
    text: Vec<u8>,
    init: Vec<u8>,
    ramdisk: Vec<u8>,
    rows: Vec<u64>,
    tree: Vec<u8>,
    answers: usize,
}

// indices of the list
const FLAGS: usize = 1;
const OFFSET: usize = 2;
const HIGHMEM: usize = 3;
const ENTRY: usize = 4;
const HAS_LIMIT: usize = 5;
const LIMIT: usize = 6;
const LINE: usize = 7;
const RAMDISK: usize = 8;
const DATA: usize = 9;
const RSDP: usize = 10;
const RESERVED: usize = 11;

impl Case {
    fn boot(&self) -> Result<(Booted, Vec<u8>), u8> {
        let mut guest = vec![0x55; self.guest];
        let given = Given {
            image: &self.image,
            text: &self.text,
            init: &self.init,
            ramdisk: &self.ramdisk,
            rows: &self.rows,
            tree: &self.tree,
        };
        let outcome = boot(&mut guest, &self.map, &self.list, &given, self.answers);
        assert!(outcome.is_ok() || guest == vec![0x55; self.guest]);
        outcome
            .map(|booted| (booted, guest))
            .map_err(Refusal::number)
    }

    /// The answer of the same boot with a change: 0 if it is accepted.
    fn with(&self, change: impl Fn(&mut Case)) -> u8 {
        let mut changed = self.clone();
        change(&mut changed);
        changed.boot().err().unwrap_or(0)
    }

    fn at(&self, index: usize, number: u64) -> u8 {
        self.with(|case| case.list[index] = number)
    }
}

fn put_at(image: &mut [u8], place: usize, bytes: &[u8]) {
    image[place..place + bytes.len()].copy_from_slice(bytes);
}

/// A bzImage of protocol 2.15: three bytes for 100, and 10 bytes of memory at 200.
fn bzimage_image() -> Vec<u8> {
    let mut image = vec![0; 1027];
    image[0x1f1] = 1;
    put_at(&mut image, 0x202, b"HdrS\x0f\x02");
    image[0x211] = 1;
    image[0x214] = 100;
    put_at(&mut image, 0x22c, &9999u32.to_le_bytes());
    image[0x230] = 200;
    image[0x234] = 1;
    image[0x236] = 1;
    image[0x238] = 3;
    image[0x258] = 101;
    image[0x260] = 10;
    put_at(&mut image, 1024, &[0xaa, 0xbb, 0xcc]);
    image
}

/// Kernel at 100 to 102 and 200 to 209, line at 90, ramdisk at 103, page at 210; rows for each of the first three.
fn zero_page() -> Case {
    Case {
        guest: 210 + SIZE,
        map: whole(210 + SIZE),
        list: vec![2, 0, 7, 7, 1, 0, 0, 90, 103, 210, 7, 0],
        image: bzimage_image(),
        text: b"a=b".to_vec(),
        init: vec![],
        ramdisk: vec![1, 2, 3, 4],
        rows: vec![90, 4, 1, 100, 7, 1, 200, 10, 1],
        tree: vec![],
        answers: ANSWERS,
    }
}

/// An ELF image: two bytes for 16 with 8 bytes of memory, 4 bytes of memory only at 30, and a PVH entry at 17.
fn elf_image() -> Vec<u8> {
    let mut image = vec![0; 64 + 3 * 56];
    put_at(&mut image, 0, b"\x7fELF\x02\x01");
    image[24] = 18;
    image[32] = 64;
    image[54] = 56;
    image[56] = 3;
    let headers = [[1u64, 252, 16, 2, 8], [1, 0, 30, 0, 4], [4, 232, 0, 20, 20]];
    for (index, [kind, place, address, file, size]) in headers.into_iter().enumerate() {
        let header = &mut image[64 + 56 * index..];
        header[0] = kind as u8;
        for (field, number) in [(8, place), (24, address), (32, file), (40, size)] {
            put_at(header, field, &number.to_le_bytes());
        }
    }
    image.extend(b"\x04\0\0\0\x04\0\0\0\x12\0\0\0Xen\0\x11\0\0\0");
    image.extend([0xaa, 0xbb]);
    image
}

/// Kernel at 16 to 23 and 30 to 33, line at 24, ramdisk at 34, block at 40 with its lists up to 224.
fn pvh() -> Case {
    let rows = [[10, 14, 1, 0], [24, 4, 1, 0], [30, 4, 1, 0], [34, 3, 1, 0]];
    Case {
        guest: 224,
        map: whole(224),
        list: vec![1, 0, 7, 7, 3, 0, 0, 24, 34, 40, 0x1234, 0],
        image: elf_image(),
        text: b"abc".to_vec(),
        init: vec![],
        ramdisk: vec![1, 2, 3],
        rows: rows.concat(),
        tree: vec![],
        answers: ANSWERS,
    }
}

/// A file of 66 bytes for 8, which takes 70 bytes of memory, a ramdisk at 78, and a tree at 81 with the line at 2.
fn tree() -> Case {
    let mut image: Vec<u8> = (1..=66).collect();
    put_at(&mut image, 8, &8u64.to_le_bytes());
    put_at(&mut image, 16, &70u64.to_le_bytes());
    put_at(&mut image, 24, &0u64.to_le_bytes());
    put_at(&mut image, 56, b"ARM\x64");
    Case {
        guest: 87,
        map: whole(87),
        list: vec![3, 0, 7, 7, 4, 0, 0, 2, 78, 81, 7, 0],
        image,
        text: b"abc".to_vec(),
        init: vec![],
        ramdisk: vec![1, 2, 3],
        rows: vec![],
        tree: b"xxabc\0".to_vec(),
        answers: ANSWERS,
    }
}

/// A setup header with what a page writes into it.
fn with_addresses(mut header: Vec<u8>, addresses: page::Addresses) -> Vec<u8> {
    header[0x210 - 0x1f1] = 0xff;
    put_at(&mut header, 0x218 - 0x1f1, &addresses.ramdisk.to_le_bytes());
    put_at(
        &mut header,
        0x21c - 0x1f1,
        &addresses.ramdisk_size.to_le_bytes(),
    );
    put_at(
        &mut header,
        0x228 - 0x1f1,
        &addresses.command_line.to_le_bytes(),
    );
    header
}

#[test]
fn a_page_names_what_is_there() {
    let (booted, guest) = zero_page().boot().unwrap();
    let wanted = Booted {
        load: 100,
        end: 103,
        pvh: Pvh::Ignored,
        entry: 100,
    };
    assert_eq!(booted, wanted);
    assert_eq!(guest[90..94], *b"a=b\0");
    assert_eq!(guest[100..107], [0xaa, 0xbb, 0xcc, 1, 2, 3, 4]);
    let found = page::read(&guest[210..]).unwrap();
    let addresses = found.addresses;
    assert_eq!((addresses.command_line, addresses.ramdisk), (90, 103));
    assert_eq!((addresses.ramdisk_size, found.rows.len()), (4, 3));
    let header = zero_page().image[0x1f1..][..page::HEADER_SIZE].to_vec();
    assert_eq!(found.header[..], with_addresses(header, addresses));
    let untouched = (0..90).chain(94..100).chain(107..210);
    assert!(untouched.into_iter().all(|place| guest[place] == 0x55));
}

#[test]
fn an_elf_image_is_entered_by_a_page_with_a_header_of_three_fields() {
    let mut case = pvh();
    (case.guest, case.map) = (40 + SIZE, whole(40 + SIZE));
    case.list[ENTRY] = 2;
    case.rows = vec![0, 40, 1];
    let (booted, guest) = case.boot().unwrap();
    assert_eq!((booted.load, booted.end, booted.entry), (18, 34, 18));
    let found = page::read(&guest[40..]).unwrap();
    let mut header = vec![0; page::HEADER_SIZE];
    put_at(&mut header, 0x1fe - 0x1f1, b"\x55\xaa\0\0HdrS");
    header[0x233 - 0x1f1] = 1;
    assert_eq!(found.header[..], with_addresses(header, found.addresses));
    // moved by an offset, and in 32-bit mode not at all
    case.list[FLAGS] = 1;
    case.list[OFFSET] = 0;
    assert_eq!(case.boot().unwrap().0.pvh, Pvh::Ignored);
    assert_eq!(case.at(ENTRY, 1), 92);
    assert_eq!(case.at(ENTRY, 4), 92);
}

#[test]
fn a_block_names_what_is_there() {
    let (booted, guest) = pvh().boot().unwrap();
    assert_eq!((booted.load, booted.end, booted.entry), (18, 34, 17));
    let found = start::check(&guest, &whole(224), 40).unwrap();
    assert_eq!(found.modules, [34, 3, 0, 0]);
    assert_eq!(found.ranges, pvh().rows);
    assert_eq!(found.block[2..9], [0, 1, 96, 24, 0x1234, 128, 4]);
    assert_eq!(guest[16..18], [0xaa, 0xbb]);
    assert_eq!(guest[24..28], *b"abc\0");
    assert_eq!(guest[34..37], [1, 2, 3]);
    assert_eq!(guest[18..24], [0x55; 6]);
    assert_eq!(guest[28..34], [0x55; 6]);
    let mut empty = pvh();
    empty.ramdisk.clear();
    let (_, guest) = empty.boot().unwrap();
    let found = start::check(&guest, &whole(224), 40).unwrap();
    assert_eq!(found.block[2..9], [0, 0, 96, 24, 0x1234, 96, 4]);
    assert_eq!(guest[192..224], [0x55; 32]);
}

#[test]
fn a_tree_has_the_line() {
    let (booted, guest) = tree().boot().unwrap();
    assert_eq!((booted.load, booted.end, booted.entry), (8, 78, 8));
    assert_eq!(guest[8..74], tree().image);
    assert_eq!(guest[74..78], [0x55; 4]);
    assert_eq!(guest[78..], *b"\x01\x02\x03xxabc\0");
    for offset in [1, 3, 6, 7, u64::MAX] {
        assert_eq!(tree().at(LINE, offset), 95, "{offset}");
    }
    assert_eq!(tree().with(|case| case.tree[5] = 1), 95);
    assert_eq!(tree().with(|case| case.tree.truncate(5)), 95);
    assert_eq!(tree().with(|case| case.text[1] = 0), 31);
    assert_eq!(tree().at(ENTRY, 1), 92);
    assert_eq!(tree().at(ENTRY, 3), 94);
}

#[test]
fn a_list_that_is_wrong_is_refused_before_all_else() {
    for case in [zero_page(), pvh(), tree()] {
        let mut bad = case.clone();
        bad.map = vec![0];
        assert_eq!(bad.boot().err(), Some(77));
        for (index, number) in [(0, 0), (0, 4), (ENTRY, 0), (ENTRY, 5), (RESERVED, 1)] {
            assert_eq!(bad.at(index, number), 61);
        }
        assert_eq!(bad.with(|case| case.list.truncate(11)), 61);
        assert_eq!(bad.with(|case| case.list.push(0)), 61);
        for answers in [0, 6, 8] {
            assert_eq!(bad.with(|case| case.answers = answers), 61);
        }
    }
    let above = 1 << 32;
    let told = |case: Case| [LINE, RAMDISK, DATA, RSDP].map(|index| case.at(index, above));
    assert_eq!(told(zero_page()), [61, 61, 61, 0]);
    assert_eq!(told(pvh()), [32, 97, 61, 0]);
    assert_eq!(told(tree()), [95, 97, 98, 0]);
}

#[test]
fn the_calls_of_the_pieces_refuse_what_they_do() {
    let case = zero_page();
    assert_eq!(case.with(|case| case.image.truncate(1023)), 22);
    let highmem = |case: &mut Case| {
        case.list[FLAGS] = 2;
        case.list[HIGHMEM] = 101;
    };
    assert_eq!(case.with(highmem), 23);
    assert_eq!(case.with(|case| case.text[0] = 0), 31);
    let init_only = |case: &mut Case| {
        case.text.clear();
        case.init = b"x".to_vec();
    };
    assert_eq!(case.with(init_only), 31);
    assert_eq!(case.at(LINE, 210 + SIZE as u64 - 3), 32);
    assert_eq!(case.with(|case| case.rows.truncate(8)), 61);
    assert_eq!(case.with(|case| case.rows = vec![0; 3 * 129]), 74);
    assert_eq!(case.with(|case| case.rows[1] = 11), 75);
    assert_eq!(pvh().with(|case| case.rows[3] = 1), 61);
    assert_eq!(pvh().with(|case| case.map = vec![0, 223]), 76);
}

#[test]
fn a_bzimage_is_entered_in_64_bit_mode_if_it_says_so() {
    let mut case = zero_page();
    case.list[ENTRY] = 2;
    assert_eq!(case.boot().unwrap().0.entry, 100 + 0x200);
    assert_eq!(case.with(|case| case.image[0x236] = 0xfe), 93);
    assert_eq!(case.with(|case| case.image[0x206] = 0x0b), 93);
    assert_eq!(case.at(ENTRY, 3), 94);
    // a kernel of no bytes is accepted at any address, but not entered in 32-bit mode there
    let mut empty = zero_page();
    empty.image.truncate(1024);
    empty.image[0x234] = 0;
    put_at(&mut empty.image, 0x258, &[200]);
    empty.list[FLAGS] = 1;
    assert_eq!(empty.at(OFFSET, u32::MAX.into()), 0);
    assert_eq!(empty.at(OFFSET, 1 << 32), 92);
}

#[test]
fn a_ramdisk_ends_where_the_kernel_can_reach_it() {
    let case = zero_page();
    assert_eq!(
        case.with(|case| put_at(&mut case.image, 0x22c, &[106, 0])),
        0
    );
    let low = |case: &mut Case| put_at(&mut case.image, 0x22c, &[105, 0]);
    assert_eq!(case.with(low), 99);
    let empty = |case: &mut Case| {
        low(case);
        case.ramdisk.clear();
        case.list[RAMDISK] = u32::MAX.into();
    };
    assert_eq!(case.with(empty), 0);
    let old = |case: &mut Case| {
        case.image[0x206] = 2;
        case.list[RAMDISK] = 0x3800_0000 - 4;
    };
    assert_eq!(case.with(old), 97);
    let old_and_high = |case: &mut Case| {
        old(case);
        case.list[RAMDISK] += 1;
    };
    assert_eq!(case.with(old_and_high), 99);
    assert_eq!(tree().at(RAMDISK, u64::MAX), 97);
    let mut elf = pvh();
    elf.list[ENTRY] = 2;
    elf.rows.clear();
    assert_eq!(elf.at(RAMDISK, 0xffff_fffd), 97);
    assert_eq!(elf.at(RAMDISK, 0xffff_fffe), 99);
}

#[test]
fn a_line_is_no_longer_than_the_kernel_takes() {
    let longer = |case: &mut Case| case.image[0x238] = 2;
    assert_eq!(zero_page().with(longer), 91);
    // of a bzImage the caller's limit is not looked at, and before 2.06 not the field
    let limited = |case: &mut Case| {
        (case.list[HAS_LIMIT], case.list[LIMIT]) = (1, 2);
    };
    assert_eq!(zero_page().with(limited), 0);
    let old = |case: &mut Case| {
        longer(case);
        case.image[0x206] = 5;
    };
    assert_eq!(zero_page().with(old), 0);
    for case in [pvh(), tree()] {
        assert_eq!(case.with(limited), 91);
        assert_eq!(case.with(|case| case.list[LIMIT] = 2), 0);
    }
    let long = |length: usize| {
        tree().with(|case| {
            case.text = vec![b'a'; length];
            case.tree = [&b"xx"[..], &case.text, b"\0"].concat();
            (case.guest, case.map) = (4000, whole(4000));
        })
    };
    assert_eq!((long(2047), long(2048)), (0, 91));
}

#[test]
fn every_piece_needs_room() {
    // the kernel's memory of no bytes, at 2^64 and of more than there is
    let taken = |size: u32, preferred: u64| {
        zero_page().with(|case| {
            put_at(&mut case.image, 0x260, &size.to_le_bytes());
            put_at(&mut case.image, 0x258, &preferred.to_le_bytes());
            case.rows = vec![0, 5000, 1];
        })
    };
    assert_eq!((taken(0, u64::MAX), taken(1, u64::MAX)), (0, 96));
    assert_eq!(taken(4107, 101), 96);
    assert_eq!(taken(4106, 101), 102);
    let mut hole = zero_page();
    hole.map = vec![0, 205, 206, 4100];
    assert_eq!(hole.boot().err(), Some(96));
    hole.map = vec![0, 105, 106, 4200];
    assert_eq!(hole.boot().err(), Some(97));
    hole.map = vec![0, 300, 301, 4005];
    assert_eq!(hole.boot().err(), Some(98));
    assert_eq!(tree().with(|case| case.map = vec![0, 86]), 98);
    assert_eq!(tree().at(RAMDISK, 85), 97);
    // memory without file bytes, too
    assert_eq!(pvh().with(|case| case.map = vec![0, 29, 31, 193]), 96);
}

#[test]
fn no_two_pieces_share_a_byte() {
    let case = zero_page();
    for (index, number, told) in [
        (LINE, 97, 100),
        (LINE, 96, 107),
        (LINE, 209, 100),
        (LINE, 197, 100),
        (RAMDISK, 102, 101),
        (RAMDISK, 206, 101),
        (DATA, 209, 102),
        (LINE, 106, 103),
        (RAMDISK, 87, 103),
        (RAMDISK, 86, 108),
        (LINE, 210, 104),
        (RAMDISK, 300, 105),
    ] {
        assert_eq!(case.at(index, number), told, "{index} {number}");
    }
    for (index, number, told) in [(RAMDISK, 77, 101), (DATA, 80, 105), (LINE, 0, 95)] {
        assert_eq!(tree().at(index, number), told, "{index} {number}");
    }
    assert_eq!(tree().with(|case| case.image[16] = 71), 101);
    // the file of an arm64 Image may be longer than the memory that it says
    let short = |case: &mut Case| {
        case.image[16] = 1;
        case.list[RAMDISK] = 73;
    };
    assert_eq!(tree().with(short), 101);
}

#[test]
fn what_the_kernel_uses_is_in_rows_of_type_1() {
    let case = zero_page();
    for (index, number, told) in [
        (2, 2, 107),
        (5, 2, 106),
        (8, 0, 106),
        (1, 3, 107),
        (0, 89, 107),
        (3, 101, 106),
        (4, 6, 108),
        (7, 9, 106),
    ] {
        assert_eq!(case.with(|case| case.rows[index] = number), told);
    }
    // two rows that touch are not one
    let two = |case: &mut Case| case.rows = vec![0, 104, 1, 104, 200, 1];
    assert_eq!(case.with(two), 108);
    let empty = |case: &mut Case| {
        two(case);
        case.ramdisk.clear();
    };
    assert_eq!(case.with(empty), 0);
    assert_eq!(pvh().with(|case| case.rows[9] = 3), 106);
    assert_eq!(pvh().with(|case| case.rows[0] = 17), 106);
}
