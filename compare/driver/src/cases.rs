//! Cases at the edges of the rules, each with what is to be answered: more of them than the worked examples, and as easy to read.

use crate::examples::{put, pvh_note, small_arm64, small_bzimage, small_elf};
use crate::map_cases;
use crate::question::{
    Call, Load, PageBuild, PageRead, Question, StartCheck, StartWrite, Walk, Words,
};
use crate::step_cases;

/// A question, and the answer to it in the short form of the test below.
pub type Case = (Question, &'static str);

/// Every case.
pub fn all() -> Vec<Case> {
    [
        elf(),
        refused_later(),
        memory_alone(),
        overfull(),
        several_notes(),
        notes(),
        bzimage(),
        lines(),
        long_lines(),
        lists_and_devices(),
        equal(),
        map_cases::all(),
        words(),
        pages(),
        step_cases::all(),
        arm64(),
        starts(),
    ]
    .concat()
}

/// A guest in which each byte is 7 before the load.
fn into_sevens(mut load: Load, length: usize) -> Load {
    load.guest = vec![7; length];
    load
}

fn elf() -> Vec<Case> {
    let case = |change: &dyn Fn(&mut Load), told| {
        let mut load = into_sevens(small_elf(), 20);
        change(&mut load);
        (Question::Elf(load), told)
    };
    let edited = |place: usize, byte: u8, told| case(&|load| load.image[place] = byte, told);
    vec![
        case(&|_| {}, "elf ok 16 24 pvh ignored, 16 to 18 changed"),
        // the last offset that has room, and the one after it
        case(
            &|load| load.options.offset = Some(1),
            "elf ok 17 25 pvh ignored, 17 to 19 changed",
        ),
        case(
            &|load| load.options.offset = Some(2),
            "elf refused 10, nothing changed",
        ),
        case(
            &|load| load.options.highmem = Some(17),
            "elf refused 5, nothing changed",
        ),
        case(
            &|load| load.options.offset = Some(u64::MAX),
            "elf refused 6, nothing changed",
        ),
        // no magic number; two program headers, of which one is cut off
        edited(1, 0, "elf refused 1, nothing changed"),
        edited(56, 2, "elf refused 8, nothing changed"),
        // no file bytes; one more than the image has; a program header of another type
        edited(96, 0, "elf ok 16 24 pvh ignored, nothing changed"),
        edited(96, 4, "elf refused 10, nothing changed"),
        edited(64, 2, "elf ok 16 0 pvh ignored, nothing changed"),
    ]
}

/// A program header: its type, where its bytes stand behind the program headers, address, file size and memory size.
type Header = (u32, u64, u64, u64, u64);

const LOADABLE: u32 = 1;
const NOTES: u32 = 4;

/// The segment of the small image.
const SMALL: Header = (LOADABLE, 0, 16, 3, 8);

/// The small image with these program headers, and bytes behind its own three; 32 guest bytes.
fn with_headers(headers: &[Header], offset: Option<u64>, more: &[u8]) -> Load {
    let mut load = into_sevens(small_elf(), 32);
    load.options.offset = offset;
    let text = load.image.split_off(120);
    load.image.truncate(64);
    load.image[56] = headers.len() as u8;
    let body = 64 + 56 * headers.len() as u64;
    for (kind, place, address, file_size, memory_size) in headers {
        let mut entry = [0; 56];
        put(&mut entry, 0, &kind.to_le_bytes());
        put(&mut entry, 8, &(body + place).to_le_bytes());
        put(&mut entry, 24, &address.to_le_bytes());
        put(&mut entry, 32, &file_size.to_le_bytes());
        put(&mut entry, 40, &memory_size.to_le_bytes());
        load.image.extend(entry);
    }
    load.image.extend(text);
    load.image.extend(more);
    load
}

/// A segment that is good, and then a program header that is refused: nothing is written.
fn refused_later() -> Vec<Case> {
    let case = |second: Header, offset, more: &[u8], told| {
        let load = with_headers(&[SMALL, second, SMALL], offset, more);
        (Question::Elf(load), told)
    };
    let skipped = [&[0xfd, 0xff, 0xff, 0xff][..], &[0; 8]].concat();
    vec![
        case(
            (LOADABLE, 1, 30, 2, 2),
            None,
            &[],
            "elf ok 16 32 pvh ignored, 16 to 31 changed",
        ),
        case(
            (LOADABLE, 1, u64::MAX, 2, 2),
            Some(1),
            &[],
            "elf refused 9, nothing changed",
        ),
        case(
            (LOADABLE, 2, 24, 2, 2),
            None,
            &[],
            "elf refused 10, nothing changed",
        ),
        case(
            (LOADABLE, 1, 31, 2, 2),
            None,
            &[],
            "elf refused 10, nothing changed",
        ),
        case(
            (LOADABLE, 1, 24, 2, u64::MAX - 23),
            None,
            &[],
            "elf refused 13, nothing changed",
        ),
        case(
            (NOTES, 3, 0, 1, 0),
            None,
            &pvh_note()[..19],
            "elf refused 11, nothing changed",
        ),
        case(
            (NOTES, 3, 0, 1, 0),
            None,
            b"\x04\0\0\0\x03\0\0\0\x12\0\0\0Xen\0",
            "elf refused 12, nothing changed",
        ),
        case(
            (NOTES, 3, 0, 1, 0),
            None,
            &skipped,
            "elf refused 6, nothing changed",
        ),
        // with an offset no note is read
        case(
            (NOTES, 3, 0, 1, 0),
            Some(0),
            &skipped,
            "elf ok 16 24 pvh ignored, 16 to 18 changed",
        ),
    ]
}

/// Segments without file bytes: with memory they count for the end, and without they are passed over.
fn memory_alone() -> Vec<Case> {
    let case = |headers: &[Header], offset, told| {
        let load = with_headers(headers, offset, &[]);
        (Question::Elf(load), told)
    };
    // its place in the image, past it, does not matter
    let memory = |address, memory_size| (LOADABLE, 999, address, 0, memory_size);
    let last = u64::MAX;
    vec![
        case(
            &[SMALL, memory(40, 60)],
            None,
            "elf ok 16 100 pvh ignored, 16 to 18 changed",
        ),
        case(
            &[memory(40, 60), SMALL],
            Some(4),
            "elf ok 20 104 pvh ignored, 20 to 22 changed",
        ),
        case(
            &[SMALL, memory(3, 4)],
            None,
            "elf ok 16 24 pvh ignored, 16 to 18 changed",
        ),
        case(
            &[SMALL, memory(last - 1, 1)],
            None,
            "elf ok 16 18446744073709551615 pvh ignored, 16 to 18 changed",
        ),
        case(
            &[SMALL, memory(last - 1, 2)],
            None,
            "elf refused 13, nothing changed",
        ),
        case(
            &[SMALL, memory(last, last)],
            Some(0),
            "elf refused 13, nothing changed",
        ),
        case(
            &[SMALL, memory(last, last)],
            Some(1),
            "elf refused 9, nothing changed",
        ),
        case(
            &[SMALL, memory(last, 0)],
            Some(1),
            "elf ok 17 25 pvh ignored, 17 to 19 changed",
        ),
        case(
            &[memory(last, 0)],
            None,
            "elf ok 16 0 pvh ignored, nothing changed",
        ),
    ]
}

/// A loadable segment with more bytes in the file than in memory is refused, before its address and its bytes are asked.
fn overfull() -> Vec<Case> {
    let case = |headers: &[Header], offset, told| {
        let load = with_headers(headers, offset, &[]);
        (Question::Elf(load), told)
    };
    let sizes = |file_size, memory_size| (LOADABLE, 0, 24, file_size, memory_size);
    let last = u64::MAX;
    vec![
        case(
            &[SMALL, sizes(3, 3)],
            None,
            "elf ok 16 27 pvh ignored, 16 to 26 changed",
        ),
        case(
            &[SMALL, sizes(3, 2)],
            None,
            "elf refused 14, nothing changed",
        ),
        case(&[sizes(1, 0)], Some(4), "elf refused 14, nothing changed"),
        // its address wraps, its bytes pass the image and guest memory
        case(
            &[SMALL, (LOADABLE, 0, last, 1, 0)],
            Some(1),
            "elf refused 14, nothing changed",
        ),
        case(
            &[SMALL, (LOADABLE, 9, 99, last, last - 1)],
            None,
            "elf refused 14, nothing changed",
        ),
        // an earlier header is asked first
        case(
            &[(LOADABLE, 0, 99, 3, 3), sizes(3, 2)],
            None,
            "elf refused 10, nothing changed",
        ),
        // not asked of other types
        case(
            &[(6, 0, 24, 3, 2)],
            None,
            "elf ok 16 0 pvh ignored, nothing changed",
        ),
        case(
            &[(NOTES, 3, 0, 20, 0)],
            None,
            "elf refused 11, nothing changed",
        ),
    ]
}

/// Several note headers: the first PVH note found holds, and later ones may still be refused.
fn several_notes() -> Vec<Case> {
    // PVH notes of 1 MiB and, with a descriptor of 7 bytes, 2 MiB; one of another name; one with a short descriptor; one cut off
    let bytes = [
        &pvh_note()[..],
        b"\x04\0\0\0\x07\0\0\0\x12\0\0\0Xen\0\x00\x00\x20\x00\x01\x02\x03\0",
        b"\x04\0\0\0\x04\0\0\0\x12\0\0\0GNU\0\x00\x00\x30\x00",
        b"\x04\0\0\0\x03\0\0\0\x12\0\0\0Xen\0",
        b"\x04\0\0\0",
    ]
    .concat();
    let first = (NOTES, 3, 0, 20, 0);
    let second = (NOTES, 23, 0, 24, 0);
    let other = (NOTES, 47, 0, 20, 0);
    let short = (NOTES, 67, 0, 16, 0);
    let cut = (NOTES, 83, 0, 4, 0);
    let none = (NOTES, 0, 0, 0, 0);
    let case = |headers: &[Header], offset, told| {
        let load = with_headers(headers, offset, &bytes);
        (Question::Elf(load), told)
    };
    vec![
        case(
            &[first, other],
            None,
            "elf ok 16 0 pvh at 1048576 note 195 4, nothing changed",
        ),
        case(
            &[first, none],
            None,
            "elf ok 16 0 pvh at 1048576 note 195 4, nothing changed",
        ),
        case(
            &[first, second],
            None,
            "elf ok 16 0 pvh at 1048576 note 195 4, nothing changed",
        ),
        case(
            &[second, first],
            None,
            "elf ok 16 0 pvh at 2097152 note 215 7, nothing changed",
        ),
        case(
            &[other, SMALL, second, none],
            None,
            "elf ok 16 24 pvh at 2097152 note 327 7, 16 to 18 changed",
        ),
        case(
            &[other, none],
            None,
            "elf ok 16 0 pvh none, nothing changed",
        ),
        case(&[first, short], None, "elf refused 12, nothing changed"),
        case(
            &[first, SMALL, cut],
            None,
            "elf refused 11, nothing changed",
        ),
        case(
            &[first, cut],
            Some(0),
            "elf ok 16 0 pvh ignored, nothing changed",
        ),
    ]
}

fn notes() -> Vec<Case> {
    let walk = |image: &[u8], size, told| {
        let (place, image) = (0, image.to_vec());
        (Question::Note(Walk { place, size, image }), told)
    };
    vec![
        walk(&pvh_note(), 0, "note ok pvh none headers 0"),
        walk(&small_elf().image, 100, "note ok pvh none headers 1"),
    ]
}

/// The small bzImage at 16, with a last header byte and one after it that can be told apart. Its setup has one sector beside the first.
fn bzimage_at_16() -> Load {
    let mut load = into_sevens(small_bzimage(), 32);
    load.image[0x214] = 16;
    load.image[0x211] = 0x81;
    load.image[0x26b] = 0x77;
    load.image[0x26c] = 0x78;
    load
}

/// The same with a setup of 0 sectors, which means 4, of a length; the kernel's three bytes stand at 2560.
fn four_sectors(length: usize) -> Load {
    let mut load = bzimage_at_16();
    let kernel = load.image.split_off(1024);
    load.image[0x1f1] = 0;
    load.image.resize(2560, 0);
    load.image.extend(kernel);
    load.image.truncate(length);
    load
}

fn bzimage() -> Vec<Case> {
    let given = |offset: Option<u64>, highmem: Option<u64>, told| {
        let mut load = bzimage_at_16();
        (load.options.offset, load.options.highmem) = (offset, highmem);
        (Question::Bzimage(load), told)
    };
    let edited = |edits: &[(usize, u8)], told| {
        let mut load = bzimage_at_16();
        for (place, byte) in edits {
            load.image[*place] = *byte;
        }
        (Question::Bzimage(load), told)
    };
    let cut = |length: usize, told| {
        let mut load = bzimage_at_16();
        load.image.truncate(length);
        (Question::Bzimage(load), told)
    };
    let mut without_kernel = four_sectors(2560);
    without_kernel.options.offset = Some(999);
    vec![
        (
            Question::Bzimage(four_sectors(2563)),
            "bzimage ok 16 19 header 00..48..10000000..77, 16 to 18 changed",
        ),
        (
            Question::Bzimage(without_kernel),
            "bzimage ok 999 999 header 00..48..e7030000..77, nothing changed",
        ),
        (
            Question::Bzimage(four_sectors(2559)),
            "bzimage refused 22, nothing changed",
        ),
        given(
            Some(17),
            None,
            "bzimage ok 17 20 header 01..48..11000000..77, 17 to 19 changed",
        ),
        // the last offset that has room, the one after it, and the greatest of all
        given(
            Some(29),
            None,
            "bzimage ok 29 32 header 01..48..1d000000..77, 29 to 31 changed",
        ),
        given(Some(30), None, "bzimage refused 24, nothing changed"),
        given(Some(u64::MAX), None, "bzimage refused 24, nothing changed"),
        // high memory is compared with code32_start, whatever the offset is
        given(
            Some(4),
            Some(16),
            "bzimage ok 4 7 header 01..48..04000000..77, 4 to 6 changed",
        ),
        given(Some(17), Some(17), "bzimage refused 23, nothing changed"),
        // no bytes; up to the flags; up to code32_start
        cut(0, "bzimage refused 21, nothing changed"),
        cut(0x211, "bzimage refused 21, nothing changed"),
        cut(0x214, "bzimage refused 22, nothing changed"),
        // version 1.15, version 2.00, and not loaded high
        edited(&[(0x207, 1)], "bzimage refused 21, nothing changed"),
        edited(
            &[(0x206, 0), (0x207, 2)],
            "bzimage ok 16 19 header 01..48..10000000..77, 16 to 18 changed",
        ),
        edited(&[(0x211, 0x80)], "bzimage refused 21, nothing changed"),
    ]
}

fn new(capacity: u32) -> Call {
    Call::New { capacity }
}

fn slug(text: &str) -> Call {
    Call::InsertStr(text.into())
}

fn init(text: &str) -> Call {
    Call::InsertInitArgs(text.into())
}

fn insert(key: &str, value: &str) -> Call {
    let (key, value) = (key.into(), value.into());
    Call::Insert { key, value }
}

fn from(text: &str, capacity: u32) -> Call {
    let text = text.into();
    Call::TryFrom { capacity, text }
}

/// Calls, and then the line written.
fn line(calls: &[Call], told: &'static str) -> Case {
    let written = Call::AsCstring { room: 100 };
    (Question::Line([calls, &[written]].concat()), told)
}

fn lines() -> Vec<Case> {
    let inserted = |key, value, told| line(&[new(100), insert(key, value)], told);
    vec![
        line(&[new(0)], "line 41 []"),
        line(&[new(1)], "line ok []"),
        line(&[new(4097)], "line ok []"),
        line(&[new(16384)], "line ok []"),
        line(&[new(16385)], "line 41 []"),
        // which test of a key comes first, and which of a value
        inserted("a\x01 =", "", "line ok 42 []"),
        inserted("a =", "", "line ok 43 []"),
        inserted("a=b", "", "line ok 44 []"),
        inserted("a", "b\x7f", "line ok 42 []"),
        inserted("a", "b\"c", "line ok 49 []"),
        inserted("a", "b c", "line ok 48 []"),
        inserted("a", "\"b c\"", "line ok ok [a=\"b c\"]"),
        inserted("a", "\"", "line ok ok [a=\"]"),
        line(
            &[new(100), slug("x"), insert("", "")],
            "line ok ok ok [x =]",
        ),
        line(
            &[new(100), slug("\t\n\x0b\x0c\r a b \r\n")],
            "line ok ok [a b]",
        ),
        line(&[new(100), slug("\x1fa")], "line ok 42 []"),
        line(
            &[new(100), slug("foo"), init("bar"), init("baz")],
            "line ok ok ok ok [foo -- bar baz]",
        ),
        line(&[new(100), init("x")], "line ok ok 50"),
        line(&[from(" a --  ", 3)], "line ok [a]"),
        line(&[from(" ", 1)], "line ok []"),
        line(&[from(" -- z", 100)], "line ok 50"),
        line(&[from("a\0b", 100)], "line ok 51"),
        line(&[from("", 0)], "line 41 []"),
        // a lent output without room for the zero, which is left as it was
        (
            Question::Line(vec![new(100), slug("foo"), Call::AsCstring { room: 3 }]),
            "line ok ok 62",
        ),
    ]
}

/// Lines near the greatest capacity. Written into room for 100 bytes they are refused; that they are whole shows in a comparison.
fn long_lines() -> Vec<Case> {
    let word = |length| "x".repeat(length);
    vec![
        line(&[from(&word(16383), 16384), slug("")], "line ok 47 62"),
        line(&[from(&word(16384), 16384)], "line 41 []"),
        line(
            &[
                new(9001),
                slug(&word(9000)),
                Call::Keep,
                from(&word(9000), 16384),
                Call::IsEqual,
            ],
            "line ok ok ok ok equal 62",
        ),
    ]
}

fn lists_and_devices() -> Vec<Case> {
    let list = |capacity, values: &str, ends: &[u32], told| {
        let (key, values, ends) = (b"foo".to_vec(), values.into(), ends.to_vec());
        let list = Call::InsertMultiple { key, ends, values };
        line(&[new(capacity), list], told)
    };
    let device = |capacity, size, address, irq, id, told| {
        let device = Call::AddDevice {
            size,
            address,
            irq,
            id,
        };
        line(&[new(capacity), device], told)
    };
    vec![
        list(100, "barbaz", &[3, 6], "line ok ok [foo=bar,baz]"),
        list(100, "barbaz", &[6, 3], "line ok 61 []"),
        list(100, "barbaz", &[], "line ok 45 []"),
        list(100, "a\"b\"", &[2, 4], "line ok ok [foo=a\",b\"]"),
        list(11, "barbaz", &[3, 6], "line ok 47 []"),
        list(12, "barbaz", &[3, 6], "line ok ok [foo=bar,baz]"),
        device(100, 0, 4096, 5, None, "line ok 46 []"),
        device(
            100,
            3 << 30,
            0,
            0,
            None,
            "line ok ok [virtio_mmio.device=3G@0x0:0]",
        ),
        device(
            100,
            5 << 20,
            0xfedc_ba98,
            10,
            None,
            "line ok ok [virtio_mmio.device=5M@0xfedcba98:10]",
        ),
        device(
            100,
            1025,
            1,
            1,
            Some(0),
            "line ok ok [virtio_mmio.device=1025@0x1:1:0]",
        ),
        // the longest text: 80 bytes, and the zero
        device(
            81,
            u64::MAX,
            u64::MAX,
            u32::MAX,
            Some(u32::MAX),
            "line ok ok [virtio_mmio.device=18446744073709551615@0xffffffffffffffff:4294967295:4294967295]",
        ),
    ]
}

/// Two lines, and whether they are equal.
fn equal() -> Vec<Case> {
    let both = |one: &[Call], other: &[Call], told| {
        let calls = [one, &[Call::Keep], other, &[Call::IsEqual]].concat();
        (Question::Line(calls), told)
    };
    let text = |text| [from(text, 50)];
    let foo_bar = [new(100), slug("foo"), init("bar")];
    vec![
        both(&foo_bar, &text("foo -- bar"), "line ok ok ok ok ok equal"),
        both(
            &[new(100), slug("foo -- bar")],
            &text("foo -- bar"),
            "line ok ok ok ok equal",
        ),
        both(&foo_bar, &text("foo -- baz"), "line ok ok ok ok ok unequal"),
        both(&text(" -- x"), &text(" -- y"), "line ok ok ok equal"),
        both(&text("a\0"), &text("\0b"), "line ok ok ok equal"),
        both(&text("a\0"), &text(" -- y"), "line ok ok ok unequal"),
        both(&[new(1)], &[new(2)], "line ok ok ok equal"),
    ]
}

/// Lines read back into lists of so many places.
fn words() -> Vec<Case> {
    let read = |text: &str, places, told| {
        let text = text.into();
        (Question::Words(Words { places, text }), told)
    };
    vec![
        read("", [0; 3], "words ok 0"),
        read("   ", [1; 3], "words ok 0"),
        read("quiet  root=/dev/vda ", [3; 3], "words ok 2 0 5 5 7 20 11"),
        read("a=b=c =", [2; 3], "words ok 2 0 5 1 6 7 6"),
        read("k=\"v w\" x", [2; 3], "words ok 2 0 7 1 8 9 9"),
        read("\"a=b\"=c", [1; 3], "words ok 1 0 7 5"),
        read("\"\"", [1; 3], "words ok 1 0 2 2"),
        read("a\tb\0c", [1; 3], "words ok 1 0 5 5"),
        // an unclosed quote is asked before the places
        read("a \"b c", [0; 3], "words refused 71 2"),
        read("\"a\" \"", [9; 3], "words refused 71 4"),
        // each list must have a place for each word
        read("a b", [1, 2, 2], "words refused 72"),
        read("a b", [2, 1, 2], "words refused 72"),
        read("a b", [2, 2, 1], "words refused 72"),
        read("a b", [2, 3, 4], "words ok 2 0 1 1 2 3 3"),
    ]
}

fn pages() -> Vec<Case> {
    let built = |size: usize, numbers: &[u64], told| {
        let build = PageBuild {
            command_line: 0x2_0000,
            ramdisk: 0x100_0000,
            ramdisk_size: 3,
            header: vec![0; 123],
            numbers: numbers.to_vec(),
            page: vec![0; size],
        };
        (Question::PageBuild(build), told)
    };
    // one byte of a page that else is zero
    let read = |length, place, byte, told| {
        let read = PageRead {
            length,
            fill: 0,
            place,
            bytes: vec![byte],
        };
        (Question::PageRead(read), told)
    };
    let many: Vec<u64> = (0..387).map(|k| if k % 3 == 0 { k } else { 1 }).collect();
    let top = u64::MAX;
    vec![
        // without rows the loader type, at 210 hex, is the first byte set, and the command line's address the last
        built(4096, &[], "page ok, 528 to 554 changed"),
        built(4096, &[0, 1, 1], "page ok, 488 to 736 changed"),
        built(4096, &[top - 1, 1, 0], "page ok, 488 to 728 changed"),
        built(4095, &[0], "page refused 73, nothing changed"),
        built(4096, &[0], "page refused 61, nothing changed"),
        built(4096, &[0, 0, 1 << 32], "page refused 61, nothing changed"),
        built(4096, &many, "page refused 74, nothing changed"),
        built(4096, &many[3..], "page ok, 488 to 3276 changed"),
        built(4096, &[0, 0, 0], "page refused 75, nothing changed"),
        built(4096, &[top, 1, 0], "page refused 75, nothing changed"),
        built(
            4096,
            &[0, 2, 1, 9, 1, 1, 1, 1, 1],
            "page refused 75, nothing changed",
        ),
        read(
            4096,
            0x228,
            5,
            "page ok 0 5 0 0 header 00..00..00000000..00 rows",
        ),
        read(
            4096,
            0x1f1,
            5,
            "page ok 0 0 0 0 header 05..00..00000000..00 rows",
        ),
        read(
            4096,
            0x1e8,
            1,
            "page ok 1 0 0 0 header 00..00..00000000..00 rows 0 0 0",
        ),
        read(4096, 0x1e8, 129, "page refused 74"),
        read(4097, 0x1e8, 129, "page refused 73"),
    ]
}

/// The small image with its base and some bytes of its header at other values.
fn arm64() -> Vec<Case> {
    let with = |base: u64, edits: &[(usize, &[u8])], told| {
        let mut load = into_sevens(small_arm64(), 80);
        load.options.offset = Some(base);
        for (place, bytes) in edits {
            put(&mut load.image, *place, bytes);
        }
        (Question::Arm64(load), told)
    };
    let cut = |length: usize, told| {
        let mut load = into_sevens(small_arm64(), 80);
        load.image.truncate(length);
        (Question::Arm64(load), told)
    };
    let (mib2, last) = (2u64 << 20, (2u64 << 20).wrapping_neg());
    let top = [0xff; 8];
    vec![
        with(0, &[], "arm64 ok 8 108, 8 to 74 changed"),
        // a header alone, and one byte less
        cut(64, "arm64 ok 8 108, 8 to 71 changed"),
        cut(63, "arm64 refused 81, nothing changed"),
        cut(0, "arm64 refused 81, nothing changed"),
        with(0, &[(56, b"a")], "arm64 refused 82, nothing changed"),
        with(0, &[(24, &[11])], "arm64 refused 83, nothing changed"),
        with(0, &[(16, &[0])], "arm64 refused 84, nothing changed"),
        // the base alone is a multiple of 2 MiB
        with(1, &[], "arm64 refused 85, nothing changed"),
        with(mib2 - 8, &[], "arm64 refused 85, nothing changed"),
        with(mib2, &[], "arm64 refused 87, nothing changed"),
        // base and text offset at 2^64, and one below
        with(
            last,
            &[(8, &mib2.to_le_bytes())],
            "arm64 refused 86, nothing changed",
        ),
        with(
            last,
            &[(8, &(mib2 - 1).to_le_bytes())],
            "arm64 refused 87, nothing changed",
        ),
        // the last address that has room, and the one after it
        with(0, &[(8, &[13])], "arm64 ok 13 113, 13 to 79 changed"),
        with(0, &[(8, &[14])], "arm64 refused 87, nothing changed"),
        // an image size past guest memory, at the end of 2^64, and one more
        with(
            0,
            &[(8, &[13]), (16, &(u64::MAX - 13).to_le_bytes())],
            "arm64 ok 13 18446744073709551615, 13 to 79 changed",
        ),
        with(
            0,
            &[(8, &[13]), (16, &(u64::MAX - 12).to_le_bytes())],
            "arm64 refused 88, nothing changed",
        ),
        // room is asked before the end
        with(
            0,
            &[(8, &[14]), (16, &top)],
            "arm64 refused 87, nothing changed",
        ),
    ]
}

fn starts() -> Vec<Case> {
    const MAGIC: u64 = 0x336e_c578;
    const ONE: [u64; 4] = [1, 2, 3, 0];
    let written =
        |[block, modules_at, ranges_at]: [u64; 3], modules: &[u64], ranges: &[u64], told| {
            let write = StartWrite {
                map: vec![0, 120],
                block,
                modules_at,
                ranges_at,
                flags: 1,
                command_line: 2,
                rsdp: 3,
                modules: modules.to_vec(),
                ranges: ranges.to_vec(),
                guest: vec![0; 120],
            };
            (Question::StartWrite(write), told)
        };
    // the block at 8, a module behind it and a range behind that, with one number of the block another
    let checked = |block, field: usize, number: u64, told| {
        let numbers = [MAGIC, 1, 0, 1, 64, 0, 0, 96, 1, 0];
        let widths = [4, 4, 4, 4, 8, 8, 8, 8, 4, 4];
        let mut guest = vec![0; 120];
        let mut place = 8;
        for (index, width) in widths.into_iter().enumerate() {
            let number = if index == field {
                number
            } else {
                numbers[index]
            };
            put(&mut guest, place, &number.to_le_bytes()[..width]);
            place += width;
        }
        let check = StartCheck {
            map: vec![0, 120],
            block,
            guest,
        };
        (Question::StartCheck(check), told)
    };
    let refused = "start refused 76, nothing changed";
    let spoilt = "start refused 61, nothing changed";
    let outside = "start refused 76";
    let far = u64::MAX;
    vec![
        written([0, 56, 88], &ONE, &ONE, "start ok, 0 to 104 changed"),
        written([64, 0, 32], &ONE, &ONE, "start ok, 0 to 112 changed"),
        // no rows lie anywhere and overlap nothing
        written([64, far, 70], &[], &[], "start ok, 64 to 104 changed"),
        // outside, by one, of each part
        written([65, 0, 32], &ONE, &ONE, refused),
        written([0, 89, 56], &ONE, &ONE, refused),
        written([0, 56, 97], &ONE, &ONE, refused),
        written([far, 0, 32], &ONE, &ONE, refused),
        // each two overlap by one
        written([0, 55, 88], &ONE, &ONE, refused),
        written([0, 88, 55], &ONE, &ONE, refused),
        written([0, 56, 87], &ONE, &ONE, refused),
        written([24, 88, 1], &ONE, &ONE, refused),
        written([0, 56, 88], &ONE[..3], &ONE, spoilt),
        written([0, 56, 88], &ONE, &[1, 2, 1 << 32, 0], spoilt),
        written([0, 56, 88], &ONE, &[1, 2, 3, 1], spoilt),
        written([0, 56, 88], &[1, 2, 3, 1], &ONE, spoilt),
        checked(
            8,
            2,
            5,
            "start accepted 862897528 1 5 1 64 0 0 96 1 0 modules 0 0 0 0 ranges 0 0 0 0",
        ),
        // overlapping parts are accepted of what others wrote
        checked(
            8,
            7,
            64,
            "start accepted 862897528 1 0 1 64 0 0 64 1 0 modules 0 0 0 0 ranges 0 0 0 0",
        ),
        checked(
            8,
            3,
            0,
            "start accepted 862897528 1 0 0 64 0 0 96 1 0 modules ranges 0 0 0 0",
        ),
        checked(7, 2, 0, "start refused 78"),
        checked(65, 2, 0, outside),
        checked(far, 2, 0, outside),
        checked(8, 0, MAGIC + 1, "start refused 78"),
        checked(8, 1, 0, "start refused 79"),
        checked(8, 1, 2, "start refused 79"),
        checked(8, 9, 1, "start refused 80"),
        checked(8, 4, 89, outside),
        checked(8, 7, 97, outside),
        // 32 times this is 2^32, 24 times that 3 times 2^32
        checked(8, 3, 1 << 27, outside),
        checked(8, 8, 1 << 29, outside),
        // the list of modules lies over the block, whose map count stands in its reserved field
        checked(8, 4, 32, "start refused 80"),
    ]
}

#[cfg(test)]
mod tests {
    use super::*;
    use crate::over_second;

    /// An answer as it is easy to read: which guest bytes changed, without their sum; of a setup header its first byte, that of its
    /// magic number, code32_start and the last; of a written line its text.
    fn in_short(line: &str) -> String {
        let (told, guest) = line.split_once(" guest ").unwrap_or((line, ""));
        let mut short = Vec::new();
        let mut words = told.split(' ');
        while let Some(word) = words.next() {
            if word == "header" {
                let hex = words.next().unwrap();
                assert_eq!(hex.len(), 2 * 123);
                let part = |from: usize, to: usize| &hex[2 * from..2 * to];
                let parts = [part(0, 1), part(17, 18), part(35, 39), part(122, 123)];
                short.push(format!("header {}", parts.join("..")));
            } else if let Some(hex) = word.strip_prefix("ok:") {
                let bytes = (0..hex.len()).step_by(2);
                let bytes = bytes.map(|at| u8::from_str_radix(&hex[at..at + 2], 16).unwrap());
                let text = String::from_utf8(bytes.collect()).unwrap();
                short.push(format!("[{}]", text.strip_suffix('\0').unwrap()));
            } else {
                short.push(word.to_string());
            }
        }
        let short = short.join(" ");
        match guest.split(' ').collect::<Vec<_>>()[..] {
            [_, _, "0", _, _] => short + ", nothing changed",
            [_, _, _, first, last] => format!("{short}, {first} to {last} changed"),
            _ => short,
        }
    }

    #[test]
    fn the_second_program_answers_every_case() {
        for (question, told) in all() {
            let line = over_second::answer(&question).line(question.guest());
            assert_eq!(in_short(&line), told, "{question:?}");
        }
    }
}
