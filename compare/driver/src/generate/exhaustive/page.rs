//! Every order of up to three small rows, rows around the end of 2^64, each length of a page near its own, each count, and each byte of a page that is read.

use crate::question::{PageBuild, PageRead, Question};

const SIZE: usize = 4096;

fn build(size: usize, numbers: Vec<u64>) -> PageBuild {
    PageBuild {
        command_line: 0x0102_0304,
        ramdisk: 0xf1f2_f3f4,
        ramdisk_size: 0x8182_8384,
        header: (0..123).map(|place| place * 2 + 1).collect(),
        numbers,
        page: vec![0xa5; size],
    }
}

pub fn page() -> impl Iterator<Item = Question> {
    let builds = small_rows()
        .chain(at_the_end())
        .chain(lists())
        .chain(sizes());
    builds
        .map(Question::PageBuild)
        .chain(reads().map(Question::PageRead))
}

/// Up to three rows of 0 to 2 bytes at addresses 0 to 4, in every order.
fn small_rows() -> impl Iterator<Item = PageBuild> {
    let rows: Vec<[u64; 3]> = (0..15).map(|k| [k / 3, k % 3, 0x0102_0300 + k]).collect();
    let one = rows.clone().into_iter().map(|a| a.to_vec());
    let pairs = rows.clone().into_iter().flat_map({
        let rows = rows.clone();
        move |a| rows.clone().into_iter().map(move |b| [a, b].concat())
    });
    let triples = rows.clone().into_iter().flat_map(move |a| {
        let rows = rows.clone();
        rows.clone()
            .into_iter()
            .flat_map(move |b| rows.clone().into_iter().map(move |c| [a, b, c].concat()))
    });
    one.chain(pairs)
        .chain(triples)
        .map(|numbers| build(SIZE, numbers))
}

/// One and two rows around the end of 2^64.
fn at_the_end() -> impl Iterator<Item = PageBuild> {
    let rows = || (0..5u64).flat_map(|a| (0..5u64).map(move |n| [a.wrapping_neg(), n, 1]));
    let one = rows().map(|row| row.to_vec());
    let two = rows().flat_map(move |a| rows().map(move |b| [a, b].concat()));
    let long = (0..4u64).map(|a| vec![a, u64::MAX - 2, 1]);
    one.chain(two)
        .chain(long)
        .map(|numbers| build(SIZE, numbers))
}

/// Each length of the list up to past 128 rows; and types around 2^32.
fn lists() -> impl Iterator<Item = PageBuild> {
    let rows = |count: u64| (0..count).map(|k| if k % 3 == 0 { k } else { 1 }).collect();
    let lengths = (0..12).chain(375..=396).map(rows);
    let kinds = (0..3).map(|k| vec![0, 1, 0xffff_ffff + k]);
    lengths.chain(kinds).map(|numbers| build(SIZE, numbers))
}

/// Pages of other sizes, with lists good and bad.
fn sizes() -> impl Iterator<Item = PageBuild> {
    let sizes = [0, 1, SIZE - 1, SIZE, SIZE + 1, 2 * SIZE];
    let lists = [vec![], vec![0], vec![0, 1, 1], vec![0, 0, 1], vec![0; 387]];
    sizes
        .into_iter()
        .flat_map(move |size| lists.clone().map(|numbers| build(size, numbers)))
}

/// Each count, and each byte of the page alone.
fn reads() -> impl Iterator<Item = PageRead> {
    let read = |length: usize, fill, place: usize, byte| PageRead {
        length: length as u32,
        fill,
        place: place as u32,
        bytes: vec![byte],
    };
    let counts = (0..=255).map(move |count| read(SIZE, 0x5a, 0x1e8, count));
    let bytes = (0..SIZE).map(move |place| read(SIZE, 2, place, 3));
    let sizes = (SIZE - 2..SIZE + 3).chain([0, 1]);
    let sizes = sizes.map(move |length| read(length, 1, 0, 1));
    counts.chain(bytes).chain(sizes)
}
