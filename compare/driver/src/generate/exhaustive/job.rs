//! Every small table of a job: each count, kind, place and size at its limit and one off it, every length of a job,
//! and images and lines that end at and around the end of guest memory.

use crate::desk::GUEST;
use crate::examples::{self, put};
use crate::generate::job::{job, Body};
use second::desk::MOST;

pub fn jobs() -> impl Iterator<Item = Vec<u8>> {
    let tables = one_row().chain(two_rows());
    let jobs = tables.chain(each_length()).chain(long_jobs());
    jobs.chain(lines()).chain(images())
}

fn elf() -> Body {
    (1, examples::small_elf().image)
}

fn line(text: &[u8]) -> Body {
    (3, text.to_vec())
}

/// The job with the number at a place changed by one, up and down, and left.
fn beside(bytes: &[u8], place: usize) -> Vec<Vec<u8>> {
    let old = u32::from_le_bytes([
        bytes[place],
        bytes[place + 1],
        bytes[place + 2],
        bytes[place + 3],
    ]);
    let near = [old, old.wrapping_add(1), old.wrapping_sub(1)];
    near.map(|number| with(bytes, place, number)).to_vec()
}

fn with(bytes: &[u8], place: usize, number: u32) -> Vec<u8> {
    let mut bytes = bytes.to_vec();
    bytes[place..place + 4].copy_from_slice(&number.to_le_bytes());
    bytes
}

fn one_row() -> impl Iterator<Item = Vec<u8>> {
    let bodies = [elf(), line(b"a"), (1, vec![])];
    bodies.into_iter().flat_map(|body| {
        let good = job(&[body]);
        let counts = (0..4).map(move |count| with(&good, 0, count));
        let kinds = counts.flat_map(|bytes| (0..5).map(move |kind| with(&bytes, 4, kind)));
        let places = kinds.flat_map(|bytes| beside(&bytes, 8));
        places.flat_map(|bytes| beside(&bytes, 12))
    })
}

/// Both orders; the numbers of both rows.
fn two_rows() -> impl Iterator<Item = Vec<u8>> {
    let bodies = [
        [elf(), line(b"a")],
        [line(b"a"), elf()],
        [elf(), line(b"")],
        [line(b""), elf()],
    ];
    bodies.into_iter().flat_map(|bodies| {
        let good = job(&bodies);
        let counts = (1..4).map(move |count| with(&good, 0, count));
        let kinds = counts.flat_map(|bytes| (0..5).map(move |kind| with(&bytes, 4, kind)));
        let kinds = kinds.flat_map(|bytes| (0..5).map(move |kind| with(&bytes, 16, kind)));
        [8, 12, 20, 24].into_iter().fold(
            Box::new(kinds) as Box<dyn Iterator<Item = Vec<u8>>>,
            |tables, place| Box::new(tables.flat_map(move |bytes| beside(&bytes, place))),
        )
    })
}

/// A good job cut at every place, and with a byte more.
fn each_length() -> impl Iterator<Item = Vec<u8>> {
    let bodies = [
        vec![elf()],
        vec![elf(), line(b"a")],
        vec![line(b"a"), elf()],
    ];
    bodies.into_iter().flat_map(|bodies| {
        let mut good = job(&bodies);
        good.push(0);
        (0..=good.len()).map(move |length| good[..length].to_vec())
    })
}

/// Jobs around the most bytes, by an image with bytes behind its last segment.
fn long_jobs() -> impl Iterator<Item = Vec<u8>> {
    (MOST - 1..=MOST + 1).map(|length| {
        let mut image = elf();
        image.1.resize(length - 16, 0);
        job(&[image])
    })
}

/// The small image with its 3 bytes, and 8 bytes of memory, at another address.
fn elf_at(address: usize) -> Body {
    let (kind, mut image) = elf();
    put(&mut image, 88, &(address as u64).to_le_bytes());
    (kind, image)
}

/// Lines of every length around the room of 8 bytes after the kernel, and around the capacity.
fn lines() -> impl Iterator<Item = Vec<u8>> {
    let near_end = (0..10).map(|length| (elf_at(GUEST - 16), length));
    let long = (4094..4098).map(|length| (elf(), length));
    let texts = near_end.chain(long);
    texts.map(|(image, length)| job(&[image, line(&vec![b'a'; length])]))
}

/// The image at every address around the last at which it has room, without and with a line.
fn images() -> impl Iterator<Item = Vec<u8>> {
    let images = (GUEST - 12..GUEST + 2).map(elf_at);
    images.flat_map(|image| [job(&[image.clone()]), job(&[line(b"a"), image])])
}
