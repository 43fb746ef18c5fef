//! Notes, and walks over them.

use crate::generate::{damage, is_large};
use crate::question::Walk;
use crate::rng::Rng;

/// The greatest size that a skipped note may have.
const GREATEST_SIZE: u64 = 0xffff_fffc;

pub fn question(rng: &mut Rng) -> Walk {
    let front = rng.length(0, 12);
    let mut image = rng.bytes(front);
    let runs = if is_large(rng) {
        rng.length(50, 500)
    } else {
        1
    };
    let notes: Vec<u8> = (0..runs).flat_map(|_| notes(rng)).collect();
    image.extend(&notes);
    let rest = rng.length(0, 6);
    image.extend(rng.bytes(rest));
    let place = place(rng, front as u64, image.len() as u64);
    let size = size(rng, notes.len() as u64);
    if rng.one_in(3) {
        let cut = rng.length(0, image.len().min(24));
        image.truncate(image.len() - cut);
    }
    if rng.one_in(8) {
        damage(rng, &mut image);
    }
    Walk { place, size, image }
}

fn place(rng: &mut Rng, notes: u64, length: u64) -> u64 {
    match rng.below(12) {
        0 => rng.near(&[length, 0, u64::MAX]),
        1 => rng.next() >> rng.below(64),
        _ => notes,
    }
}

/// A size of the segment: what its notes have, any part of it, or far more.
pub fn size(rng: &mut Rng, notes: u64) -> u64 {
    match rng.below(8) {
        0 => rng.near(&[0, 12, 16, 20, notes]),
        1 => rng.next() >> rng.below(64),
        2 => u64::MAX,
        3 | 4 => rng.below(notes + 2),
        _ => notes,
    }
}

/// The bytes of some notes, one behind the other, often with the PVH note last.
pub fn notes(rng: &mut Rng) -> Vec<u8> {
    let mut bytes = Vec::new();
    for _ in 0..rng.below(4) {
        put_note(rng, &mut bytes);
    }
    if rng.one_in(2) {
        put_pvh_note(rng, &mut bytes);
    }
    bytes
}

fn put_note(rng: &mut Rng, bytes: &mut Vec<u8>) {
    let name_size = note_size(rng);
    let descriptor_size = note_size(rng);
    let kind = rng.pick(&[18, 18, 18, 1, 0, 17, 19, 18 << 8, u32::MAX]);
    put_header(bytes, name_size, descriptor_size, kind);
    put_name(rng, bytes, name_size);
    let padded = padded(descriptor_size).min(64);
    bytes.extend(rng.bytes(padded));
}

fn put_pvh_note(rng: &mut Rng, bytes: &mut Vec<u8>) {
    let descriptor_size = rng.pick(&[4, 4, 4, 8, 5, 3, 0, u32::MAX]);
    put_header(bytes, 4, descriptor_size, 18);
    bytes.extend(b"Xen\0");
    bytes.extend(rng.bytes(4));
}

fn put_header(bytes: &mut Vec<u8>, name_size: u32, descriptor_size: u32, kind: u32) {
    for number in [name_size, descriptor_size, kind] {
        bytes.extend(number.to_le_bytes());
    }
}

fn put_name(rng: &mut Rng, bytes: &mut Vec<u8>, size: u32) {
    let mut name = b"Xen\0".to_vec();
    if rng.one_in(2) {
        let place = rng.length(0, 3);
        name[place] = rng.pick(&[0, 1, b'X', b'n', 0xff]);
    }
    name.resize(padded(size).min(64), 0);
    bytes.extend(name);
}

fn note_size(rng: &mut Rng) -> u32 {
    match rng.below(16) {
        0 => rng.near(&[GREATEST_SIZE]) as u32,
        1 => rng.next() as u32,
        2..=7 => 4,
        _ => rng.below(10) as u32,
    }
}

fn padded(size: u32) -> usize {
    (size as usize + 3) / 4 * 4
}
