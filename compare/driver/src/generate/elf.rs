//! ELF images and loads of them.

use crate::examples::{self, put};
use crate::generate::{damage, guest_length, is_large, large_guest_length, note};
use crate::question::{Load, Options};
use crate::rng::Rng;

const HEADER: usize = 64;
const PROGRAM_HEADER: usize = 56;

pub fn question(rng: &mut Rng) -> Load {
    if is_large(rng) {
        return large(rng);
    }
    match rng.below(32) {
        0 => random_bytes(rng),
        1..=3 => damaged(rng),
        _ => structured(rng),
    }
}

/// An image of random bytes, perhaps with the magic in front: nearly all are refused early.
fn random_bytes(rng: &mut Rng) -> Load {
    let length = rng.length(0, 200);
    let mut image = rng.bytes(length);
    if length >= HEADER {
        put(&mut image, 0, b"\x7fELF");
        image[5] = rng.below(3) as u8;
        if rng.one_in(2) {
            put(&mut image, 54, &56u16.to_le_bytes());
        }
    }
    let length = guest_length(rng);
    Load {
        options: options(rng, &[length as u64]),
        map: None,
        image,
        guest: rng.bytes(length),
    }
}

/// A damaged copy of a good image.
fn damaged(rng: &mut Rng) -> Load {
    let mut load = if rng.one_in(2) {
        examples::small_elf()
    } else {
        examples::elf_with_notes()
    };
    damage(rng, &mut load.image);
    let length = rng.length(0, 40);
    load.guest = rng.bytes(length);
    load.options = options(rng, &[16, length as u64]);
    load
}

/// An image with many program headers and a long body, whose segments mostly fit.
fn large(rng: &mut Rng) -> Load {
    let count = rng.pick(&[5, 40, 200, 1000]);
    let table = HEADER;
    let body = table + count * PROGRAM_HEADER;
    let mut notes = Vec::new();
    for _ in 0..rng.pick(&[1, 10, 100]) {
        notes.extend(note::notes(rng));
    }
    let before = rng.pick(&[0, 4096, 65_536, 300_000]);
    let length = body + before + notes.len();
    let mut image = vec![0; length];
    rng.fill(&mut image[body..]);
    put(&mut image, body + before, &notes);
    let guest = large_guest_length(rng);
    let plan = Plan {
        options: Options {
            offset: rng.one_in(2).then(|| rng.below(64)),
            highmem: None,
        },
        guest: guest as u64,
        table,
        body,
        image: length,
        notes: (body + before, notes.len()),
    };
    put_header(rng, &mut image, guest as u64, count, &plan);
    for index in 0..count {
        let entry = &mut image[table + index * PROGRAM_HEADER..];
        let longest = (guest - 64).min(length - body) as u64;
        let size = rng.below(longest + 1);
        let place = body as u64 + rng.below((length - body) as u64 - size + 1);
        let address = rng.below((guest - 64) as u64 - size + 1);
        for (field, number) in [(8, place), (24, address), (32, size), (40, size + 7)] {
            put(entry, field, &number.to_le_bytes());
        }
        put(entry, 0, &rng.pick(&[1u32, 1, 1, 0, 6]).to_le_bytes());
        if rng.one_in(40) {
            put_program_header(rng, entry, &plan);
        }
    }
    Load {
        options: plan.options,
        map: None,
        image,
        guest: rng.bytes(guest),
    }
}

/// What the fields of one image are chosen around.
struct Plan {
    options: Options,
    guest: u64,
    table: usize,
    body: usize,
    image: usize,
    /// Where a run of notes begins in the image, and how many bytes it has.
    notes: (usize, usize),
}

/// An image with every field at or around the limits that the other fields set.
fn structured(rng: &mut Rng) -> Load {
    let count = rng.pick(&[0, 1, 1, 1, 2, 2, 3, 4]);
    let gap = if rng.one_in(8) { rng.length(1, 9) } else { 0 };
    let table = HEADER + gap;
    let body = table + count * PROGRAM_HEADER;
    let notes = note::notes(rng);
    let before = rng.length(0, 24);
    let after = rng.length(0, 12);
    let length = body + before + notes.len() + after;
    let mut image = vec![0; length];
    rng.fill(&mut image[body..]);
    put(&mut image, body + before, &notes);

    let guest = guest_length(rng);
    let entry = entry(rng, guest as u64);
    let plan = Plan {
        options: options(rng, &[entry, guest as u64]),
        guest: guest as u64,
        table,
        body,
        image: length,
        notes: (body + before, notes.len()),
    };
    put_header(rng, &mut image, entry, count, &plan);
    for index in 0..count {
        let place = table + index * PROGRAM_HEADER;
        put_program_header(rng, &mut image[place..], &plan);
    }
    if rng.one_in(12) {
        damage(rng, &mut image);
    }
    Load {
        options: plan.options,
        map: None,
        image,
        guest: rng.bytes(guest),
    }
}

fn entry(rng: &mut Rng, guest: u64) -> u64 {
    match rng.below(6) {
        0 => rng.near(&[0, guest, u64::MAX]),
        1 => rng.next() >> rng.below(64),
        _ => rng.below(guest + 8),
    }
}

/// An offset and a lowest entry address, near the given numbers or near where a sum with them leaves 64 bits.
pub fn options(rng: &mut Rng, near: &[u64]) -> Options {
    let number = |rng: &mut Rng| match rng.below(6) {
        0 => 0,
        1 => rng.below(40),
        2 => rng.next() >> rng.below(64),
        3 => {
            let number = rng.pick(near);
            rng.near(&[number.wrapping_neg()])
        }
        _ => rng.near(near),
    };
    let offset = match rng.below(8) {
        0..=3 => None,
        4 | 5 => Some(rng.below(40)),
        _ => Some(number(rng)),
    };
    let highmem = match rng.below(8) {
        0..=4 => None,
        5 => Some(0),
        _ => Some(number(rng)),
    };
    Options { offset, highmem }
}

fn put_header(rng: &mut Rng, image: &mut [u8], entry: u64, count: usize, plan: &Plan) {
    put(image, 0, b"\x7fELF\x02\x01\x01");
    put(image, 24, &entry.to_le_bytes());
    put(image, 54, &56u16.to_le_bytes());
    let mut table = plan.table as u64;
    let mut count = count as u16;
    if rng.one_in(12) {
        let last = (plan.image - usize::from(count) * PROGRAM_HEADER) as u64;
        table = rng.near(&[0, 63, 64, last, plan.image as u64, u64::MAX]);
    }
    if rng.one_in(24) {
        count = rng.pick(&[0, count + 1, count + 2, u16::MAX]);
    }
    put(image, 32, &table.to_le_bytes());
    put(image, 56, &count.to_le_bytes());
    match rng.below(64) {
        0 => image[rng.pick(&[0, 1, 2, 3])] ^= 1 << rng.below(8),
        1 => image[5] = rng.pick(&[0, 2, 3, 255]),
        2 => image[54] = rng.pick(&[0, 55, 57, 64]),
        3 => image[55] = rng.byte(),
        _ => {}
    }
}

fn put_program_header(rng: &mut Rng, entry: &mut [u8], plan: &Plan) {
    rng.fill(&mut entry[..PROGRAM_HEADER]);
    let kind: u32 = match rng.below(16) {
        0 => rng.pick(&[0, 2, 3, 5, 6, 7, 0x0100_0001, 0x6474_e551]),
        1..=4 => 4,
        _ => 1,
    };
    put(entry, 0, &kind.to_le_bytes());
    let [offset, address, file_size, memory_size] = if kind == 4 {
        note_segment(rng, plan)
    } else {
        load_segment(rng, plan)
    };
    put(entry, 8, &offset.to_le_bytes());
    put(entry, 24, &address.to_le_bytes());
    put(entry, 32, &file_size.to_le_bytes());
    put(entry, 40, &memory_size.to_le_bytes());
}

fn note_segment(rng: &mut Rng, plan: &Plan) -> [u64; 4] {
    let (place, length) = plan.notes;
    let offset = match rng.below(8) {
        0 => rng.near(&[plan.image as u64, u64::MAX, place as u64]),
        _ => place as u64,
    };
    let size = note::size(rng, length as u64);
    [offset, rng.next(), size, rng.next()]
}

/// Place, address, file size and memory size of a segment that fits, with now and then one of them at a limit.
fn load_segment(rng: &mut Rng, plan: &Plan) -> [u64; 4] {
    let moved = plan.options.offset.unwrap_or(0);
    let image = plan.image as u64;
    let mut offset = rng.length(plan.body.min(plan.image), plan.image) as u64;
    let room = plan.guest.min(image - offset).min(24);
    let mut file_size = rng.below(room + 1);
    let mut address = rng.below(plan.guest - file_size + 1).wrapping_sub(moved);
    if moved > plan.guest && rng.one_in(2) {
        address = rng.near(&[moved.wrapping_neg(), 0]);
    }
    match rng.below(16) {
        0 => file_size = rng.near(&[0, image - offset, plan.guest, u64::MAX]),
        1 => file_size = rng.next() >> rng.below(64),
        2 => offset = rng.near(&[image, image - file_size.min(image), u64::MAX]),
        3 => address = rng.near(&[plan.guest, u64::MAX, moved.wrapping_neg()]),
        4 => {
            let last = plan.guest.wrapping_sub(file_size);
            address = rng.near(&[last.wrapping_sub(moved)]);
        }
        5 => file_size = 0,
        _ => {}
    }
    let starts = address.wrapping_add(moved);
    let memory_size = match rng.below(8) {
        0 => rng.near(&[starts.wrapping_neg()]),
        1 => rng.near(&[0, u64::MAX]),
        2 => rng.next() >> rng.below(64),
        _ => file_size.wrapping_add(rng.below(16)),
    };
    [offset, address, file_size, memory_size]
}
