//! arm64 Images and loads of them.

use crate::examples::{self, put};
use crate::generate::{damage, is_large, large_guest_length};
use crate::question::{Load, Options};
use crate::rng::Rng;

const HEADER: usize = 64;
const ALIGNMENT: u64 = 2 << 20;

pub fn question(rng: &mut Rng) -> Load {
    match rng.below(16) {
        0 => damaged(rng),
        _ => structured(rng),
    }
}

fn damaged(rng: &mut Rng) -> Load {
    let mut load = examples::small_arm64();
    damage(rng, &mut load.image);
    let length = rng.length(60, 100);
    load.guest = rng.bytes(length);
    load
}

fn structured(rng: &mut Rng) -> Load {
    let large = is_large(rng);
    let body = match rng.below(8) {
        _ if large => rng.pick(&[4095, 65_536, 500_000]),
        0 => 0,
        _ => rng.length(0, 24),
    };
    let mut image = rng.bytes(HEADER + body);
    let file = image.len() as u64;
    let guest = if large {
        large_guest_length(rng)
    } else {
        let most = HEADER + body + 40;
        rng.length(HEADER + body - 2, most)
    };
    let last = (guest as u64).wrapping_sub(file);
    let base = base(rng);
    let text_offset = match rng.below(16) {
        0 => rng.next(),
        1 => rng.near(&[base.wrapping_neg(), guest as u64, ALIGNMENT]),
        2 | 3 => rng.near(&[last]),
        _ => rng.below(last.min(64).wrapping_add(1).max(1)),
    };
    let start = base.wrapping_add(text_offset);
    let size = match rng.below(8) {
        0 => rng.next() >> rng.below(64),
        1 => rng.near(&[0]),
        2 | 3 => rng.near(&[start.wrapping_neg()]),
        4 => rng.near(&[file, guest as u64]),
        _ => 1 + rng.below(200),
    };
    put(&mut image, 8, &text_offset.to_le_bytes());
    put(&mut image, 16, &size.to_le_bytes());
    image[24] &= 0xfe;
    put(&mut image, 56, b"ARM\x64");
    put_mistake(rng, &mut image);
    Load {
        options: Options {
            offset: Some(base).filter(|base| *base != 0 || rng.one_in(2)),
            highmem: None,
        },
        map: None,
        image,
        guest: rng.bytes(guest),
    }
}

/// Mostly 0, for guests are small; else a multiple of 2 MiB, or one byte off one.
fn base(rng: &mut Rng) -> u64 {
    match rng.below(16) {
        0 => rng.next() & ALIGNMENT.wrapping_neg(),
        1 => ALIGNMENT.wrapping_neg(),
        2 => rng.near(&[0, ALIGNMENT, ALIGNMENT.wrapping_neg()]),
        3 => rng.pick(&[ALIGNMENT / 2, 4096, ALIGNMENT - 64]),
        _ => 0,
    }
}

/// One thing wrong with the header, or an image shorter than it.
fn put_mistake(rng: &mut Rng, image: &mut Vec<u8>) {
    match rng.below(24) {
        0 => image[56 + rng.length(0, 3)] ^= 1 << rng.below(8),
        1 => image[24] |= 1,
        2 => put(image, 16, &0u64.to_le_bytes()),
        3 => image.truncate(rng.length(HEADER - 2, HEADER)),
        4 => image.truncate(rng.length(0, HEADER)),
        _ => {}
    }
}
