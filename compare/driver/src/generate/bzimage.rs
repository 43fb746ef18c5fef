//! bzImages and loads of them.

use crate::examples::{self, put};
use crate::generate::elf::options;
use crate::generate::{damage, guest_length, is_large, large_guest_length};
use crate::question::Load;
use crate::rng::Rng;

const HEADER: usize = 0x1f1;
const HEADER_END: usize = HEADER + 123;

pub fn question(rng: &mut Rng) -> Load {
    match rng.below(16) {
        0 => damaged(rng),
        _ => structured(rng),
    }
}

fn damaged(rng: &mut Rng) -> Load {
    let mut load = examples::small_bzimage();
    if rng.one_in(2) {
        let place = rng.length(HEADER, HEADER_END - 1);
        load.image[place] = rng.byte();
    } else {
        damage(rng, &mut load.image);
    }
    let length = rng.length(0, 16);
    load.guest = rng.bytes(length);
    load.options = options(rng, &[4, length as u64]);
    load
}

fn structured(rng: &mut Rng) -> Load {
    // few sectors, for a setup is copied for each question; many now and then, since they reach far
    let sectors: u8 = match rng.below(256) {
        0 => rng.pick(&[5, 16, 127, 128, 255]),
        1..=8 => rng.pick(&[2, 3, 4]),
        9..=40 => 0,
        _ => 1,
    };
    let setup = if sectors == 0 {
        2560
    } else {
        (usize::from(sectors) + 1) * 512
    };
    let large = is_large(rng);
    let kernel = match rng.below(32) {
        _ if large => rng.pick(&[4095, 4096, 65_535, 65_536, 500_000]),
        0 => 0,
        1..=4 => 1,
        _ => rng.length(2, 48),
    };
    let mut image = vec![0; setup + kernel];
    rng.fill(&mut image[HEADER..HEADER_END]);
    rng.fill(&mut image[setup..]);
    image[HEADER] = sectors;
    put(&mut image, 0x202, b"HdrS");
    let version: u16 = rng.pick(&[0x0200, 0x0201, 0x020f, 0xffff, 0x0300]);
    put(&mut image, 0x206, &version.to_le_bytes());
    image[0x211] |= 1;

    let guest = if large {
        large_guest_length(rng)
    } else {
        guest_length(rng)
    };
    let start = start(rng, guest, kernel);
    put(&mut image, 0x214, &start.to_le_bytes());
    put_mistake(rng, &mut image, setup);
    let last = (guest as u64).wrapping_sub(kernel as u64);
    let mut options = options(rng, &[u64::from(start), guest as u64, last]);
    if options.offset.is_some() && rng.one_in(2) {
        options.offset = Some(rng.below(last.min(300) + 1));
    }
    Load {
        options,
        map: None,
        image,
        guest: rng.bytes(guest),
    }
}

fn start(rng: &mut Rng, guest: usize, kernel: usize) -> u32 {
    let last = guest.wrapping_sub(kernel) as u64;
    match rng.below(8) {
        0 => rng.next() as u32,
        1 | 2 => rng.near(&[last]) as u32,
        3 => rng.near(&[guest as u64, 0, u64::MAX]) as u32,
        _ => rng.below(last.min(300) + 1) as u32,
    }
}

/// One thing wrong with the header, or an image shorter than it says.
fn put_mistake(rng: &mut Rng, image: &mut Vec<u8>, setup: usize) {
    match rng.below(32) {
        0 => image[0x202 + rng.length(0, 3)] ^= 1 << rng.below(8),
        1 => put(
            image,
            0x206,
            &rng.pick::<u16>(&[0x01ff, 0x0100, 0, 0x00ff]).to_le_bytes(),
        ),
        2 => image[0x211] &= 0xfe,
        3 => image.truncate(setup - rng.length(1, 3)),
        4 => {
            let length = rng.length(HEADER - 2, HEADER_END + 2);
            image.truncate(length);
        }
        5 => {
            let length = rng.length(0, setup);
            image.truncate(length);
        }
        _ => {}
    }
}
