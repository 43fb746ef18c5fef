//! Images for a layout, whose segments lie at and around the ends of its regions. The two crates have the same rules for all of them: every
//! loadable segment has bytes and as much memory at least (L3, L8), and there is one note header at most (L7).

use super::{Layout, Put, What};
use driver::examples::put;
use driver::rng::Rng;
use vm_memory::GuestAddress;

/// A question of any kind over a layout.
pub fn question(rng: &mut Rng, layout: &Layout) -> Put {
    match rng.below(4) {
        0 => line(rng, layout),
        1 => bzimage(rng, layout),
        _ => elf(rng, layout),
    }
}

/// An address for so many bytes: within a region, at its start or end, or some bytes off.
fn address(rng: &mut Rng, layout: &Layout, size: u64) -> u64 {
    let (start, length) = rng.pick(layout.regions);
    let end = start + length as u64;
    match rng.below(12) {
        0 => rng.near(&[start, end, u64::MAX]),
        1 => rng.near(&[end.wrapping_sub(size)]),
        2 => rng.near(&[end.wrapping_sub(size / 2)]),
        3 => start,
        4 => end.wrapping_sub(size),
        5 => rng.next() >> rng.below(64),
        _ => start + rng.below((length as u64).saturating_sub(size) + 1),
    }
}

fn highmem(rng: &mut Rng, near: u64) -> Option<GuestAddress> {
    let given = rng.one_in(4);
    given.then(|| GuestAddress(rng.near(&[near, 0])))
}

fn line(rng: &mut Rng, layout: &Layout) -> Put {
    let length = rng.pick(&[0, 1, 5, 40, 3000]);
    let text = "x".repeat(length);
    Put {
        offset: Some(GuestAddress(address(rng, layout, length as u64 + 1))),
        highmem: None,
        what: What::Line(text),
        image: Vec::new(),
    }
}

fn bzimage(rng: &mut Rng, layout: &Layout) -> Put {
    let sectors = rng.pick(&[0u8, 1, 2, 5]);
    let setup = 512 * (1 + usize::from(if sectors == 0 { 4 } else { sectors }));
    let size = 1 + rng.length(0, 9000);
    let mut image = rng.bytes(setup + size);
    image[0x1f1] = sectors;
    put(&mut image, 0x202, b"HdrS");
    put(
        &mut image,
        0x206,
        &rng.pick(&[0x1ffu16, 0x200, 0x20f]).to_le_bytes(),
    );
    image[0x211] = rng.byte() | u8::from(!rng.one_in(16));
    let start = address(rng, layout, size as u64);
    let fits = u32::try_from(start).is_ok();
    let by_header = if fits {
        start as u32
    } else {
        rng.next() as u32
    };
    put(&mut image, 0x214, &by_header.to_le_bytes());
    if rng.one_in(16) {
        let length = rng.length(0, image.len());
        image.truncate(length);
        // a kernel of no bytes is outside the domain
        if image.len() == setup {
            image.push(1);
        }
    }
    let given = !fits || rng.one_in(2);
    Put {
        offset: given.then_some(GuestAddress(start)),
        highmem: highmem(rng, by_header.into()),
        what: What::BzImage,
        image,
    }
}

fn elf(rng: &mut Rng, layout: &Layout) -> Put {
    let moved = match rng.below(4) {
        0 => Some(layout.regions[0].0),
        1 => Some(rng.below(0x1000)),
        _ => None,
    };
    let count = rng.length(0, 4);
    let table = 64;
    let body = table + 56 * count;
    let mut image = vec![0; body];
    put(&mut image, 0, b"\x7fELF\x02\x01\x01");
    let entry = address(rng, layout, 0);
    put(&mut image, 24, &entry.to_le_bytes());
    put(&mut image, 32, &(table as u64).to_le_bytes());
    put(&mut image, 54, &56u16.to_le_bytes());
    put(&mut image, 56, &(count as u16).to_le_bytes());
    let notes = rng.length(0, 2 * count);
    for index in 0..count {
        let size = if index == notes {
            20
        } else {
            1 + rng.length(0, 6000)
        };
        let place = image.len() as u64;
        let at = address(rng, layout, size as u64).wrapping_sub(moved.unwrap_or(0));
        let bytes = rng.bytes(size);
        image.extend(bytes);
        let header = &mut image[table + 56 * index..];
        put(header, 0, &1u32.to_le_bytes());
        put(header, 8, &place.to_le_bytes());
        put(header, 24, &at.to_le_bytes());
        put(header, 32, &(size as u64).to_le_bytes());
        let memory = match rng.below(8) {
            0 => rng.near(&[at.wrapping_neg()]).max(size as u64),
            _ => size as u64 + rng.below(100),
        };
        put(header, 40, &memory.to_le_bytes());
        if index == notes {
            put(header, 0, &4u32.to_le_bytes());
            let note = *b"\x04\0\0\0\x04\0\0\0\x12\0\0\0Xen\0";
            put(&mut image, place as usize, &note);
            if rng.one_in(4) {
                image[place as usize + rng.length(0, 15)] ^= 1 << rng.below(8);
            }
        }
    }
    if rng.one_in(10) {
        let length = rng.length(0, image.len());
        image.truncate(length);
    }
    Put {
        offset: moved.map(GuestAddress),
        highmem: highmem(rng, entry),
        what: What::Elf,
        image,
    }
}
