//! Boots with each two things wrong, whose first is answered.

use crate::boot_examples::all;
use crate::examples::put;
use crate::generate::exhaustive::boot::{with, without_other_slices};
use crate::question::{at, Boot, PAGE_32, PAGE_64, PVH, TREE};

/// Makes one thing wrong.
type Wrong = fn(&mut Boot);

/// In the order of the checks; some are wrong in more than one way.
const WRONG: [Wrong; 33] = [
    |boot| boot.list[at::RESERVED] = 1,
    |boot| boot.list[at::DATA] = 1 << 32,
    |boot| boot.map = Some(vec![0]),
    |boot| boot.image.clear(),
    |boot| enter(boot, PAGE_32),
    |boot| enter(boot, PAGE_64),
    |boot| enter(boot, PVH),
    |boot| enter(boot, TREE),
    |boot| field(boot, 0x236, &[0]),
    |boot| field(boot, 0x206, &[0x0b]),
    |boot| {
        boot.list[at::FLAGS] = 1;
        boot.list[at::OFFSET] = 0;
    },
    |boot| boot.text[2] = 0,
    |boot| boot.list[at::LINE] = boot.guest.len() as u64 - 2,
    |boot| boot.rows.truncate(boot.rows.len().saturating_sub(1)),
    |boot| boot.rows.extend([0; 3 * 128]),
    |boot| boot.rows.extend(first_row(boot)),
    |boot| boot.list[at::DATA] = boot.guest.len() as u64 - 5,
    |boot| field(boot, 0x22c, &[0; 4]),
    |boot| {
        field(boot, 0x238, &[0; 4]);
        boot.list[at::HAS_LIMIT] = 1;
    },
    // a kernel of more memory than there is, and of some more
    |boot| memory(boot, 0x00ff_ffff),
    |boot| memory(boot, 90),
    |boot| boot.list[at::RAMDISK] = boot.guest.len() as u64 - 2,
    // the line, the ramdisk and the boot data at the kernel's, at each other's, and over more than one piece
    |boot| boot.list[at::LINE] = if is_bzimage(boot) { 70 } else { 20 },
    |boot| boot.list[at::RAMDISK] = if is_bzimage(boot) { 70 } else { 20 },
    |boot| boot.list[at::DATA] = 20,
    |boot| boot.list[at::RAMDISK] = boot.list[at::LINE],
    |boot| boot.list[at::LINE] = boot.list[at::DATA],
    |boot| boot.list[at::RAMDISK] = boot.list[at::DATA],
    |boot| long_line(boot),
    |boot| boot.ramdisk.resize(130, 9),
    |boot| (boot.ramdisk, boot.list[at::RAMDISK]) = (vec![9; 130], 5),
    // rows that miss a piece, and all of them
    |boot| usable(boot, 38, 60),
    |boot| usable(boot, 0, 1),
];

/// Each two of them in each small boot; the same one twice is that one alone.
pub fn each_two() -> impl Iterator<Item = Boot> {
    let pairs = WRONG
        .into_iter()
        .flat_map(|first| WRONG.map(|second| (first, second)));
    pairs.flat_map(|(first, second)| {
        all().map(|boot| {
            with(&boot, |boot| {
                first(boot);
                second(boot);
                without_other_slices(boot);
            })
        })
    })
}

fn is_bzimage(boot: &Boot) -> bool {
    boot.list[at::FORMAT] == 2
}

fn enter(boot: &mut Boot, entry: u64) {
    boot.list[at::ENTRY] = entry;
}

/// A field of a setup header, if there is one.
fn field(boot: &mut Boot, place: usize, bytes: &[u8]) {
    if is_bzimage(boot) && boot.image.len() > 0x26c {
        put(&mut boot.image, place, bytes);
    }
}

fn first_row(boot: &Boot) -> Vec<u64> {
    let width = if boot.list[at::ENTRY] == PVH { 4 } else { 3 };
    boot.rows.iter().take(width).copied().collect()
}

/// How much memory the kernel takes.
fn memory(boot: &mut Boot, size: u32) {
    let place = match boot.list[at::FORMAT] {
        1 => 64 + 56 + 40,
        2 => 0x260,
        _ => 16,
    };
    if boot.image.len() > place + 4 {
        put(&mut boot.image, place, &size.to_le_bytes());
    }
}

/// A line of 100 bytes, in the tree if there is one.
fn long_line(boot: &mut Boot) {
    boot.text = vec![b'l'; 100];
    if boot.list[at::ENTRY] == TREE {
        boot.tree = [&b"abc"[..], &boot.text, &[0]].concat();
    }
}

/// One row of type 1, if there are rows.
fn usable(boot: &mut Boot, address: u64, size: u64) {
    match boot.list[at::ENTRY] {
        PAGE_32 | PAGE_64 => boot.rows = vec![address, size, 1],
        PVH => boot.rows = vec![address, size, 1, 0],
        _ => {}
    }
}
