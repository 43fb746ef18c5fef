//! Small boots of each kind: each two pieces touching, apart and overlapping by up to two bytes; rows, ranges and guests
//! that have a part or miss it by a byte; each number of the list at its limits; each byte of a tree and of headers.

use crate::boot_examples::{all, page_32, page_64, page_of_elf, pvh, tree, ANSWERS};
use crate::examples::put;
use crate::generate::exhaustive::{boot_fields, boot_pairs};
use crate::parts::{pieces, Part};
use crate::question::{at, Boot, PVH, TREE};

pub fn boots() -> impl Iterator<Item = Boot> {
    let places = two_pieces().chain(holes()).chain(lengths());
    let fields = boot_fields::fields();
    let lists = rows().chain(lists()).chain(trees()).chain(empty_ramdisks());
    let pairs = boot_pairs::each_two();
    let bytes = bytes();
    places.chain(fields).chain(lists).chain(pairs).chain(bytes)
}

/// A copy of a boot with a change.
pub fn with(boot: &Boot, change: impl Fn(&mut Boot)) -> Boot {
    let mut changed = boot.clone();
    change(&mut changed);
    changed
}

/// The addresses from two bytes below a number to two above it.
pub fn around(number: u64) -> impl Iterator<Item = u64> {
    (0..5).map(move |delta| number.wrapping_add(delta).wrapping_sub(2))
}

/// Where a piece of a size touches a part or overlaps it, from outside and from inside.
fn touching(size: u64, (address, length): Part) -> impl Iterator<Item = u64> {
    let end = address.wrapping_add(length);
    let sides = [
        address.wrapping_sub(size),
        address,
        end,
        end.wrapping_sub(size),
    ];
    sides.into_iter().flat_map(around)
}

/// Each piece at each part of the others, and each part of the kernel.
fn two_pieces() -> impl Iterator<Item = Boot> {
    all().into_iter().flat_map(|boot| {
        let pieces = pieces(&boot);
        let mut moved = Vec::new();
        for (piece, index) in [(1, at::LINE), (2, at::RAMDISK), (3, at::DATA)] {
            let Some((_, size)) = pieces[piece].first() else {
                continue;
            };
            for part in pieces.iter().flatten() {
                for address in touching(*size, *part) {
                    moved.push(with(&boot, |boot| boot.list[index] = address));
                }
            }
        }
        for (which, (_, size)) in pieces[0].iter().enumerate() {
            for part in pieces.iter().flatten() {
                for address in touching(*size, *part) {
                    moved.push(with(&boot, |boot| move_part(boot, which, address)));
                }
            }
        }
        moved
    })
}

/// A part of the kernel goes to an address.
fn move_part(boot: &mut Boot, which: usize, address: u64) {
    let bytes = address.to_le_bytes();
    match (boot.list[at::FORMAT], which) {
        (1, _) => {
            let moved = boot.options().offset.unwrap_or(0);
            let bytes = address.wrapping_sub(moved).to_le_bytes();
            put(&mut boot.image, 64 + 56 * which + 24, &bytes);
        }
        (2, 0) => {
            boot.list[at::FLAGS] = 1;
            boot.list[at::OFFSET] = address;
        }
        (2, _) => {
            boot.image[0x234] = 0;
            put(&mut boot.image, 0x258, &bytes);
        }
        _ => put(&mut boot.image, 8, &bytes),
    }
}

/// A hole of one byte at each edge of each part, and around it; and two ranges with all but a part.
fn holes() -> impl Iterator<Item = Boot> {
    all().into_iter().flat_map(|boot| {
        let length = boot.guest.len() as u64;
        let parts = pieces(&boot).concat();
        let edges = parts.into_iter().flat_map(|(at, size)| [at, at + size]);
        let holes = edges.flat_map(around).filter(move |hole| *hole < length);
        holes.map(move |hole| {
            let mut map = vec![0, hole, hole + 1, length - hole - 1];
            // no range is empty
            if hole == 0 {
                map.drain(..2);
            }
            with(&boot, |boot| boot.map = Some(map.clone()))
        })
    })
}

/// Guest memory that ends around each edge of each part.
fn lengths() -> impl Iterator<Item = Boot> {
    all().into_iter().flat_map(|boot| {
        let parts = pieces(&boot).concat();
        let edges = parts.into_iter().flat_map(|(at, size)| [at, at + size]);
        edges
            .flat_map(around)
            .map(move |length| with(&boot, |boot| boot.guest.resize(length as usize % 8192, 7)))
    })
}

/// Boots with a row for each part, of which one is changed.
fn rows() -> impl Iterator<Item = Boot> {
    let boots = [page_32(), page_of_elf(), pvh()].into_iter();
    boots.flat_map(|mut boot| {
        // room for the rows of a start block
        boot.guest.resize(boot.guest.len() + 200, 7);
        let [kernel, line, ramdisk, _] = pieces(&boot);
        let parts = [kernel, line, ramdisk].concat();
        let mut all = vec![with(&boot, |boot| boot.rows.clear())];
        for index in 0..parts.len() {
            for changed in changed_rows(parts[index]) {
                let whole = |(address, size): &Part| vec![[*address, *size, 1]];
                let mut rows: Vec<Vec<[u64; 3]>> = parts.iter().map(whole).collect();
                rows[index] = changed;
                all.push(with(&boot, |boot| put_rows(boot, &rows.concat())));
            }
        }
        all
    })
}

/// The row of a part changed at its ends or in its type, in two, and missing.
fn changed_rows((address, size): Part) -> Vec<Vec<[u64; 3]>> {
    let mut all = vec![vec![], vec![[0, u64::MAX, 1]]];
    for from in [address - 1, address, address + 1] {
        for to in [address + size - 1, address + size, address + size + 1] {
            all.push(vec![[from, to - from, 1]]);
        }
    }
    for kind in [0, 2, 3, 5, 256, 257, 0x8000_0001, 0xffff_ffff] {
        all.push(vec![[address, size, kind]]);
    }
    for split in 1..size {
        let rest = [address + split, size - split, 1];
        all.push(vec![[address, split, 1], rest]);
    }
    // one that ends at 2^64 or above it, which a start block may have
    for size in [address.wrapping_neg(), u64::MAX] {
        all.push(vec![[address, size, 1]]);
    }
    all
}

fn put_rows(boot: &mut Boot, rows: &[[u64; 3]]) {
    let reserved = (boot.list[at::ENTRY] == PVH).then_some(0);
    let rows = rows
        .iter()
        .flat_map(|row| row.iter().copied().chain(reserved));
    boot.rows = rows.collect();
}

/// Each number of the list at its limits, lists of each length, and room for each count of answers.
fn lists() -> impl Iterator<Item = Boot> {
    const LIMITS: [u64; 10] = [
        0,
        1,
        2,
        3,
        4,
        5,
        (1 << 32) - 1,
        1 << 32,
        (1 << 32) + 1,
        u64::MAX,
    ];
    all().into_iter().flat_map(|boot| {
        let mut all = Vec::new();
        for index in 0..boot.list.len() {
            for number in LIMITS {
                // bits and numbers of which nothing is said
                let is_said = match index {
                    at::FORMAT => number <= 5,
                    at::FLAGS => number <= 3,
                    at::HAS_LIMIT => number <= 1,
                    _ => true,
                };
                if is_said {
                    all.push(with(&boot, |boot| {
                        boot.list[index] = number;
                        without_other_slices(boot);
                    }));
                }
            }
        }
        for length in 0..=14 {
            all.push(with(&boot, |boot| boot.list.resize(length, 0)));
        }
        for answers in 0..=ANSWERS + 2 {
            all.push(with(&boot, |boot| boot.answers = answers));
        }
        all
    })
}

/// A device tree has no rows and no init text, and the others have no tree.
pub fn without_other_slices(boot: &mut Boot) {
    if boot.number(at::ENTRY) == TREE {
        boot.rows.clear();
        boot.init.clear();
    } else {
        boot.tree.clear();
    }
}

/// Each offset of the line in the tree, each other byte of the tree, and each length of it.
fn trees() -> impl Iterator<Item = Boot> {
    let tree = tree();
    let length = tree.tree.len();
    let mut all = Vec::new();
    for offset in (0..length as u64 + 3).chain([1 << 32, u64::MAX - 2, u64::MAX]) {
        all.push(with(&tree, |boot| boot.list[at::LINE] = offset));
    }
    for place in 0..length {
        all.push(with(&tree, |boot| boot.tree[place] ^= 1));
        all.push(with(&tree, |boot| boot.tree.truncate(place)));
        all.push(with(&tree, |boot| {
            boot.tree.truncate(place);
            boot.text.clear();
        }));
    }
    all.into_iter()
}

/// A ramdisk of no bytes and of one at each address near the parts, and far away.
fn empty_ramdisks() -> impl Iterator<Item = Boot> {
    all().into_iter().flat_map(|boot| {
        let far = [(1 << 32) - 1, 1 << 32, u64::MAX];
        let addresses = (0..150u64)
            .chain(around(boot.guest.len() as u64))
            .chain(far);
        addresses.flat_map(move |address| {
            [0, 1].map(|size| {
                with(&boot, |boot| {
                    boot.ramdisk.truncate(size);
                    boot.list[at::RAMDISK] = address;
                    if address > 140 && boot.image.len() > 0x230 {
                        put(&mut boot.image, 0x22c, &[100, 0, 0, 0]);
                    }
                })
            })
        })
    })
}

/// Each byte of a header with some values.
fn bytes() -> impl Iterator<Item = Boot> {
    [
        (page_32(), 0x1f1..0x26c),
        (page_64(), 0x1f1..0x26c),
        (page_of_elf(), 0..64),
        (pvh(), 0..255),
        (tree(), 0..64),
    ]
    .into_iter()
    .flat_map(|(boot, places)| {
        places.flat_map(move |place| {
            let old = boot.image[place];
            [0, 1, 0xff, old ^ 1, old ^ 0x80]
                .map(|byte| with(&boot, |boot| boot.image[place] = byte))
        })
    })
}

#[cfg(test)]
mod tests {
    use super::*;
    use crate::over_second;
    use crate::question::Question;
    use std::collections::BTreeMap;

    #[test]
    fn every_number_of_a_boot_is_reached() {
        let mut counts: BTreeMap<u8, u64> = BTreeMap::new();
        for boot in boots() {
            let numbers = over_second::answer(&Question::Boot(boot)).numbers();
            *counts
                .entry(numbers.first().copied().unwrap_or(0))
                .or_default() += 1;
        }
        let others = [0, 31, 32, 61, 74, 75, 76, 77].into_iter();
        for number in others.chain(91..=108) {
            assert!(
                counts.get(&number).is_some_and(|count| *count > 3),
                "{number}: {counts:?}"
            );
        }
    }
}
