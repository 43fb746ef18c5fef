//! Whole boots: pieces that touch, miss each other by one or overlap by one, limits at and around what they limit, and
//! boots with one thing changed.

mod kernels;
mod rows;
mod spoil;

use crate::boot_examples::ANSWERS;
use crate::generate::{arm64, bzimage, elf, headers};
use crate::parts::{pieces, Part};
use crate::question::{at, Boot, Load, PAGE_32, PAGE_64, PVH, TREE};
use crate::rng::Rng;
use kernels::Kernel;

const LIST: usize = 12;
const PAGE_SIZE: u64 = 4096;
const LINUX_LIMIT: usize = 2047;
const OLD_LIMIT: usize = 255;

pub fn question(rng: &mut Rng) -> Boot {
    if rng.one_in(12) {
        return of_load(rng);
    }
    let mut boot = accepted(rng);
    for often in [3, 8] {
        // a list that was cut has nothing more to change
        if rng.one_in(often) && boot.list.len() == LIST {
            spoil::spoil(rng, &mut boot);
        }
    }
    boot
}

/// A boot that is accepted but for pieces that overlap now and then, and limits that are one too low.
fn accepted(rng: &mut Rng) -> Boot {
    let (format, entry) = rng.pick(&[
        (2, PAGE_32),
        (2, PAGE_32),
        (2, PAGE_32),
        (2, PAGE_64),
        (2, PAGE_64),
        (1, PAGE_64),
        (1, PAGE_64),
        (1, PVH),
        (1, PVH),
        (3, TREE),
        (3, TREE),
    ]);
    let kernel = Kernel::random(rng, format, entry);
    let (text, init) = texts(rng, entry);
    let ramdisk = ramdisk(rng);
    let (tree, line_offset) = tree(rng, entry, &text);
    let line = match init.len() {
        0 => text.len() + 1,
        size => text.len() + 1 + 4 + size,
    };
    let row_count = rows::count(rng, entry);
    let data = match entry {
        PAGE_32 | PAGE_64 => PAGE_SIZE,
        PVH => 56 + 32 * u64::from(!ramdisk.is_empty()) + 24 * row_count as u64,
        _ => tree.len() as u64,
    };
    let line_piece = if entry == TREE { 0 } else { line as u64 };
    let mut sizes = vec![line_piece, ramdisk.len() as u64, data];
    sizes.extend(kernel.sizes());
    let (places, end) = laid_out(rng, &sizes);
    let (image, offset) = kernel.image(rng, entry, &places[3..]);
    let line_at = if entry == TREE {
        line_offset
    } else {
        places[0]
    };
    let (has_limit, limit) = limit(rng, line - 1);
    let list = vec![
        format,
        u64::from(offset.is_some()),
        offset.unwrap_or(5),
        rng.below(9),
        entry,
        has_limit,
        limit,
        line_at,
        ramdisk_at(rng, places[1], entry, ramdisk.is_empty()),
        places[2],
        rng.next(),
        0,
    ];
    let guest = match rng.below(16) {
        0 => end.saturating_sub(1),
        1..=9 => end,
        _ => end + rng.below(20),
    };
    let mut boot = Boot {
        map: None,
        list,
        answers: ANSWERS,
        image,
        guest: rng.bytes(guest as usize),
        text,
        init,
        ramdisk,
        rows: vec![],
        tree,
    };
    if format == 2 {
        kernels::put_limits(rng, &mut boot, line as u64 - 1);
    }
    if entry != TREE {
        let [kernel, line, ramdisk, _] = pieces(&boot);
        let used = [kernel, line, ramdisk].concat();
        boot.rows = rows::rows(rng, used, end, row_count, entry);
    }
    if rng.one_in(4) {
        boot.map = Some(map_with_holes(&boot));
    }
    boot
}

/// The ranges that the pieces take, and no other byte.
fn map_with_holes(boot: &Boot) -> Vec<u64> {
    let length = boot.guest.len() as u64;
    let mut parts: Vec<Part> = pieces(boot).concat();
    parts.retain(|(address, size)| *size > 0 && *address < length);
    let ranges = rows::merged(parts, true);
    let numbers = |(from, to): (u64, u64)| [from, to.min(length) - from];
    ranges.into_iter().flat_map(numbers).collect()
}

/// Where pieces of these sizes are, in some order, and where the last one ends.
fn laid_out(rng: &mut Rng, sizes: &[u64]) -> (Vec<u64>, u64) {
    let mut order: Vec<usize> = (0..sizes.len()).collect();
    for last in (1..order.len()).rev() {
        order.swap(last, rng.length(0, last));
    }
    let mut places = vec![0; sizes.len()];
    let mut next = rng.pick(&[0, 0, 1, 2, 5]);
    let mut end = 0;
    for piece in order {
        places[piece] = next;
        end = end.max(next + sizes[piece]);
        next = end;
        match rng.below(40) {
            0 => next = next.saturating_sub(1),
            1..=24 => {}
            _ => next += rng.below(7),
        }
    }
    (places, end)
}

/// The texts of a line: mostly short, and now and then around the limits that Linux has.
fn texts(rng: &mut Rng, entry: u64) -> (Vec<u8>, Vec<u8>) {
    let length = match rng.below(64) {
        0 => rng.length(OLD_LIMIT - 1, OLD_LIMIT + 1),
        1 => rng.length(LINUX_LIMIT - 1, LINUX_LIMIT + 1),
        2..=6 => 0,
        _ => rng.length(1, 16),
    };
    let mut bytes = |length: usize| -> Vec<u8> {
        let byte = |rng: &mut Rng| rng.pick(b"abc =-\"\t\x80\xff");
        (0..length).map(|_| byte(rng)).collect()
    };
    let text = bytes(length);
    let init = if entry == TREE || length == 0 || length % 4 != 0 {
        vec![]
    } else if length > 32 {
        // the two together are around a limit
        bytes(3)
    } else {
        bytes(1 + length / 4)
    };
    let cut = if length > 32 { init.len() + 4 } else { 0 };
    let cut = if init.is_empty() { 0 } else { cut };
    (text[..length - cut].to_vec(), init)
}

fn ramdisk(rng: &mut Rng) -> Vec<u8> {
    let length = match rng.below(64) {
        0 => rng.length(4000, 5000),
        1..=8 => 0,
        9..=14 => 1,
        _ => rng.length(2, 24),
    };
    rng.bytes(length)
}

/// An empty ramdisk may be anywhere.
fn ramdisk_at(rng: &mut Rng, place: u64, entry: u64, is_empty: bool) -> u64 {
    let greatest = match entry {
        PAGE_32 | PAGE_64 => u32::MAX.into(),
        _ => u64::MAX,
    };
    match rng.below(4) {
        0 if is_empty => greatest - rng.below(2),
        1 if is_empty => rng.next() & greatest,
        _ => place,
    }
}

/// A tree with the line in it, and its offset.
fn tree(rng: &mut Rng, entry: u64, text: &[u8]) -> (Vec<u8>, u64) {
    if entry != TREE {
        return (vec![], 0);
    }
    let before = rng.length(0, 9);
    let mut tree = rng.bytes(before);
    tree.extend(text);
    tree.push(0);
    let after = rng.pick(&[0, 0, 1, 6]);
    tree.extend(rng.bytes(after));
    (tree, before as u64)
}

/// The caller's limit of a line: whether it is given, and the number.
fn limit(rng: &mut Rng, line: usize) -> (u64, u64) {
    let line = line as u64;
    match rng.below(16) {
        0 => (1, line.wrapping_sub(1)),
        1..=4 => (1, line),
        5 => (1, line + rng.below(3)),
        6 => (1, rng.pick(&[u64::MAX, 1 << 63, 1 << 32])),
        7 => (0, line.wrapping_sub(1)),
        _ => (0, rng.below(9)),
    }
}

/// A load of the loads' own generators with pieces after its guest memory: every refusal of a load is among them.
fn of_load(rng: &mut Rng) -> Boot {
    let (format, entry, load): (u64, u64, Load) = match rng.below(4) {
        0 => (1, rng.pick(&[PAGE_64, PVH]), elf::question(rng)),
        1 => (1, rng.pick(&[PAGE_64, PVH]), headers::question(rng)),
        2 => (2, rng.pick(&[PAGE_32, PAGE_64]), bzimage::question(rng)),
        _ => (3, TREE, arm64::question(rng)),
    };
    let memory = load.guest.len() as u64;
    let (tree, offset) = tree(rng, entry, b"a");
    let [line, ramdisk, data] = [memory + 1, memory + 3, memory + 5];
    let size = 5 + PAGE_SIZE;
    let flags =
        u64::from(load.options.offset.is_some()) + 2 * u64::from(load.options.highmem.is_some());
    let list = vec![
        format,
        flags,
        load.options.offset.unwrap_or(0),
        load.options.highmem.unwrap_or(0),
        entry,
        0,
        0,
        if entry == TREE { offset } else { line },
        ramdisk,
        data,
        0,
        0,
    ];
    let map = match memory {
        0 => vec![1, size],
        _ => vec![0, memory, memory + 1, size],
    };
    let rows = match entry {
        PAGE_32 | PAGE_64 => vec![0, memory + 1 + size, 1],
        PVH => vec![0, memory + 1 + size, 1, 0],
        _ => vec![],
    };
    let mut guest = load.guest;
    guest.extend(rng.bytes(1 + size as usize));
    Boot {
        map: Some(map),
        list,
        answers: ANSWERS,
        image: load.image,
        guest,
        text: b"a".to_vec(),
        init: vec![],
        ramdisk: rng.bytes(2),
        rows,
        tree,
    }
}

/// The starts and ends of all parts of a boot.
fn edges(boot: &Boot) -> Vec<u64> {
    let parts: Vec<Part> = pieces(boot).concat();
    let ends = |(address, size): &Part| [*address, address.wrapping_add(*size)];
    parts.iter().flat_map(ends).collect()
}

/// The size of the piece at an address of the list.
fn piece_size(boot: &Boot, index: usize) -> u64 {
    let [_, line, ramdisk, data] = pieces(boot);
    let piece = match index {
        at::LINE => line,
        at::RAMDISK => ramdisk,
        _ => data,
    };
    piece.first().map_or(0, |(_, size)| *size)
}

#[cfg(test)]
mod tests {
    use super::*;
    use crate::generate::over_map;
    use crate::over_second;
    use crate::question::Question;
    use std::collections::BTreeMap;

    /// How often each number is answered to so many questions, of which one in three is over a map; 0 is accepted.
    fn counts(questions: u64) -> BTreeMap<(u64, u8), u64> {
        let mut counts = BTreeMap::new();
        let mut rng = Rng::new(1);
        for index in 0..questions {
            let boot = question(&mut rng);
            let entry = boot.number(at::ENTRY);
            let mut asked = Question::Boot(boot);
            if index % 3 == 0 {
                asked = over_map(asked, &mut rng);
            }
            let numbers = over_second::answer(&asked).numbers();
            let number = numbers.first().copied().unwrap_or(0);
            *counts.entry((entry, number)).or_default() += 1;
        }
        counts
    }

    /// What each entry can be refused with beside what loads, lists and maps are.
    #[test]
    fn every_number_is_reached_and_half_is_accepted() {
        let questions = 16_000;
        let counts = counts(questions);
        let of_number = |number| {
            let of_entries = counts.iter().filter(|((_, of), _)| *of == number);
            of_entries.map(|(_, count)| count).sum::<u64>()
        };
        let accepted = of_number(0);
        assert!(
            (questions * 2 / 5..questions * 3 / 5).contains(&accepted),
            "{counts:?}"
        );
        let loads = (1..=14).chain(21..=24).chain(81..=88);
        let others = [31, 32, 61, 74, 75, 76, 77];
        for number in loads.chain(others).chain(91..=108) {
            assert!(of_number(number) > 2, "{number}: {counts:?}");
        }
        let of_pages = [0, 31, 32, 61, 74, 75, 91, 92, 96, 97, 98, 99].into_iter();
        let of_pages: Vec<u8> = of_pages.chain(100..=108).collect();
        let of_64_bits = [&of_pages[..], &[93]].concat();
        let of_pvh = [0, 31, 32, 61, 76, 91, 94, 96, 97].into_iter();
        let of_pvh = of_pvh.chain(100..=108).collect();
        let of_tree = vec![0, 31, 61, 91, 92, 95, 96, 97, 98, 101, 102, 105];
        for (entry, numbers) in [
            (PAGE_32, of_pages),
            (PAGE_64, of_64_bits),
            (PVH, of_pvh),
            (TREE, of_tree),
        ] {
            for number in numbers {
                let count = counts.get(&(entry, number)).copied().unwrap_or(0);
                assert!(count > 1, "{entry}: {number}: {counts:?}");
            }
        }
    }
}
