//! Boot pages, built and read.

use crate::question::{PageBuild, PageRead, Question};
use crate::rng::Rng;

const SIZE: usize = 4096;
const MOST_ROWS: usize = 128;
const COUNT: usize = 0x1e8;

pub fn question(rng: &mut Rng) -> Question {
    if rng.one_in(3) {
        Question::PageRead(read(rng))
    } else {
        Question::PageBuild(build(rng))
    }
}

fn size(rng: &mut Rng) -> usize {
    match rng.below(32) {
        0 => 0,
        1 => rng.pick(&[SIZE - 1, SIZE + 1, 1, 2 * SIZE]),
        _ => SIZE,
    }
}

fn build(rng: &mut Rng) -> PageBuild {
    let count = match rng.below(64) {
        0..=2 => rng.length(MOST_ROWS - 1, MOST_ROWS + 1),
        3..=6 => rng.length(9, 40),
        _ => rng.length(0, 8),
    };
    let mut numbers = match rng.below(4) {
        0 => rows_anywhere(rng, count),
        _ => rows_in_gaps(rng, count),
    };
    // a number of the list is spoilt, or the list cut within a row
    match rng.below(24) {
        0 => numbers.truncate(numbers.len().saturating_sub(rng.length(1, 2))),
        1 => numbers.push(rng.below(3)),
        2 | 3 if !numbers.is_empty() => {
            let kind = 3 * rng.length(0, numbers.len() / 3 - 1) + 2;
            numbers[kind] = rng.near(&[1 << 32]);
        }
        _ => {}
    }
    let size = size(rng);
    PageBuild {
        command_line: rng.next() as u32,
        ramdisk: rng.next() as u32,
        ramdisk_size: rng.next() as u32,
        header: rng.bytes(123),
        numbers,
        page: vec![rng.byte(); size],
    }
}

/// Rows one behind the other, with gaps that are mostly small and may be one byte too short, in some order.
fn rows_in_gaps(rng: &mut Rng, count: usize) -> Vec<u64> {
    let mut next = if rng.one_in(4) {
        rng.near(&[0u64.wrapping_sub(count as u64 * 8)])
    } else {
        rng.below(16)
    };
    let mut rows = Vec::new();
    for _ in 0..count {
        let size = if rng.one_in(40) {
            0
        } else {
            rng.length(1, 8) as u64
        };
        rows.push([next, size, rng.below(5)]);
        let gap = match rng.below(24) {
            0 => u64::MAX,
            1..=12 => 0,
            _ => rng.below(4),
        };
        next = next.wrapping_add(size).wrapping_add(gap);
    }
    for last in (1..rows.len()).rev() {
        if rng.one_in(2) {
            rows.swap(last, rng.length(0, last));
        }
    }
    rows.concat()
}

/// Rows around the ends of the others and of 2^64.
fn rows_anywhere(rng: &mut Rng, count: usize) -> Vec<u64> {
    let mut anchors = vec![0, u64::MAX, 1 << 32];
    let mut numbers = Vec::new();
    for _ in 0..count {
        let address = rng.near(&anchors);
        let end = rng.near(&anchors);
        let size = match rng.below(4) {
            0 => end.wrapping_sub(address),
            1 => address.wrapping_neg().wrapping_sub(rng.below(2)),
            _ => rng.length(0, 5) as u64,
        };
        numbers.extend([address, size, rng.next() >> 32]);
        anchors.extend([address, address.wrapping_add(size)]);
    }
    numbers
}

fn read(rng: &mut Rng) -> PageRead {
    let size = size(rng);
    let place = match rng.below(4) {
        0 => rng.length(0, SIZE),
        _ => rng.length(COUNT - 8, COUNT),
    };
    let length = rng.length(0, 700).min(SIZE.saturating_sub(place));
    let mut bytes = rng.bytes(length);
    let count = rng.near(&[0, 1, 8, 127]) as u8;
    if let Some(byte) = COUNT.checked_sub(place).and_then(|at| bytes.get_mut(at)) {
        *byte = count;
    }
    PageRead {
        length: size as u32,
        fill: rng.pick(&[0, 1, 128, 129, 255, 7]),
        place: place as u32,
        bytes,
    }
}
