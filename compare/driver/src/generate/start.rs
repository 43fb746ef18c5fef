//! Start blocks, written and checked: parts one behind the other, apart by little or overlapping by a byte, at the ends of guest memory and of 2^64; and
//! good blocks with a field spoilt.

use crate::answer::Answer;
use crate::over_second;
use crate::question::{Question, StartCheck, StartWrite};
use crate::rng::Rng;
use second::map::whole;
use second::start::{MODULE, RANGE};

const BLOCK_SIZE: u64 = 56;

pub fn question(rng: &mut Rng) -> Question {
    if rng.one_in(3) {
        Question::StartCheck(check(rng))
    } else {
        Question::StartWrite(write(rng))
    }
}

/// Rows of a kind, whose numbers fit their fields.
fn rows(rng: &mut Rng, widths: &[usize; 4]) -> Vec<u64> {
    let count = match rng.below(16) {
        0..=4 => 0,
        5 => rng.length(4, 12),
        _ => rng.length(1, 3),
    };
    let mut numbers = Vec::new();
    for _ in 0..count {
        let size = 64 - 8 * widths[2] as u64;
        numbers.extend([rng.next(), rng.next(), rng.next() >> size, 0]);
    }
    numbers
}

/// Cuts a list within a row, or spoils one of its numbers.
fn spoil(rng: &mut Rng, numbers: &mut Vec<u64>) {
    match rng.below(4) {
        0 => numbers.truncate(numbers.len().saturating_sub(rng.length(1, 3))),
        1 => numbers.push(0),
        _ if numbers.is_empty() => {}
        2 => {
            let last = 4 * rng.length(0, numbers.len() / 4 - 1) + 3;
            numbers[last] = rng.pick(&[1, 255, 1 << 32, u64::MAX]);
        }
        _ => {
            let kind = 4 * rng.length(0, numbers.len() / 4 - 1) + 2;
            numbers[kind] = rng.near(&[1 << 32]);
        }
    }
}

pub fn write(rng: &mut Rng) -> StartWrite {
    let mut modules = rows(rng, &MODULE);
    let mut ranges = rows(rng, &RANGE);
    let sizes = [
        BLOCK_SIZE,
        8 * modules.len() as u64,
        6 * ranges.len() as u64,
    ];
    let (mut places, length) = laid_out(rng, sizes);
    if rng.one_in(6) {
        let which = rng.length(0, 2);
        let ends = [0, 1, 2].map(|part| places[part] + sizes[part]);
        let anchors = [&places[..], &ends, &[length, u64::MAX]].concat();
        places[which] = rng.near(&anchors);
    }
    if rng.one_in(16) {
        let list = if rng.one_in(2) {
            &mut modules
        } else {
            &mut ranges
        };
        spoil(rng, list);
    }
    StartWrite {
        map: whole(length as usize),
        block: places[0],
        modules_at: places[1],
        ranges_at: places[2],
        flags: rng.next() as u32,
        command_line: rng.next(),
        rsdp: rng.next(),
        modules,
        ranges,
        guest: rng.bytes(length as usize),
    }
}

/// Where parts of these sizes lie, in some order, and how long guest memory is.
fn laid_out(rng: &mut Rng, sizes: [u64; 3]) -> ([u64; 3], u64) {
    let mut order = [0, 1, 2];
    for last in [2, 1] {
        order.swap(last, rng.length(0, last));
    }
    let mut places = [0; 3];
    let mut next = rng.below(4);
    for part in order {
        places[part] = next;
        let gap = match rng.below(24) {
            0 => u64::MAX,
            1..=12 => 0,
            _ => rng.below(9),
        };
        next = (next + sizes[part]).saturating_add_signed(gap as i64);
    }
    let length = match rng.below(12) {
        0 => next.saturating_sub(1),
        1..=6 => next,
        _ => next + rng.below(20),
    };
    (places, length)
}

/// Mostly a block that the second program has written, with something spoilt.
fn check(rng: &mut Rng) -> StartCheck {
    let written = write(rng);
    let mut check = StartCheck {
        map: written.map.clone(),
        block: written.block,
        guest: guest_of(&written),
    };
    let length = check.guest.len();
    match rng.below(12) {
        0..=2 => {}
        // an address or a count of the block
        3..=6 => {
            let (place, width) = rng.pick(&[(12, 4), (48, 4), (16, 8), (40, 8)]);
            let anchors = [0, length as u64, 1 << 27, 1 << 31, u64::MAX / 32];
            let number = rng.near(&anchors).to_le_bytes();
            put(&mut check.guest, written.block, place, &number[..width]);
        }
        7 => check.block = rng.near(&[written.block, length as u64, u64::MAX]),
        8 => {
            let field = rng.pick(&[0, 4, 52]);
            let place = field + rng.below(4);
            put(&mut check.guest, written.block, place, &[rng.byte()]);
        }
        // a byte of a list
        _ => {
            let lists = [
                (written.modules_at, 8 * written.modules.len() as u64),
                (written.ranges_at, 6 * written.ranges.len() as u64),
            ];
            let (at, size) = rng.pick(&lists);
            let place = rng.below(size + 1);
            let byte = rng.pick(&[0, 1, 128, 255]);
            put(&mut check.guest, at, place, &[byte]);
        }
    }
    check
}

/// Guest memory afterwards.
fn guest_of(write: &StartWrite) -> Vec<u8> {
    match over_second::answer(&Question::StartWrite(write.clone())) {
        Answer::StartWrite { guest, .. } => guest,
        _ => unreachable!("the answer is of the question's kind"),
    }
}

/// Bytes at a place behind an address, as far as guest memory goes.
fn put(guest: &mut [u8], address: u64, place: u64, bytes: &[u8]) {
    for (index, byte) in bytes.iter().enumerate() {
        let at = address.wrapping_add(place).wrapping_add(index as u64);
        if let Some(old) = guest.get_mut(at as usize) {
            *old = *byte;
        }
    }
}
