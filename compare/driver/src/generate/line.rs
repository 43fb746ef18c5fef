//! Sequences of line calls, biased to the edges of capacity and quoting.

use crate::generate::text;
use crate::question::Call;
use crate::rng::Rng;
use second::line::{Line, CAPACITY_LIMIT};

/// The greatest capacity.
const TOP: usize = CAPACITY_LIMIT as usize;

/// Follows the line as it grows, so that the next text can be made to fit exactly, or to miss by one.
struct Follower {
    line: Line,
    capacity: usize,
}

pub fn calls(rng: &mut Rng) -> Vec<Call> {
    let count = rng.length(1, 10);
    let (mut calls, _) = calls_of(rng, count);
    if rng.one_in(2) {
        calls.push(Call::AsCstring { room: TOP as u32 });
    }
    calls
}

/// Some calls on a line, the first of which makes it, and the line after them.
pub fn calls_of(rng: &mut Rng, count: usize) -> (Vec<Call>, Line) {
    let mut follower = Follower {
        line: Line::new(1).expect("1 is a capacity"),
        capacity: 1,
    };
    let mut calls = Vec::with_capacity(count + 1);
    let first = if rng.one_in(4) {
        try_from(rng)
    } else {
        let capacity = capacity(rng);
        Call::New { capacity }
    };
    follower.follow(&first);
    calls.push(first);
    for _ in 0..count {
        let call = follower.next(rng);
        follower.follow(&call);
        calls.push(call);
    }
    (calls, follower.line)
}

fn capacity(rng: &mut Rng) -> u32 {
    match rng.below(64) {
        0 | 1 => rng.pick(&[0, TOP as u32, TOP as u32 + 1, u32::MAX]),
        2 => rng.length(200, TOP / 4) as u32,
        3 => rng.length(TOP / 4, TOP) as u32,
        4..=15 => rng.length(40, 200) as u32,
        16..=23 => rng.length(1, 6) as u32,
        _ => rng.length(2, 40) as u32,
    }
}

fn try_from(rng: &mut Rng) -> Call {
    let mut text = text::whole(rng);
    if rng.one_in(64) {
        fill_up(rng, &mut text);
    }
    let needed = Line::try_from(&text, CAPACITY_LIMIT).map_or(TOP, |line| line.counted_size());
    let capacity = if rng.one_in(3) {
        capacity(rng)
    } else {
        about(rng, needed) as u32
    };
    Call::TryFrom { capacity, text }
}

/// Lengthens a text to the longest that a line holds, or one or two off.
fn fill_up(rng: &mut Rng, text: &mut Vec<u8>) {
    let length = about(rng, TOP - 1);
    let place = rng.length(0, text.len());
    let more = length.saturating_sub(text.len());
    text.splice(place..place, std::iter::repeat_n(b'x', more));
}

impl Follower {
    fn follow(&mut self, call: &Call) {
        // a refused call leaves the line as it was
        let _ = match call {
            Call::New { capacity } => self.replace(Line::new((*capacity).into()), *capacity),
            Call::TryFrom { capacity, text } => {
                self.replace(Line::try_from(text, (*capacity).into()), *capacity)
            }
            Call::InsertStr(text) => self.line.insert_str(text),
            Call::InsertInitArgs(text) => self.line.insert_init_args(text),
            Call::Insert { key, value } => self.line.insert(key, value),
            Call::InsertMultiple { key, ends, values } => {
                self.line.insert_multiple(key, ends, values)
            }
            Call::AddDevice {
                size,
                address,
                irq,
                id,
            } => self.line.add_virtio_mmio_device(*size, *address, *irq, *id),
            Call::AsCstring { .. } | Call::Keep | Call::IsEqual => Ok(()),
        };
    }

    fn replace(
        &mut self,
        made: Result<Line, second::Refusal>,
        capacity: u32,
    ) -> Result<(), second::Refusal> {
        self.line = made?;
        self.capacity = capacity as usize;
        Ok(())
    }

    /// How many bytes a text may have to fill the line when `more` bytes come with it, or one or two off.
    fn fitting(&self, rng: &mut Rng, more: usize) -> usize {
        let room = self.capacity - self.line.counted_size().min(self.capacity);
        let fits = room.saturating_sub(more);
        match rng.below(4) {
            0 | 1 => rng.length(0, 8),
            2 => about(rng, fits),
            // where a space or a separator has to be paid for, too
            _ => {
                let less = rng.pick(&[1, 4]);
                about(rng, fits.saturating_sub(less))
            }
        }
    }

    fn next(&self, rng: &mut Rng) -> Call {
        match rng.below(32) {
            0..=6 => {
                let length = self.fitting(rng, 1);
                Call::InsertStr(text::slug(rng, length))
            }
            7..=12 => {
                let length = self.fitting(rng, 4);
                Call::InsertInitArgs(text::slug(rng, length))
            }
            13..=16 => {
                let length = rng.length(0, 4);
                let key = text::key(rng, length);
                let length = self.fitting(rng, key.len() + 2);
                let value = text::value(rng, length);
                Call::Insert { key, value }
            }
            17..=20 => self.insert_multiple(rng),
            21 | 22 => device(rng),
            23..=26 => self.as_cstring(rng),
            27 => Call::Keep,
            28 | 29 => Call::IsEqual,
            30 => try_from(rng),
            _ => {
                let capacity = capacity(rng);
                Call::New { capacity }
            }
        }
    }

    fn insert_multiple(&self, rng: &mut Rng) -> Call {
        let length = rng.length(0, 3);
        let key = text::key(rng, length);
        let mut values = Vec::new();
        let mut ends = Vec::new();
        let count = rng.below(5);
        let mut fitting = self.fitting(rng, key.len() + 2 + count as usize);
        for left in (1..=count).rev() {
            let length = if left == 1 {
                fitting
            } else {
                rng.length(0, 3).min(fitting)
            };
            fitting -= length;
            values.extend(text::value(rng, length));
            ends.push(values.len() as u32);
        }
        if rng.one_in(6) {
            break_list(rng, &mut ends, &mut values);
        }
        Call::InsertMultiple { key, ends, values }
    }

    fn as_cstring(&self, rng: &mut Rng) -> Call {
        let room = match rng.below(4) {
            0 => rng.length(0, 7),
            1 => TOP,
            _ => about(rng, self.line.counted_size()),
        };
        let room = room as u32;
        Call::AsCstring { room }
    }
}

/// At most two away.
fn about(rng: &mut Rng, length: usize) -> usize {
    (length + rng.length(0, 4)).saturating_sub(2)
}

/// Puts a list of ends in disorder, or has it end elsewhere than its buffer.
fn break_list(rng: &mut Rng, ends: &mut [u32], values: &mut Vec<u8>) {
    match rng.below(4) {
        0 => values.push(b'a'),
        1 => {
            values.pop();
        }
        2 => ends.reverse(),
        _ => {
            if let Some(last) = ends.last_mut() {
                *last = rng.pick(&[0, *last + 1, u32::MAX]);
            }
        }
    }
}

fn device(rng: &mut Rng) -> Call {
    let number = |rng: &mut Rng| match rng.below(6) {
        0 => {
            let power = 1 << rng.below(64);
            rng.near(&[power])
        }
        1 => rng.below(2000) << rng.pick(&[0, 9, 10, 19, 20, 29, 30, 40]),
        2 => rng.next() >> rng.below(64),
        3 => 1 << rng.below(64),
        4 => rng.near(&[0, u64::MAX]),
        _ => rng.below(20),
    };
    let size = number(rng);
    let address = number(rng);
    let irq = number(rng) as u32;
    let id = rng.one_in(2).then(|| number(rng) as u32);
    Call::AddDevice {
        size,
        address,
        irq,
        id,
    }
}

#[cfg(test)]
mod tests {
    use super::*;

    /// What a line of the greatest capacity is after a call that the generator makes.
    fn after_a_call(rng: &mut Rng) -> (Call, Line) {
        let mut follower = Follower {
            line: Line::new(CAPACITY_LIMIT).unwrap(),
            capacity: TOP,
        };
        let call = follower.next(rng);
        follower.follow(&call);
        (call, follower.line)
    }

    /// Lines of the greatest capacity are filled up to their last byte, by calls and by a whole text, and one byte more is tried.
    #[test]
    fn the_greatest_capacity_is_reached() {
        let rng = &mut Rng::new(1);
        let reached =
            |mut is_reached: Box<dyn FnMut() -> bool + '_>| (0..20_000).any(|_| is_reached());
        assert!(reached(Box::new(|| capacity(rng) as usize == TOP)));
        assert!(reached(Box::new(|| capacity(rng) as usize == TOP + 1)));
        assert!(reached(Box::new(
            || after_a_call(rng).1.counted_size() == TOP
        )));
        assert!(reached(Box::new(|| match after_a_call(rng) {
            (Call::InsertStr(text), line) => text.len() == TOP && line.counted_size() == 1,
            _ => false,
        })));
        let made = |call: Call| match call {
            Call::TryFrom { capacity, text } => {
                Line::try_from(&text, capacity.into()).map(|line| (line.counted_size(), text.len()))
            }
            _ => unreachable!("a making from a text"),
        };
        assert!(reached(Box::new(|| {
            matches!(made(try_from(rng)), Ok((size, _)) if size == TOP)
        })));
        assert!(reached(Box::new(|| match try_from(rng) {
            Call::TryFrom { capacity, text } => capacity as usize == TOP && text.len() == TOP,
            _ => false,
        })));
    }
}
