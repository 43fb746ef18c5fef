//! Lines put into guest memory.

use crate::generate::{guest_length, line};
use crate::question::LineLoad;
use crate::rng::Rng;

pub fn question(rng: &mut Rng) -> LineLoad {
    let count = rng.length(0, 3);
    let (calls, line) = line::calls_of(rng, count);
    let written = line.written().map_or(1, |text| text.len() as u64);
    let guest = if written > 256 && rng.one_in(2) {
        // a long line has room too
        written as usize + rng.length(0, 40)
    } else {
        guest_length(rng)
    };
    let address = match rng.below(8) {
        0 => rng.near(&[guest as u64, 0, u64::MAX]),
        1 => rng.next() >> rng.below(64),
        2 | 3 => rng.below(guest as u64 + 1),
        4 => rng.near(&[written.wrapping_neg()]),
        _ => rng.near(&[(guest as u64).wrapping_sub(written)]),
    };
    LineLoad {
        map: None,
        address,
        guest: rng.bytes(guest),
        calls,
    }
}
