//! Jobs of the desk program: good ones, and tables that break a rule by one number, one row or one byte.

use crate::generate::{bzimage, elf, steps, text};
use crate::rng::Rng;
use second::desk::MOST;

/// A body and its kind.
pub type Body = (u32, Vec<u8>);

/// A job whose table is right.
pub fn job(bodies: &[Body]) -> Vec<u8> {
    let mut bytes = (bodies.len() as u32).to_le_bytes().to_vec();
    let mut next = 4 + 12 * bodies.len();
    for (kind, body) in bodies {
        for number in [*kind, next as u32, body.len() as u32] {
            bytes.extend(number.to_le_bytes());
        }
        next += body.len();
    }
    bodies.iter().for_each(|(_, body)| bytes.extend(body));
    bytes
}

pub fn question(rng: &mut Rng) -> Vec<u8> {
    let mut bodies = vec![image(rng)];
    if rng.one_in(2) {
        let place = rng.length(0, 1);
        bodies.insert(place, (3, text::whole(rng)));
    }
    if rng.one_in(16) {
        bodies.push(image(rng));
    }
    if rng.one_in(24) {
        bodies.swap_remove(0);
    }
    let mut bytes = job(&bodies);
    if rng.one_in(3) {
        spoil(rng, &mut bytes);
    }
    bytes
}

fn image(rng: &mut Rng) -> Body {
    match rng.below(6) {
        0 => (1, elf::question(rng).image),
        1 => (2, bzimage::question(rng).image),
        2 => (rng.below(5) as u32, vec![]),
        3 => (2, steps::good_bzimage(rng).image),
        _ => (1, steps::good_elf(rng).image),
    }
}

/// Changes a number of the table by one or to any other, cuts the job, or lengthens it.
fn spoil(rng: &mut Rng, bytes: &mut Vec<u8>) {
    match rng.below(6) {
        0 => bytes.truncate(rng.length(0, bytes.len())),
        1 => bytes.push(rng.byte()),
        2 => bytes.resize(MOST + rng.length(0, 2), rng.byte()),
        _ => {
            let places = (bytes.len() / 4).min(7);
            if places == 0 {
                return;
            }
            let place = 4 * rng.length(0, places - 1);
            let number = &mut bytes[place..place + 4];
            let old = u32::from_le_bytes([number[0], number[1], number[2], number[3]]);
            let new = match rng.below(4) {
                0 => old.wrapping_add(1),
                1 => old.wrapping_sub(1),
                2 => old.wrapping_neg(),
                _ => rng.below(4) as u32,
            };
            number.copy_from_slice(&new.to_le_bytes());
        }
    }
}
