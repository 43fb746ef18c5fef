//! Texts that go into a line.

use crate::rng::Rng;

/// Bytes at the limits of what is blank, printable or special.
const EDGES: [u8; 20] = [
    0, 1, 8, 9, 10, 11, 12, 13, 14, 31, 32, 33, b'"', b',', b'-', b'=', 125, 126, 127, b'\\',
];

/// Bytes that no test refuses.
const PLAIN: &[u8] = b"abcz019_./:@-,!~";

const BLANKS: [u8; 6] = [9, 10, 11, 12, 13, 32];

/// A slug of about `length` bytes: mostly plain, with blanks around it now and then, and seldom a byte that is refused.
pub fn slug(rng: &mut Rng, length: usize) -> Vec<u8> {
    let mut text: Vec<u8> = (0..length).map(|_| rng.pick(PLAIN)).collect();
    if length > 0 && rng.one_in(3) {
        for _ in 0..rng.length(1, 3) {
            let place = rng.length(0, length - 1);
            text[place] = rng.pick(&[b' ', b'"', b'=', b'-']);
        }
    }
    if rng.one_in(4) {
        blanks_around(rng, &mut text);
    }
    if !text.is_empty() && rng.one_in(10) {
        let place = rng.length(0, text.len() - 1);
        text[place] = rng.pick(&EDGES);
    }
    high_byte(rng, &mut text);
    text
}

fn blanks_around(rng: &mut Rng, text: &mut Vec<u8>) {
    for _ in 0..rng.below(3) {
        text.push(rng.pick(&BLANKS));
    }
    for _ in 0..rng.below(3) {
        text.insert(0, rng.pick(&BLANKS));
    }
}

/// A byte above 127, which only the rules and not the published crate speak of.
fn high_byte(rng: &mut Rng, text: &mut [u8]) {
    if !text.is_empty() && rng.one_in(1000) {
        let place = rng.length(0, text.len() - 1);
        text[place] = 128 + rng.below(128) as u8;
    }
}

pub fn key(rng: &mut Rng, length: usize) -> Vec<u8> {
    let mut text: Vec<u8> = (0..length).map(|_| rng.pick(PLAIN)).collect();
    if length > 0 && rng.one_in(5) {
        for _ in 0..rng.length(1, 2) {
            let place = rng.length(0, length - 1);
            text[place] = rng.pick(&EDGES);
        }
    }
    high_byte(rng, &mut text);
    text
}

/// A value: plain, quoted, with a quote at one end, or with quotes and spaces anywhere.
pub fn value(rng: &mut Rng, length: usize) -> Vec<u8> {
    let mut text = key(rng, length);
    if length == 0 {
        return text;
    }
    if rng.one_in(3) {
        let place = rng.length(0, length - 1);
        text[place] = rng.pick(b" \"");
    }
    match rng.below(8) {
        0 | 1 => {
            text[0] = b'"';
            text[length - 1] = b'"';
        }
        2 => text[0] = b'"',
        3 => text[length - 1] = b'"',
        _ => {}
    }
    text
}

/// A whole line of some pieces: words, quotes, blanks, and separators in and out of quotes.
pub fn whole(rng: &mut Rng) -> Vec<u8> {
    let mut text = Vec::new();
    for _ in 0..rng.below(8) {
        match rng.below(12) {
            0..=2 => text.extend(b" -- "),
            3 => text.extend(rng.pick::<&[u8]>(&[b"--", b" --", b"-- ", b" - - ", b" --- "])),
            4 | 5 => text.push(b'"'),
            6 => text.push(rng.pick(&BLANKS)),
            7 => text.push(rng.pick(&EDGES)),
            _ => {
                let length = rng.length(1, 5);
                text.extend(key(rng, length));
            }
        }
    }
    high_byte(rng, &mut text);
    text
}
