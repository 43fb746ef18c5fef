//! Every short line over the bytes that a reader of words looks at.

use super::line::texts;
use crate::question::Words;
use second::words;

/// The bytes that a reader of words looks at, and one that it does not.
const ALPHABET: &[u8] = b" \"=a";

pub fn words() -> impl Iterator<Item = Words> {
    each_line().chain(each_room())
}

/// All lines of up to 8 bytes, with a place more in each list than there are words.
fn each_line() -> impl Iterator<Item = Words> {
    texts(ALPHABET, 8).map(|text| {
        let places = [count(&text) + 1; 3];
        Words { places, text }
    })
}

/// All lines of up to 5 bytes, with as many places as there are words in each list, but one fewer or more in one of them.
fn each_room() -> impl Iterator<Item = Words> {
    texts(ALPHABET, 5).flat_map(|text| {
        (0..9).map(move |which| {
            let mut places = [count(&text); 3];
            places[which % 3] = (places[which % 3] + which as u32 / 3).saturating_sub(1);
            let text = text.clone();
            Words { places, text }
        })
    })
}

/// How many words a line has; of one that is refused, how many it would have without its last quote.
fn count(text: &[u8]) -> u32 {
    let words = words::words(text).or_else(|place| words::words(&text[..place]));
    words.map_or(0, |words| words.len() as u32)
}
