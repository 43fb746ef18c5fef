//! Lines whose words are read back, biased to quotes, runs of spaces and lists that just fit.

use crate::generate::line;
use crate::question::Words;
use crate::rng::Rng;
use second::line::CAPACITY_LIMIT;
use second::words;

pub fn question(rng: &mut Rng) -> Words {
    let text = text(rng);
    let count = words::words(&text).map_or(1, |words| words.len()) as u32;
    let places = [(); 3].map(|()| match rng.below(16) {
        0 => rng.length(0, 3) as u32,
        1 => count.saturating_sub(1),
        2 | 3 => count + rng.length(1, 3) as u32,
        _ => count,
    });
    Words { places, text }
}

fn text(rng: &mut Rng) -> Vec<u8> {
    match rng.below(64) {
        0 => built(rng),
        1 => {
            let longest = CAPACITY_LIMIT as usize;
            let length = rng.pick(&[longest - 1, longest, longest / 2]);
            mixed(rng, length)
        }
        2..=7 => {
            let length = rng.length(40, 400);
            mixed(rng, length)
        }
        _ => {
            let length = rng.length(0, 40);
            mixed(rng, length)
        }
    }
}

/// A line as calls build it, without its zero.
fn built(rng: &mut Rng) -> Vec<u8> {
    let count = rng.length(1, 8);
    let (_, line) = line::calls_of(rng, count);
    let mut text = line.written().unwrap_or_default();
    text.pop();
    text
}

/// Bytes of which more or fewer are spaces, quotes and equals signs; a zero and any other byte are seldom. A line of quotes alone, or of
/// single bytes between spaces, comes up too.
fn mixed(rng: &mut Rng, length: usize) -> Vec<u8> {
    let alphabet = rng.pick::<&[u8]>(&[
        b" \"=a",
        b" \"=abcd",
        b" =abcdefgh",
        b" \"",
        b"\"",
        b" a",
        b"\"a",
        b"=a ",
    ]);
    let mut text: Vec<u8> = (0..length).map(|_| rng.pick(alphabet)).collect();
    if length > 0 && rng.one_in(8) {
        let place = rng.length(0, length - 1);
        text[place] = rng.byte();
    }
    if length > 1 && alphabet == b" a" && rng.one_in(2) {
        for (place, byte) in text.iter_mut().enumerate() {
            *byte = if place % 2 == 0 { b'a' } else { b' ' };
        }
    }
    text
}

#[cfg(test)]
mod tests {
    use super::*;

    /// The longest lines are reached with the most quotes and with the most words.
    #[test]
    fn the_longest_lines_are_reached() {
        let longest = CAPACITY_LIMIT as usize;
        let rng = &mut Rng::new(1);
        let texts: Vec<_> = (0..4000).map(|_| question(rng)).collect();
        let is_long = |asked: &&Words| asked.text.len() == longest;
        let mut long = texts.iter().filter(is_long);
        assert!(long
            .clone()
            .any(|asked| asked.text.iter().all(|byte| *byte == b'"')));
        assert!(long.any(|asked| asked.places == [longest as u32 / 2; 3]
            && words::words(&asked.text).is_ok_and(|words| words.len() == longest / 2)));
    }
}
