//! The words of long lines: how long the library takes beside a plain Rust reader, and that its time grows with the length alone. The
//! published crate does not read a line back.

use crate::ffi::call;
use crate::rounds::{interleaved, ratio, spread};
use std::hint::black_box;
use std::time::{Duration, Instant};

/// A line that is read, under the name that a profiler asks for it by.
pub struct Line {
    pub name: &'static str,
    title: &'static str,
    text: Vec<u8>,
}

/// Places for the words of the longest of these lines.
const PLACES: usize = 8000;

const ROUNDS: usize = 60;
const SAMPLE: Duration = Duration::from_millis(20);

/// Starts, ends and splits.
pub struct Lists([Vec<u64>; 3]);

/// Who reads: the count of words, their places in the lists.
type Reader = fn(&[u8], &mut Lists) -> u64;

/// In the order of the columns.
pub const READERS: [(&str, Reader); 2] = [("plain", plain), ("library", library)];

pub fn lines() -> Vec<Line> {
    let line = |name, title, text| Line { name, title, text };
    vec![
        line("pairs1005", "1,005 bytes of pairs", pairs(1_005)),
        line("pairs16005", "16,005 bytes of pairs", pairs(16_005)),
        line(
            "letters16000",
            "16,000 bytes, every second a space",
            b"a ".repeat(8_000),
        ),
        line("quotes16000", "16,000 quotes", b"\"".repeat(16_000)),
    ]
}

/// A line of pairs, of so many bytes.
pub fn pairs(length: usize) -> Vec<u8> {
    b"name=\"a value\" ".repeat(length.div_ceil(15))[..length].to_vec()
}

impl Lists {
    pub fn new() -> Lists {
        Lists([(); 3].map(|()| vec![0; PLACES]))
    }
}

/// Reads a line so often.
pub fn repeat(reader: Reader, line: &Line, lists: &mut Lists, repetitions: u32) -> Duration {
    let start = Instant::now();
    for _ in 0..repetitions {
        black_box(reader(black_box(&line.text), lists));
    }
    start.elapsed()
}

/// Prints the table.
pub fn print() {
    let lines = lines();
    println!("\nThe words of a line:\n");
    println!("| line | plain | library / plain | library, per byte, to the first row's |");
    println!("|---|---|---|---|");
    let mut first = None;
    for line in &lines {
        check(line);
        let times = times(line);
        let of_byte = spread(times[1].clone()).median / line.text.len() as f64;
        let first = *first.get_or_insert(of_byte);
        let plain = spread(times[0].clone()).median * 1e6;
        let against = ratio(&times[1], &times[0]);
        println!(
            "| {} | {plain:.0} µs | **{:.2}** ({:.2} to {:.2}) | {:.2} |",
            line.title,
            against.median,
            against.low,
            against.high,
            of_byte / first
        );
    }
}

fn times(line: &Line) -> Vec<Vec<f64>> {
    let mut lists = Lists::new();
    let mut sample =
        |which: usize, repetitions| repeat(READERS[which].1, line, &mut lists, repetitions);
    let repetitions = [0, 1].map(|which| {
        sample(which, 1);
        let once = sample(which, 1).as_nanos().max(1);
        SAMPLE.as_nanos().div_ceil(once) as u32
    });
    interleaved(2, ROUNDS, |which| {
        sample(which, repetitions[which]) / repetitions[which]
    })
}

/// Both give the same count and the same places.
fn check(line: &Line) {
    let told = READERS.map(|(_, reader)| {
        let mut lists = Lists::new();
        (reader(&line.text, &mut lists), lists.0)
    });
    assert!(told[0] == told[1], "{}: the two differ", line.title);
}

pub fn library(line: &[u8], Lists([starts, ends, splits]): &mut Lists) -> u64 {
    let mut out = [0];
    let number = call!(rekusoyen_raw_line_words(
        in line, mut starts, mut ends, mut splits, mut &mut out
    ));
    assert_eq!(number, 0, "a good line");
    out[0]
}

/// One pass that pushes the words onto a list, and one that copies their places.
fn plain(line: &[u8], Lists([starts, ends, splits]): &mut Lists) -> u64 {
    let mut words: Vec<[usize; 3]> = Vec::new();
    let mut at = 0;
    while at < line.len() {
        if line[at] == b' ' {
            at += 1;
            continue;
        }
        let (start, mut split, mut quoted) = (at, None, false);
        while at < line.len() && (quoted || line[at] != b' ') {
            match line[at] {
                b'"' => quoted = !quoted,
                b'=' if !quoted => split = split.or(Some(at)),
                _ => {}
            }
            at += 1;
        }
        assert!(!quoted, "a good line");
        words.push([start, at, split.unwrap_or(at)]);
    }
    for (number, [start, end, split]) in words.iter().enumerate() {
        starts[number] = *start as u64;
        ends[number] = *end as u64;
        splits[number] = *split as u64;
    }
    words.len() as u64
}

#[cfg(test)]
mod tests {
    use super::*;

    #[test]
    fn both_read_the_same_words() {
        for line in lines() {
            assert!(line.text.len() <= 16_384);
            check(&line);
        }
    }
}
