//! Maps over the guest of a question: good ones with their edges at and around the first and last bytes of what is written, and bad ones
//! of every kind.

use crate::parts::{parts, Part};
use crate::question::Question;
use crate::rng::Rng;

/// The most ranges of a good map.
const RANGES: usize = 16;

/// The question over a random map.
pub fn over_map(question: Question, rng: &mut Rng) -> Question {
    let length = question.guest().len() as u64;
    let parts: Vec<Part> = parts(&question).into_iter().take(RANGES).collect();
    // a boot has so many parts that ranges at random seldom have them all
    let is_boot = matches!(question, Question::Boot(_));
    let mut numbers = if rng.one_in(2) || is_boot && !rng.one_in(4) {
        around_parts(rng, &parts, length)
    } else {
        with_random_edges(rng, &parts, length)
    };
    if rng.one_in(4) {
        spoil(rng, &mut numbers, length);
    }
    question.over(Some(numbers))
}

/// Ranges that hold every part that the guest has, then perhaps one edge a byte off.
fn around_parts(rng: &mut Rng, parts: &[Part], length: u64) -> Vec<u64> {
    let mut ranges: Vec<(u64, u64)> = Vec::new();
    for (address, size) in parts {
        let margin = |rng: &mut Rng| rng.pick(&[0, 0, 0, 1, 2, 5]);
        let start = address.saturating_sub(margin(rng));
        let end = address.saturating_add(*size).saturating_add(margin(rng));
        if start < end.min(length) {
            ranges.push((start, end.min(length)));
        }
    }
    for _ in 0..rng.pick(&[0, 1, 1, 2, 4]) {
        let start = rng.below(length + 1);
        let end = length.min(start + rng.below(4));
        ranges.extend((start < end).then_some((start, end)));
    }
    ranges.sort_unstable();
    let mut edges: Vec<u64> = Vec::new();
    for (start, end) in ranges {
        match edges.last_mut() {
            // one that touches the range before it, or overlaps it, lengthens it
            Some(last) if start <= *last => *last = end.max(*last),
            _ => edges.extend([start, end]),
        }
    }
    if !edges.is_empty() && rng.one_in(2) {
        let which = rng.below(edges.len() as u64) as usize;
        edges[which] = edges[which].wrapping_add(rng.pick(&[1, u64::MAX]));
    }
    numbers(&edges)
}

/// Ranges between edges of which many are near the first or last byte of a part.
fn with_random_edges(rng: &mut Rng, parts: &[Part], length: u64) -> Vec<u64> {
    let ends = |(address, size): &Part| [*address, address.wrapping_add(*size)];
    let mut anchors: Vec<u64> = parts.iter().flat_map(ends).collect();
    anchors.extend([0, length]);
    let count = 2 * rng.pick(&[0, 1, 1, 2, 2, 2, 3, 3, 4, 15, 16, 16, 17]);
    let mut edges = Vec::new();
    for _ in 0..4 * count {
        let edge = match rng.below(3) {
            0 => rng.near(&anchors),
            _ => rng.below(length + 1),
        };
        if edge <= length && edges.len() < count && !edges.contains(&edge) {
            edges.push(edge);
        }
    }
    edges.sort_unstable();
    edges.truncate(edges.len() / 2 * 2);
    numbers(&edges)
}

/// Starts and sizes from starts and ends.
fn numbers(edges: &[u64]) -> Vec<u64> {
    let pairs = edges.chunks_exact(2);
    let pairs = pairs.flat_map(|pair| [pair[0], pair[1].wrapping_sub(pair[0])]);
    pairs.collect()
}

/// One thing wrong with a map: in most cases it becomes a bad one.
fn spoil(rng: &mut Rng, numbers: &mut Vec<u64>, length: u64) {
    let count = numbers.len() / 2;
    let which = 2 * rng.below(count.max(1) as u64) as usize;
    match rng.below(12) {
        0 => numbers.push(rng.below(length + 2)),
        1 => {
            numbers.pop();
        }
        // seventeen ranges, or many more numbers than any map has
        2 => lengthen(rng, numbers, 34, length),
        3 => {
            let count = rng.pick(&[33, 35, 36, 64, 254, 255]);
            lengthen(rng, numbers, count, length);
        }
        4 => numbers.extend([rng.near(&[length]), rng.pick(&[0, 1, 2])]),
        _ if count == 0 => numbers.extend([0, length + 1]),
        // an empty range; one that passes the slice; one whose end passes 64 bits
        5 => numbers[which + 1] = 0,
        6 => numbers[which + 1] = length.wrapping_sub(numbers[which]).wrapping_add(1),
        7 => numbers[which + 1] = rng.near(&[numbers[which].wrapping_neg()]),
        8 => numbers[which] = rng.near(&[u64::MAX, length]),
        // two that fall, or are the same
        9 => {
            let other = 2 * rng.below(count as u64) as usize;
            numbers.swap(which, other);
            numbers.swap(which + 1, other + 1);
        }
        _ if which + 2 >= numbers.len() => numbers.extend_from_within(which..which + 2),
        // two that touch, or overlap by a byte
        kind => {
            let gap = numbers[which + 2].wrapping_sub(numbers[which]);
            numbers[which + 1] = gap.wrapping_add(kind - 10);
        }
    }
}

/// More numbers, until there are so many: ranges of a byte, each behind the one before it as long as the slice goes.
fn lengthen(rng: &mut Rng, numbers: &mut Vec<u64>, count: usize, length: u64) {
    if rng.one_in(2) {
        numbers.clear();
    }
    while numbers.len() < count {
        let last = numbers.chunks_exact(2).last();
        let start = last.map_or(0, |last| last[0].wrapping_add(last[1]).wrapping_add(1));
        numbers.extend([start % (length + 1), 1]);
    }
    numbers.truncate(count);
}

#[cfg(test)]
mod tests {
    use super::*;
    use crate::generate::random;
    use crate::over_second;
    use crate::question::Area;
    use std::collections::BTreeMap;

    /// Every number that a map has a say in is reached, and many questions are accepted over several ranges.
    #[test]
    fn maps_of_each_kind_are_asked() {
        for (area, refused) in [
            (Area::Elf, 10),
            (Area::Bzimage, 24),
            (Area::LineLoad, 32),
            (Area::Arm64, 87),
        ] {
            let mut counts: BTreeMap<u8, usize> = BTreeMap::new();
            let (mut accepted, mut sixteen) = (0, 0);
            for seed in 0..4000 {
                let mut rng = Rng::new(seed);
                let question = over_map(random(area, &mut rng), &mut rng);
                let numbers = over_second::answer(&question).numbers();
                let ranges = question.map().expect("a map").len() / 2;
                accepted += usize::from(ranges > 1 && !numbers.iter().any(|n| *n < 41 || *n == 77));
                sixteen += usize::from(ranges == 16 && !numbers.contains(&77));
                for number in numbers {
                    *counts.entry(number).or_default() += 1;
                }
            }
            let least = [counts[&refused], counts[&77], accepted, 4 * sixteen];
            assert!(*least.iter().min().unwrap() > 150, "{area:?}: {least:?}");
        }
    }
}
