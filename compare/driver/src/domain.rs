//! Where the published crate is compared: the domain of sizes and shapes in which the rules promise to equal it. Each function
//! here leaves something out, and says why. The second program is compared on everything.

use crate::answer::Answer;
use crate::over_second;
use crate::parts::{self, Part};
use crate::question::{Call, Load, Question, StartWrite};
use second::fields::range;
use second::line::CAPACITY_LIMIT;
use second::map::Map;
use std::ops::Range;

/// Whether the crate is asked at all.
pub fn asks_crate(question: &Question) -> bool {
    match question {
        Question::Elf(_) => has_regions(question),
        Question::Note(walk) => !place_cannot_be_moved(walk.place),
        Question::Bzimage(load) => has_regions(question) && !kernel_is_empty(load),
        Question::Line(calls) => !has_high_bytes(calls),
        Question::LineLoad(load) => has_regions(question) && !has_high_bytes(&load.calls),
        // the crate does not read a line back, and its own loader of arm64 Images has other rules
        Question::Words(_) | Question::Arm64(_) => false,
        Question::PageBuild(_) | Question::PageRead(_) => !is_refused(question),
        Question::StartWrite(write) => {
            has_regions(question) && !is_refused(question) && !ends_memory(write)
        }
        // the crate does not check a block
        Question::StartCheck(_) => false,
        // the crate has no load in steps
        Question::Steps(_) => false,
        // nor a desk program, nor a whole boot
        Question::Job(_) | Question::Boot(_) => false,
    }
}

/// The crate has structs for the boot page and the start block and nothing that fills or tests them: it refuses no page, and of a start block
/// what has no room, part by part as it writes.
fn is_refused(question: &Question) -> bool {
    !over_second::answer(question).numbers().is_empty()
}

/// The crate asks that the byte behind the block and the one behind the memory map lie in guest memory too, and so does one of no rows: a part at
/// the very end of a range is refused there.
fn ends_memory(write: &StartWrite) -> bool {
    let behind = [
        write.block + 56,
        write
            .ranges_at
            .saturating_add(6 * write.ranges.len() as u64),
    ];
    let Ok(map) = Map::from_numbers(&write.map, write.guest.len()) else {
        return true;
    };
    write.ranges.is_empty() || behind.iter().any(|place| map.room(*place, 1).is_none())
}

/// The crate's guest memory is a region for each range of a good map, and one at least: its memory library makes no empty region, and has
/// rules of its own for regions that overlap or fall. Regions that touch are a bad map here and one run of memory there.
pub fn has_regions(question: &Question) -> bool {
    let numbers = question.numbers();
    !numbers.is_empty() && map_of(question).is_some()
}

/// The question's map, if it is good.
fn map_of(question: &Question) -> Option<Map> {
    Map::from_numbers(&question.numbers(), question.guest().len()).ok()
}

/// The crate walks notes only inside an ELF load, so a walk is asked as a load of an image with a header and one program header in
/// front; a place that these cannot be added to is left out.
fn place_cannot_be_moved(place: u64) -> bool {
    place.checked_add(WALK_FRONT).is_none()
}

/// What stands in front of a walk's image when the crate is asked: the header and one program header.
pub const WALK_FRONT: u64 = 64 + 56;

/// A bzImage whose kernel has no bytes: what the crate's memory library answers to an empty copy is not part of the rules.
fn kernel_is_empty(load: &Load) -> bool {
    let sectors = match load.image.get(0x1f1) {
        None => return false,
        Some(0) => 4,
        Some(sectors) => usize::from(*sectors),
    };
    load.image.len() == (sectors + 1) * 512
}

/// Bytes above 127 are no text of the crate's: it takes Rust strings.
fn has_high_bytes(calls: &[Call]) -> bool {
    let high = |text: &[u8]| !text.is_ascii();
    calls.iter().any(|call| match call {
        Call::InsertStr(text) | Call::InsertInitArgs(text) => high(text),
        Call::Insert { key, value } => high(key) || high(value),
        Call::InsertMultiple { key, values, .. } => high(key) || high(values),
        Call::TryFrom { text, .. } => high(text),
        _ => false,
    })
}

/// Whether the crate is asked this call of a sequence. A call that is left out is a refusal by the rules, and so changes nothing.
pub fn asks_call(call: &Call) -> bool {
    match call {
        Call::New { capacity } | Call::TryFrom { capacity, .. } => !over_capacity_limit(*capacity),
        Call::InsertMultiple { ends, values, .. } => !is_bad_list(ends, values),
        _ => true,
    }
}

/// An added refusal: the crate has no upper end of capacities.
fn over_capacity_limit(capacity: u32) -> bool {
    u64::from(capacity) > CAPACITY_LIMIT
}

/// An added refusal: the crate takes a list of texts, so its ends are never in disorder.
fn is_bad_list(ends: &[u32], values: &[u8]) -> bool {
    let falls = ends.windows(2).any(|pair| pair[0] > pair[1]);
    let last = ends.last().map_or(values.len(), |last| *last as usize);
    falls || last != values.len()
}

/// An added refusal: the crate allocates the line that it writes, so a lent output is never too short.
pub fn output_is_short(room: u32, written: &[u8]) -> bool {
    (room as usize) < written.len()
}

/// The guest bytes that are not compared with the crate: those where a refused copy was to go. What a copy leaves written when it
/// fails is the memory library's matter; the rules say that it writes nothing.
pub fn failed_copy(question: &Question, answer: &Answer) -> Range<usize> {
    let range = match (question, answer) {
        (Question::Elf(load), Answer::Elf { outcome, .. }) if *outcome == Err(10) => {
            map_of(question).and_then(|map| refused_segment(load, &map))
        }
        (Question::Bzimage(load), Answer::Bzimage { outcome, .. }) if *outcome == Err(24) => {
            parts::kernel_address(load).map(|address| (address, u64::MAX))
        }
        // without a map a line's last byte is looked for before anything is written
        (Question::LineLoad(load), Answer::LineLoad { outcome, .. })
            if *outcome == Err(32) && load.map.is_some() =>
        {
            parts::written_line(load)
        }
        _ => None,
    };
    range.map_or(0..0, |part| clamped(part, question.guest().len()))
}

/// Where the first segment that cannot be copied was to go.
fn refused_segment(load: &Load, map: &Map) -> Option<Part> {
    let segments = parts::segments(load).into_iter();
    let mut refused = segments.filter(|segment| {
        let (address, size) = segment.to;
        let stands = range(load.image.len(), segment.place.into(), size.into()).is_some();
        !stands || map.room(address, size).is_none()
    });
    refused.next().map(|segment| segment.to)
}

/// The part of a range of addresses that the guest has.
fn clamped((address, size): Part, length: usize) -> Range<usize> {
    let bound = |place: u64| place.min(length as u64) as usize;
    bound(address)..bound(address.saturating_add(size))
}

#[cfg(test)]
mod tests {
    use super::*;
    use crate::examples;

    #[test]
    fn an_empty_guest_and_an_empty_kernel_are_left_out() {
        let mut load = examples::small_elf();
        assert!(asks_crate(&Question::Elf(load.clone())));
        load.guest.clear();
        assert!(!asks_crate(&Question::Elf(load)));
        let mut load = examples::small_bzimage();
        assert!(asks_crate(&Question::Bzimage(load.clone())));
        load.image.truncate(1024);
        assert!(!asks_crate(&Question::Bzimage(load)));
    }

    #[test]
    fn bad_maps_and_those_without_a_range_are_left_out() {
        for (map, asked) in [
            (&[0, 17, 18, 14][..], true),
            (&[0, 17, 17, 15], false),
            (&[0], false),
            (&[], false),
        ] {
            let question = Question::Elf(examples::small_elf());
            let question = question.over(Some(map.to_vec()));
            assert_eq!(asks_crate(&question), asked, "{map:?}");
        }
    }

    #[test]
    fn added_refusals_are_left_out_call_by_call() {
        assert!(asks_call(&Call::New { capacity: 16384 }));
        assert!(!asks_call(&Call::New { capacity: 16385 }));
        let list = |ends: &[u32]| Call::InsertMultiple {
            key: vec![],
            ends: ends.to_vec(),
            values: b"abc".to_vec(),
        };
        assert!(asks_call(&list(&[1, 1, 3])));
        assert!(asks_call(&list(&[])));
        assert!(!asks_call(&list(&[2, 1, 3])));
        assert!(!asks_call(&list(&[2])));
    }

    #[test]
    fn only_where_the_refused_segment_was_to_go_is_not_compared() {
        let mut load = examples::small_elf();
        load.guest.truncate(18);
        let question = Question::Elf(load);
        let answer = over_second::answer(&question);
        assert_eq!(failed_copy(&question, &answer), 16..18);
        let hole = Question::Elf(examples::small_elf()).over(Some(vec![0, 17, 18, 14]));
        let answer = over_second::answer(&hole);
        assert_eq!(failed_copy(&hole, &answer), 16..19);
        let accepted = Question::Elf(examples::small_elf());
        let answer = over_second::answer(&accepted);
        assert!(failed_copy(&accepted, &answer).is_empty());
    }
}
