//! Cases of loads over a map, each with what is to be answered.

use crate::cases::Case;
use crate::examples::{small_bzimage, small_elf};
use crate::question::{Call, LineLoad, Question};

pub fn all() -> Vec<Case> {
    [elf(), counts(), bzimage(), lines()].concat()
}

/// The small image: three bytes for 16, in a guest of 32.
fn elf() -> Vec<Case> {
    let case = |map: &[u64], told| {
        let mut load = small_elf();
        load.guest = vec![7; 32];
        (Question::Elf(load).over(Some(map.to_vec())), told)
    };
    let loaded = "elf ok 16 24 pvh ignored, 16 to 18 changed";
    let no_room = "elf refused 10, nothing changed";
    let bad = "elf refused 77, nothing changed";
    let mut no_image = small_elf();
    no_image.image.clear();
    let no_image = Question::Elf(no_image);
    vec![
        // the whole slice, and ranges that begin and end where the segment does
        case(&[0, 32], loaded),
        case(&[16, 3], loaded),
        case(&[0, 15, 16, 3, 20, 12], loaded),
        // one byte short at either end, a hole in the middle, and no range
        case(&[17, 15], no_room),
        case(&[0, 18], no_room),
        case(&[0, 17, 18, 14], no_room),
        case(&[0, 18, 19, 13], no_room),
        case(&[], no_room),
        // touching, overlapping, falling, twice the same, empty, past the slice, past 64 bits
        case(&[0, 16, 16, 16], bad),
        case(&[0, 17, 16, 16], bad),
        case(&[16, 16, 0, 15], bad),
        case(&[0, 32, 0, 32], bad),
        case(&[0, 0], bad),
        case(&[16, 3, 20, 0], bad),
        case(&[0, 33], bad),
        case(&[16, 3, 32, 1], bad),
        case(&[16, u64::MAX], bad),
        case(&[u64::MAX, 2], bad),
        // no even count of numbers
        case(&[16], bad),
        case(&[16, 3, 20], bad),
        // a bad map is refused before the image is looked at, and a good one is not
        (no_image.clone().over(Some(vec![0, 33])), bad),
        (
            no_image.over(Some(vec![])),
            "elf refused 7, nothing changed",
        ),
    ]
}

/// Ranges of three bytes, one byte apart: the segment lies in the fifth.
fn counts() -> Vec<Case> {
    let case = |ranges: u64, told| {
        let mut load = small_elf();
        load.guest = vec![7; 80];
        let map = (0..ranges).flat_map(|range| [4 * range, 3]).collect();
        (Question::Elf(load).over(Some(map)), told)
    };
    let loaded = "elf ok 16 24 pvh ignored, 16 to 18 changed";
    vec![
        case(4, "elf refused 10, nothing changed"),
        case(5, loaded),
        case(15, loaded),
        case(16, loaded),
        case(17, "elf refused 77, nothing changed"),
    ]
}

/// The small bzImage: a kernel of three bytes for 4, or of none, in a guest of 12.
fn bzimage() -> Vec<Case> {
    let case = |kernel: usize, map: &[u64], told| {
        let mut load = small_bzimage();
        load.image.truncate(1024 + kernel);
        load.guest = vec![7; 12];
        (Question::Bzimage(load).over(Some(map.to_vec())), told)
    };
    let loaded = "bzimage ok 4 7 header 01..48..04000000..00, 4 to 6 changed";
    let empty = "bzimage ok 4 4 header 01..48..04000000..00, nothing changed";
    let no_room = "bzimage refused 24, nothing changed";
    let bad = "bzimage refused 77, nothing changed";
    vec![
        case(3, &[0, 12], loaded),
        case(3, &[0, 3, 4, 3], loaded),
        case(3, &[4, 2], no_room),
        case(3, &[5, 7], no_room),
        case(3, &[0, 5, 6, 6], no_room),
        case(3, &[], no_room),
        // a kernel of no bytes is accepted anywhere, but not over a bad map
        case(0, &[0, 1], empty),
        case(0, &[], empty),
        case(0, &[0, 4, 4, 8], bad),
        case(3, &[0, 4, 4, 8], bad),
        case(3, &[4], bad),
    ]
}

/// A line put to 4, in a guest of 12.
fn lines() -> Vec<Case> {
    let case = |text: &[u8], map: &[u64], told| {
        let text = text.to_vec();
        let load = LineLoad {
            map: Some(map.to_vec()),
            address: 4,
            guest: vec![7; 12],
            calls: vec![Call::TryFrom { capacity: 64, text }],
        };
        (Question::LineLoad(load), told)
    };
    let no_room = "line ok load 32, nothing changed";
    let bad = "line ok load 77, nothing changed";
    vec![
        case(b"ab", &[4, 3], "line ok load ok, 4 to 6 changed"),
        // the closing zero has no room
        case(b"ab", &[4, 2], no_room),
        case(b"ab", &[0, 6, 7, 5], no_room),
        case(b"", &[4, 1], "line ok load ok, 4 to 4 changed"),
        case(b"", &[0, 4, 5, 7], no_room),
        case(b"", &[], no_room),
        // a bad map is refused before the line is looked at
        case(b"a\0", &[0, 4, 4, 8], bad),
        case(b"a\0", &[4, 1], "line ok load 31, nothing changed"),
    ]
}
