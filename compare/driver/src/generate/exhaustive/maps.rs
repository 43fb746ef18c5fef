//! Small maps: all of up to three ranges over a small guest, all counts of numbers, and starts and sizes at every limit.

use crate::cases;
use crate::examples::{self, put};
use crate::question::{Area, Call, LineLoad, Question};
use second::map::whole;

/// A map's numbers.
type Numbers = Vec<u64>;

pub fn maps(area: Area) -> Box<dyn Iterator<Item = Question>> {
    let of_area = known(area).into_iter().flat_map(over_simple_maps);
    match area {
        Area::Elf => Box::new(of_area.chain(elf())),
        Area::Bzimage => Box::new(of_area.chain(bzimage())),
        Area::LineLoad => Box::new(of_area.chain(lines())),
        Area::Arm64 => Box::new(of_area.chain(arm64())),
        Area::Start => Box::new(of_area),
        Area::Note
        | Area::Line
        | Area::Words
        | Area::Page
        | Area::Steps
        | Area::Job
        | Area::Boot => Box::new(std::iter::empty()),
    }
}

/// The worked examples and the cases at the edges of the rules, in which every number of a load is answered.
fn known(area: Area) -> Vec<Question> {
    let cases = cases::all().into_iter().map(|(question, _)| question);
    let all = examples::all().into_iter().chain(cases);
    all.filter(|question| question.area() == area).collect()
}

/// A question over the whole slice, by a map that says so, over none of it, over all but one byte, and over bad maps.
fn over_simple_maps(question: Question) -> impl Iterator<Item = Question> {
    let length = question.guest().len() as u64;
    let mut maps = vec![
        whole(length as usize),
        vec![],
        vec![0],
        vec![0, 0],
        vec![0, length + 1],
        vec![length, 1],
    ];
    for byte in 0..length {
        maps.push(vec![0, byte, byte, length - byte]);
        maps.push(vec![0, byte, byte + 1, length - byte - 1]);
    }
    let over = move |map| question.clone().over(Some(map));
    maps.into_iter().map(over)
}

/// Every map of so many ranges whose starts and sizes are at most `greatest`.
fn each_map(ranges: u32, greatest: u64) -> impl Iterator<Item = Numbers> {
    let digits = greatest + 1;
    let count = 2 * ranges;
    (0..digits.pow(count)).map(move |number| {
        let digit = |place| number / digits.pow(place) % digits;
        (0..count).map(digit).collect()
    })
}

/// The small image with its segment at other addresses, over every map of two ranges.
fn elf() -> impl Iterator<Item = Question> {
    [0u64, 2, 4].into_iter().flat_map(|address| {
        each_map(2, 8).map(move |map| {
            let mut load = examples::small_elf();
            put(&mut load.image, 88, &address.to_le_bytes());
            load.guest = examples::guest(7);
            Question::Elf(load).over(Some(map))
        })
    })
}

fn bzimage() -> impl Iterator<Item = Question> {
    let kernels = [0usize, 1, 3].into_iter();
    kernels.flat_map(|kernel| {
        each_map(2, 8).map(move |map| {
            let mut load = examples::small_bzimage();
            load.image.truncate(1024 + kernel);
            load.options.offset = Some(3);
            load.guest = examples::guest(8);
            Question::Bzimage(load).over(Some(map))
        })
    })
}

/// The small file, over every map of two ranges around its first and its last byte.
fn arm64() -> impl Iterator<Item = Question> {
    each_map(2, 6).flat_map(|map| {
        // the first range begins near the file, and the second behind it
        [0u64, 6].into_iter().map(move |first| {
            let numbers = vec![first + map[0], 62 + map[1], 70 + map[2], map[3]];
            Question::Arm64(examples::small_arm64()).over(Some(numbers))
        })
    })
}

fn lines() -> impl Iterator<Item = Question> {
    let two = each_map(2, 6).flat_map(|map| {
        let texts = [&b""[..], b"ab", b"a\0", b" -- a"].into_iter();
        let placed = texts.flat_map(|text| (0..=6).map(move |address| (text, address)));
        placed.map(move |(text, address)| line(text, address, 6, map.clone()))
    });
    let three = each_map(3, 4).flat_map(|map| {
        let addresses = [0, 2, 4].into_iter();
        addresses.map(move |address| line(b"", address, 5, map.clone()))
    });
    two.chain(three).chain(each_count()).chain(each_limit())
}

fn line(text: &[u8], address: u64, guest: usize, map: Numbers) -> Question {
    let text = text.to_vec();
    Question::LineLoad(LineLoad {
        map: Some(map),
        address,
        guest: examples::guest(guest),
        calls: vec![Call::TryFrom { capacity: 64, text }],
    })
}

/// Each count of numbers, of ranges of one byte with one between them, and the empty line in each byte.
fn each_count() -> impl Iterator<Item = Question> {
    (0..=40u64).flat_map(|count| {
        let number = |index| if index % 2 == 0 { index } else { 1 };
        let map: Numbers = (0..count).map(number).collect();
        (0..=40).map(move |address| line(b"", address, 40, map.clone()))
    })
}

/// Starts and sizes of one and of two ranges at every limit.
fn each_limit() -> impl Iterator<Item = Question> {
    const LIMITS: [u64; 11] = [
        0,
        1,
        4,
        7,
        8,
        9,
        1 << 63,
        u64::MAX - 7,
        u64::MAX - 3,
        u64::MAX - 1,
        u64::MAX,
    ];
    let count = LIMITS.len() as u64 - 1;
    let maps = each_map(1, count).chain(each_map(2, count));
    maps.map(|map| {
        let map = map.into_iter().map(|index| LIMITS[index as usize]);
        line(b"a", 4, 8, map.collect())
    })
}
