//! Loads in steps: budgets at and around the ends of segments and of 64 bits, calls that are refused between them, and images that change.

use crate::examples::{self, put};
use crate::generate::{arm64, bzimage, elf, headers, over_map};
use crate::parts::parts;
use crate::question::{Load, Loader, Options, Question, StepCall, Steps};
use crate::rng::Rng;
use second::map::whole;

/// An image that is not much longer than this has a question of its own for each of several steps.
const LONGEST: usize = 1_600;

pub fn question(rng: &mut Rng) -> Steps {
    let loader = match rng.below(8) {
        0 | 1 => Loader::Bzimage,
        2 => Loader::Arm64,
        _ => Loader::Elf,
    };
    let load = std::iter::repeat_with(|| load(rng, loader));
    let short = |load: &Load| load.image.len() <= LONGEST && load.guest.len() <= LONGEST;
    let load = load
        .take(64)
        .find(short)
        .unwrap_or_else(examples::small_elf);
    of_load(rng, loader, load)
}

fn load(rng: &mut Rng, loader: Loader) -> Load {
    match (loader, rng.below(4)) {
        (Loader::Elf, 0) => elf::question(rng),
        (Loader::Elf, 1) => headers::question(rng),
        (Loader::Elf, _) => good_elf(rng),
        (Loader::Bzimage, 0) => bzimage::question(rng),
        (Loader::Bzimage, _) => good_bzimage(rng),
        (Loader::Arm64, 0) => arm64::question(rng),
        (Loader::Arm64, _) => good_arm64(rng),
    }
}

/// Type, place behind the headers, address, file size and memory size of a program header.
pub type Header = (u32, u64, u64, u64, u64);

/// An image with these program headers and these bytes behind them.
pub fn image(program_headers: &[Header], body: &[u8]) -> Vec<u8> {
    let mut image = examples::small_elf().image[..64].to_vec();
    image[56] = program_headers.len() as u8;
    let start = 64 + 56 * program_headers.len() as u64;
    for (kind, place, address, file_size, memory_size) in program_headers {
        let mut entry = [0; 56];
        put(&mut entry, 0, &kind.to_le_bytes());
        for (field, number) in [
            (8, start + place),
            (24, *address),
            (32, *file_size),
            (40, *memory_size),
        ] {
            put(&mut entry, field, &number.to_le_bytes());
        }
        image.extend(entry);
    }
    image.extend(body);
    image
}

/// The small image with a few bytes behind its header, which has room.
fn good_arm64(rng: &mut Rng) -> Load {
    let mut load = examples::small_arm64();
    load.image.truncate(64);
    let body = rng.length(0, 9);
    load.image.extend(rng.bytes(body));
    load
}

/// Up to five segments, nearly all of which have room.
pub fn good_elf(rng: &mut Rng) -> Load {
    let guest = rng.length(8, 48) as u64;
    let body = rng.bytes(12);
    let header = |rng: &mut Rng| {
        let size = rng.below(9);
        let place = rng.below(12 - size);
        let address = rng.below(guest - size.min(guest - 1));
        (
            rng.pick(&[1, 1, 1, 1, 2]),
            place,
            address,
            size,
            size + rng.below(3),
        )
    };
    let count = rng.length(0, 5);
    let program_headers: Vec<Header> = (0..count).map(|_| header(rng)).collect();
    Load {
        options: Options {
            offset: rng.one_in(8).then(|| rng.below(4)),
            highmem: rng.one_in(16).then(|| rng.below(20)),
        },
        map: None,
        image: image(&program_headers, &body),
        guest: rng.bytes(guest as usize),
    }
}

/// A kernel of a few bytes, which mostly has room.
pub fn good_bzimage(rng: &mut Rng) -> Load {
    let mut load = examples::small_bzimage();
    let kernel = rng.length(0, 12);
    load.image.truncate(1024);
    load.image.extend(rng.bytes(kernel));
    load.options.offset = rng.one_in(2).then(|| rng.below(9));
    load.options.highmem = rng.one_in(8).then(|| rng.below(9));
    let guest = rng.length(8, 32);
    load.guest = rng.bytes(guest);
    load
}

/// Some calls of a load.
fn of_load(rng: &mut Rng, loader: Loader, load: Load) -> Steps {
    let asked = match loader {
        Loader::Elf => Question::Elf(load.clone()),
        Loader::Bzimage => Question::Bzimage(load.clone()),
        Loader::Arm64 => Question::Arm64(load.clone()),
    };
    let sizes: Vec<u64> = parts(&asked).into_iter().map(|(_, size)| size).collect();
    let map = if rng.one_in(3) {
        over_map(asked, rng).numbers()
    } else {
        whole(load.guest.len())
    };
    let length = load.image.len();
    let mut bytes = load.image;
    let changes = rng.one_in(3);
    if changes {
        let changed = changed(rng, &bytes);
        bytes.extend(changed);
    }
    let count = rng.length(0, 14);
    let calls = (0..count).map(|_| StepCall {
        budget: budget(rng, &sizes),
        place: if changes && rng.one_in(3) { length } else { 0 } as u32,
        length: (length - usize::from(length > 0 && rng.one_in(16))) as u32,
        guest: (load.guest.len() - usize::from(!load.guest.is_empty() && rng.one_in(16))) as u32,
        is_whole: rng.one_in(16),
    });
    Steps {
        loader,
        options: load.options,
        map,
        calls: calls.collect(),
        bytes,
        guest: load.guest,
    }
}

/// 1, 2, at and around the size of a segment and the end of one, none, and those whose sums pass 64 bits.
fn budget(rng: &mut Rng, sizes: &[u64]) -> u64 {
    let near = |rng: &mut Rng, number: u64| {
        rng.pick(&[number, number.wrapping_add(1), number.saturating_sub(1)])
    };
    let up_to = rng.length(0, sizes.len());
    match rng.below(16) {
        0 => 0,
        1 => rng.pick(&[u64::MAX, u64::MAX - 1, 1 << 63]),
        2..=5 => 1,
        6 | 7 => 2,
        8..=11 if !sizes.is_empty() => {
            let size = rng.pick(sizes);
            near(rng, size)
        }
        _ => {
            let end = sizes[..up_to]
                .iter()
                .fold(0u64, |sum, size| sum.wrapping_add(*size));
            near(rng, end)
        }
    }
}

/// The image with one to four other bytes, many of them in the headers.
fn changed(rng: &mut Rng, image: &[u8]) -> Vec<u8> {
    let mut changed = image.to_vec();
    for _ in 0..rng.length(1, 4) {
        if image.is_empty() {
            break;
        }
        let place = match rng.below(4) {
            0 => rng.length(0, image.len() - 1),
            1 => rng.pick(&[8, 32, 56, 0x1f1, 0x214]),
            _ => 64 + rng.length(0, 280),
        };
        if let Some(byte) = changed.get_mut(place) {
            *byte = rng.pick(&[0, 1, 2, 255, 64, 120, 7]);
        }
    }
    changed
}

#[cfg(test)]
mod tests {
    use super::*;
    use crate::answer::{Answer, StepTold};
    use crate::over_second;
    use crate::unclaimed;

    /// Many loads end in several steps, calls are refused between them, and images change on the way.
    #[test]
    fn loads_of_each_kind_are_asked() {
        let (mut several, mut refused, mut unclaimed) = ([0; 3], 0, 0);
        for seed in 0..4000 {
            let asked = question(&mut Rng::new(seed));
            let asked_question = Question::Steps(asked.clone());
            let Answer::Steps(told) = over_second::answer(&asked_question) else {
                unreachable!("steps are told")
            };
            let is_more = |call: &StepTold| matches!(call, StepTold::Step(1.., None));
            let is_last = |call: &StepTold| matches!(call, StepTold::Step(1.., Some(_)));
            let first = told.calls.iter().position(is_more);
            let last = told.calls.iter().position(is_last);
            if let (Some(first), Some(last)) = (first, last) {
                several[asked.loader as usize] += 1;
                let between = told.calls[first..last].iter();
                refused += between
                    .filter(|call| matches!(call, StepTold::Refused(_)))
                    .count();
            }
            unclaimed += usize::from(unclaimed::first(&asked, &told).is_some());
        }
        let least = [400, 200, 100];
        let enough = several
            .iter()
            .zip(least)
            .all(|(count, least)| *count > least);
        assert!(enough, "{several:?}");
        assert!(refused > 100 && unclaimed > 100, "{refused}, {unclaimed}");
    }
}
