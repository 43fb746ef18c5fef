//! Makes a differing question as small as it can be while it still differs.

use crate::question::{
    Boot, Call, Load, Map, PageBuild, PageRead, Question, StartCheck, StartWrite, Steps, Words,
};

/// How many questions are asked at most in search of a smaller one.
const PATIENCE: usize = 20_000;

/// The smallest question found that still differs.
pub fn shrink(question: Question, mut differs: impl FnMut(&Question) -> bool) -> Question {
    let mut smallest = question;
    let mut asked = 0;
    'again: loop {
        for smaller in smaller(&smallest) {
            asked += 1;
            if asked > PATIENCE {
                return smallest;
            }
            if differs(&smaller) {
                smallest = smaller;
                continue 'again;
            }
        }
        return smallest;
    }
}

/// Questions that are a step smaller, the largest steps first.
fn smaller(question: &Question) -> Vec<Question> {
    match question {
        Question::Elf(load) => smaller_loads(load).map(Question::Elf).collect(),
        Question::Bzimage(load) => smaller_loads(load).map(Question::Bzimage).collect(),
        Question::Arm64(load) => smaller_loads(load).map(Question::Arm64).collect(),
        Question::Note(walk) => {
            let with = |place, size, image: &[u8]| {
                let mut smaller = walk.clone();
                (smaller.place, smaller.size) = (place, size);
                smaller.image = image.to_vec();
                Question::Note(smaller)
            };
            let images = smaller_bytes(&walk.image);
            let images = images.map(|image| with(walk.place, walk.size, &image));
            let places = smaller_numbers(walk.place);
            let places = places.map(|place| with(place, walk.size, &walk.image));
            let sizes = smaller_numbers(walk.size);
            let sizes = sizes.map(|size| with(walk.place, size, &walk.image));
            images.chain(places).chain(sizes).collect()
        }
        Question::Line(calls) => smaller_calls(calls).map(Question::Line).collect(),
        Question::LineLoad(load) => {
            let mut all = Vec::new();
            for calls in smaller_calls(&load.calls) {
                let mut smaller = load.clone();
                smaller.calls = calls;
                all.push(smaller);
            }
            for guest in smaller_bytes(&load.guest) {
                let mut smaller = load.clone();
                smaller.guest = guest;
                all.push(smaller);
            }
            for address in smaller_numbers(load.address) {
                let mut smaller = load.clone();
                smaller.address = address;
                all.push(smaller);
            }
            for map in smaller_maps(&load.map) {
                let mut smaller = load.clone();
                smaller.map = map;
                all.push(smaller);
            }
            all.into_iter().map(Question::LineLoad).collect()
        }
        Question::Words(words) => {
            let texts = smaller_texts(&words.text).map(|text| Words {
                text,
                places: words.places,
            });
            let mut all: Vec<Words> = texts.collect();
            for list in 0..3 {
                for count in smaller_u32(words.places[list]) {
                    let mut smaller = words.clone();
                    smaller.places[list] = count;
                    all.push(smaller);
                }
            }
            all.into_iter().map(Question::Words).collect()
        }
        Question::PageBuild(build) => smaller_builds(build).map(Question::PageBuild).collect(),
        Question::PageRead(read) => smaller_reads(read).map(Question::PageRead).collect(),
        Question::Steps(steps) => smaller_steps(steps)
            .into_iter()
            .map(Question::Steps)
            .collect(),
        Question::StartWrite(write) => smaller_writes(write).map(Question::StartWrite).collect(),
        Question::StartCheck(check) => {
            let mut all = Vec::new();
            for guest in smaller_bytes(&check.guest) {
                all.push(StartCheck {
                    guest,
                    ..check.clone()
                });
            }
            for map in smaller_maps(&Some(check.map.clone())).into_iter().flatten() {
                all.push(StartCheck {
                    map,
                    ..check.clone()
                });
            }
            all.into_iter().map(Question::StartCheck).collect()
        }
        Question::Job(job) => smaller_bytes(job).map(Question::Job).collect(),
        Question::Boot(boot) => smaller_boots(boot)
            .into_iter()
            .map(Question::Boot)
            .collect(),
    }
}

/// A smaller slice, a smaller number, or fewer rows.
fn smaller_boots(boot: &Boot) -> Vec<Boot> {
    let changed = |change: &dyn Fn(&mut Boot)| {
        let mut smaller = boot.clone();
        change(&mut smaller);
        smaller
    };
    let mut all = Vec::new();
    type Slice = fn(&mut Boot) -> &mut Vec<u8>;
    let slices: [(&Vec<u8>, Slice); 6] = [
        (&boot.guest, |boot| &mut boot.guest),
        (&boot.image, |boot| &mut boot.image),
        (&boot.text, |boot| &mut boot.text),
        (&boot.init, |boot| &mut boot.init),
        (&boot.ramdisk, |boot| &mut boot.ramdisk),
        (&boot.tree, |boot| &mut boot.tree),
    ];
    for map in smaller_maps(&boot.map) {
        all.push(changed(&|smaller| smaller.map.clone_from(&map)));
    }
    for (index, number) in boot.list.iter().enumerate() {
        for less in smaller_numbers(*number) {
            all.push(changed(&|smaller| smaller.list[index] = less));
        }
    }
    for index in 0..boot.rows.len() {
        for count in [3, 4] {
            let end = boot.rows.len().min(index + count);
            all.push(changed(&|smaller| drop(smaller.rows.drain(index..end))));
        }
        for less in smaller_numbers(boot.rows[index]) {
            all.push(changed(&|smaller| smaller.rows[index] = less));
        }
    }
    for (bytes, slice) in slices {
        let smaller = smaller_bytes(bytes);
        all.extend(smaller.map(|bytes| changed(&|smaller| slice(smaller).clone_from(&bytes))));
    }
    all
}

/// A call less, a smaller budget, or bytes of the same length that are 0.
fn smaller_steps(steps: &Steps) -> Vec<Steps> {
    let changed = |change: &dyn Fn(&mut Steps)| {
        let mut smaller = steps.clone();
        change(&mut smaller);
        smaller
    };
    let mut all = Vec::new();
    for (index, call) in steps.calls.iter().enumerate() {
        all.push(changed(&|smaller| {
            smaller.calls.remove(index);
        }));
        for budget in smaller_numbers(call.budget) {
            all.push(changed(&|smaller| smaller.calls[index].budget = budget));
        }
    }
    for map in smaller_maps(&Some(steps.map.clone())).into_iter().flatten() {
        all.push(changed(&|smaller| smaller.map.clone_from(&map)));
    }
    let bytes = smaller_bytes(&steps.bytes).filter(|bytes| bytes.len() == steps.bytes.len());
    all.extend(bytes.map(|bytes| changed(&|smaller| smaller.bytes.clone_from(&bytes))));
    all
}

/// One row less, or one number of the list smaller, or a header of fewer bytes that are not 0.
fn smaller_builds(build: &PageBuild) -> impl Iterator<Item = PageBuild> + '_ {
    let mut all = Vec::new();
    for row in 0..build.numbers.len().div_ceil(3) {
        let mut smaller = build.clone();
        smaller
            .numbers
            .drain(3 * row..build.numbers.len().min(3 * row + 3));
        all.push(smaller);
    }
    for (index, number) in build.numbers.iter().enumerate() {
        for number in smaller_numbers(*number) {
            let mut smaller = build.clone();
            smaller.numbers[index] = number;
            all.push(smaller);
        }
    }
    let headers = smaller_bytes(&build.header).filter(|header| header.len() == build.header.len());
    let headers = headers.map(|header| PageBuild {
        header,
        ..build.clone()
    });
    all.into_iter().chain(headers)
}

fn smaller_reads(read: &PageRead) -> impl Iterator<Item = PageRead> + '_ {
    smaller_bytes(&read.bytes).map(|bytes| PageRead {
        bytes,
        ..read.clone()
    })
}

/// One row less, one number smaller, or a smaller guest or map.
fn smaller_writes(write: &StartWrite) -> impl Iterator<Item = StartWrite> + '_ {
    let mut all = Vec::new();
    for list in [0, 1] {
        let numbers = [&write.modules, &write.ranges][list];
        let mut with = |numbers: Vec<u64>| {
            let mut smaller = write.clone();
            *[&mut smaller.modules, &mut smaller.ranges][list] = numbers;
            all.push(smaller);
        };
        for row in 0..numbers.len().div_ceil(4) {
            let mut fewer = numbers.clone();
            fewer.drain(4 * row..numbers.len().min(4 * row + 4));
            with(fewer);
        }
        for (index, number) in numbers.iter().enumerate() {
            for number in smaller_numbers(*number) {
                let mut lower = numbers.clone();
                lower[index] = number;
                with(lower);
            }
        }
    }
    for guest in smaller_bytes(&write.guest) {
        all.push(StartWrite {
            guest,
            ..write.clone()
        });
    }
    for map in smaller_maps(&Some(write.map.clone())).into_iter().flatten() {
        all.push(StartWrite {
            map,
            ..write.clone()
        });
    }
    all.into_iter()
}

fn smaller_loads(load: &Load) -> impl Iterator<Item = Load> + '_ {
    let changed = |change: &dyn Fn(&mut Load)| {
        let mut smaller = load.clone();
        change(&mut smaller);
        smaller
    };
    let mut all = Vec::new();
    if let Some(offset) = load.options.offset {
        all.push(changed(&|smaller| smaller.options.offset = None));
        for number in smaller_numbers(offset) {
            all.push(changed(&|smaller| smaller.options.offset = Some(number)));
        }
    }
    if let Some(highmem) = load.options.highmem {
        all.push(changed(&|smaller| smaller.options.highmem = None));
        for number in smaller_numbers(highmem) {
            all.push(changed(&|smaller| smaller.options.highmem = Some(number)));
        }
    }
    for map in smaller_maps(&load.map) {
        all.push(changed(&|smaller| smaller.map.clone_from(&map)));
    }
    let guests = smaller_bytes(&load.guest).map(|guest| Load {
        guest,
        ..load.clone()
    });
    let images = smaller_bytes(&load.image).map(|image| Load {
        image,
        ..load.clone()
    });
    all.into_iter().chain(guests).chain(images)
}

/// No map, one with a range or a number less, and one with a smaller number.
fn smaller_maps(map: &Map) -> Vec<Map> {
    let Some(numbers) = map else {
        return vec![];
    };
    let mut all = vec![None];
    for range in (0..numbers.len().saturating_sub(1)).step_by(2) {
        let mut fewer = numbers.clone();
        fewer.drain(range..range + 2);
        all.push(Some(fewer));
    }
    for (index, number) in numbers.iter().enumerate() {
        let mut fewer = numbers.clone();
        fewer.remove(index);
        all.push(Some(fewer));
        for less in smaller_numbers(*number) {
            let mut smaller = numbers.clone();
            smaller[index] = less;
            all.push(Some(smaller));
        }
    }
    all
}

fn smaller_numbers(number: u64) -> impl Iterator<Item = u64> {
    let candidates = [0, number / 2, number.wrapping_sub(1)];
    candidates
        .into_iter()
        .filter(move |smaller| *smaller < number)
}

/// Shorter bytes, then the same length with runs of bytes, and single ones, made 0, then with single ones made 1.
fn smaller_bytes(bytes: &[u8]) -> impl Iterator<Item = Vec<u8>> + '_ {
    let length = bytes.len();
    let halves = std::iter::successors(Some(length), |size| Some(size / 2));
    let sizes: Vec<usize> = halves.take_while(|size| *size > 0).collect();
    let cut = sizes.clone().into_iter();
    let cut = cut.map(move |size| bytes[..length - size].to_vec());
    let zeroed = sizes.into_iter().flat_map(move |size| {
        (0..length).step_by(size).filter_map(move |start| {
            let end = (start + size).min(length);
            let run = &bytes[start..end];
            run.iter().any(|byte| *byte != 0).then(|| {
                let mut smaller = bytes.to_vec();
                smaller[start..end].fill(0);
                smaller
            })
        })
    });
    let ones = (0..length).filter(move |place| bytes[*place] > 1);
    let ones = ones.map(move |place| {
        let mut smaller = bytes.to_vec();
        smaller[place] = 1;
        smaller
    });
    cut.chain(zeroed).chain(ones)
}

fn smaller_calls(calls: &[Call]) -> impl Iterator<Item = Vec<Call>> + '_ {
    let without = (0..calls.len()).map(|index| {
        let mut fewer = calls.to_vec();
        fewer.remove(index);
        fewer
    });
    let simpler = (0..calls.len()).flat_map(move |index| {
        smaller_call(&calls[index]).into_iter().map(move |call| {
            let mut simpler = calls.to_vec();
            simpler[index] = call;
            simpler
        })
    });
    without.chain(simpler)
}

fn smaller_call(call: &Call) -> Vec<Call> {
    let mut all = Vec::new();
    match call {
        Call::New { capacity } => {
            all.extend(smaller_u32(*capacity).map(|capacity| Call::New { capacity }));
        }
        Call::InsertStr(text) => all.extend(smaller_texts(text).map(Call::InsertStr)),
        Call::InsertInitArgs(text) => all.extend(smaller_texts(text).map(Call::InsertInitArgs)),
        Call::Insert { key, value } => {
            for key in smaller_texts(key) {
                let value = value.clone();
                all.push(Call::Insert { key, value });
            }
            for value in smaller_texts(value) {
                let key = key.clone();
                all.push(Call::Insert { key, value });
            }
        }
        Call::InsertMultiple { key, ends, values } => {
            let with = |key: &[u8], ends: &[u32], values: &[u8]| Call::InsertMultiple {
                key: key.to_vec(),
                ends: ends.to_vec(),
                values: values.to_vec(),
            };
            all.extend(smaller_texts(key).map(|key| with(&key, ends, values)));
            for (index, end) in ends.iter().enumerate() {
                let mut fewer = ends.clone();
                fewer.remove(index);
                all.push(with(key, &fewer, values));
                // one value a byte shorter
                if (*end as usize) <= values.len() && *end > 0 {
                    let mut shorter = values.clone();
                    shorter.remove(*end as usize - 1);
                    let ends = ends.iter().map(|other| other - u32::from(other >= end));
                    all.push(with(key, &ends.collect::<Vec<u32>>(), &shorter));
                }
            }
            all.extend(smaller_texts(values).map(|values| with(key, ends, &values)));
        }
        Call::AddDevice {
            size,
            address,
            irq,
            id,
        } => {
            let with = |size, address, irq, id| Call::AddDevice {
                size,
                address,
                irq,
                id,
            };
            if id.is_some() {
                all.push(with(*size, *address, *irq, None));
            }
            all.extend(smaller_numbers(*size).map(|size| with(size, *address, *irq, *id)));
            all.extend(smaller_numbers(*address).map(|address| with(*size, address, *irq, *id)));
            all.extend(smaller_u32(*irq).map(|irq| with(*size, *address, irq, *id)));
        }
        Call::TryFrom { capacity, text } => {
            let capacity = *capacity;
            all.extend(smaller_texts(text).map(|text| Call::TryFrom { capacity, text }));
            all.extend(smaller_u32(capacity).map(|capacity| {
                let text = text.clone();
                Call::TryFrom { capacity, text }
            }));
        }
        Call::AsCstring { room } => {
            all.extend(smaller_u32(*room).map(|room| Call::AsCstring { room }));
        }
        Call::Keep | Call::IsEqual => {}
    }
    all
}

fn smaller_u32(number: u32) -> impl Iterator<Item = u32> {
    smaller_numbers(number.into()).map(|number| number as u32)
}

/// A text without each of its bytes, and with each byte made plain.
fn smaller_texts(text: &[u8]) -> impl Iterator<Item = Vec<u8>> + '_ {
    let length = text.len();
    // of a long text only runs go, the longest first
    let sizes = [2, 4, 8, 16, 32, 64].map(|part| length / part);
    let runs = sizes.into_iter().filter(|size| *size > 0);
    let without_run = runs.flat_map(move |size| {
        (0..=length - size)
            .step_by(size)
            .map(move |start| [&text[..start], &text[start + size..]].concat())
    });
    let places = if length > 64 { 0..0 } else { 0..length };
    let without = places.clone().map(|place| {
        let mut shorter = text.to_vec();
        shorter.remove(place);
        shorter
    });
    let plainer = places.filter(|place| text[*place] != b'a').map(|place| {
        let mut plainer = text.to_vec();
        plainer[place] = b'a';
        plainer
    });
    without_run.chain(without).chain(plainer)
}

#[cfg(test)]
mod tests {
    use super::*;
    use crate::question::Walk;

    #[test]
    fn calls_and_texts_that_do_not_matter_go() {
        let calls = vec![
            Call::New { capacity: 90 },
            Call::InsertStr(b"some\x7ftext".to_vec()),
            Call::Keep,
        ];
        let smallest = shrink(Question::Line(calls), |question| {
            let Question::Line(calls) = question else {
                unreachable!("the kind stays")
            };
            calls
                .iter()
                .any(|call| matches!(call, Call::InsertStr(text) if text.contains(&0x7f)))
        });
        let wanted = vec![Call::InsertStr(vec![0x7f])];
        assert_eq!(smallest, Question::Line(wanted));
    }

    #[test]
    fn a_map_loses_what_does_not_matter() {
        let load = Load {
            map: Some(vec![3, 4, 50, 9, 70, 8, 1]),
            ..Load::default()
        };
        let smallest = shrink(Question::Elf(load), |question| {
            question.map().is_some_and(|map| map.contains(&9))
        });
        assert_eq!(smallest.map(), Some(&[9][..]));
    }

    #[test]
    fn an_image_is_cut_and_zeroed() {
        let walk = Walk {
            place: 77,
            size: u64::MAX,
            image: (1..200).collect(),
        };
        let smallest = shrink(Question::Note(walk), |question| {
            let Question::Note(walk) = question else {
                unreachable!("the kind stays")
            };
            walk.image.get(9) == Some(&10) && walk.size >= 5
        });
        let image = [&[0; 9][..], &[10]].concat();
        let wanted = Walk {
            place: 0,
            size: 5,
            image,
        };
        assert_eq!(smallest, Question::Note(wanted));
    }
}
