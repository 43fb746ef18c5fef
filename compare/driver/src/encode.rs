//! Questions as bytes, in the form that `docs/SAMPLE.md` gives.

use crate::question::{Boot, Call, Load, Loader, Map, Options, Question, Steps};

/// The question with its length in front.
pub fn framed(question: &Question) -> Vec<u8> {
    let body = body(question);
    let mut bytes = (body.len() as u32).to_le_bytes().to_vec();
    bytes.extend(body);
    bytes
}

fn body(question: &Question) -> Vec<u8> {
    let mut out = Vec::new();
    match question {
        Question::Elf(load) => put_load(&mut out, [1, 6], load),
        Question::Note(walk) => {
            out.push(2);
            out.extend(walk.place.to_le_bytes());
            out.extend(walk.size.to_le_bytes());
            out.extend(&walk.image);
        }
        Question::Bzimage(load) => put_load(&mut out, [3, 7], load),
        Question::Line(calls) => {
            out.push(4);
            put_calls(&mut out, calls);
        }
        Question::LineLoad(load) => {
            put_kind(&mut out, [5, 8], &load.map);
            out.extend(load.address.to_le_bytes());
            put_length4(&mut out, &load.guest);
            out.extend(&load.guest);
            put_calls(&mut out, &load.calls);
        }
        Question::Words(words) => {
            out.push(9);
            for count in words.places {
                out.extend(count.to_le_bytes());
            }
            out.extend(&words.text);
        }
        Question::PageBuild(build) => {
            out.push(10);
            put_length4(&mut out, &build.page);
            out.push(build.page.first().copied().unwrap_or(0));
            for address in [build.command_line, build.ramdisk, build.ramdisk_size] {
                out.extend(address.to_le_bytes());
            }
            out.extend(&build.header);
            for number in &build.numbers {
                out.extend(number.to_le_bytes());
            }
        }
        // always over a map: where none is given it is that of the whole slice
        Question::Arm64(load) => {
            let map = Some(question.numbers());
            put_load(
                &mut out,
                [16; 2],
                &Load {
                    map,
                    ..load.clone()
                },
            );
        }
        Question::PageRead(read) => {
            out.push(11);
            out.extend(read.length.to_le_bytes());
            out.push(read.fill);
            out.extend(read.place.to_le_bytes());
            out.extend(&read.bytes);
        }
        Question::Steps(steps) => put_steps(&mut out, steps),
        Question::StartWrite(write) => {
            out.push(12);
            put_map(&mut out, &write.map);
            for address in [write.block, write.modules_at, write.ranges_at] {
                out.extend(address.to_le_bytes());
            }
            out.extend(write.flags.to_le_bytes());
            out.extend(write.command_line.to_le_bytes());
            out.extend(write.rsdp.to_le_bytes());
            for list in [&write.modules, &write.ranges] {
                put_length2(&mut out, list.len());
            }
            for number in write.modules.iter().chain(&write.ranges) {
                out.extend(number.to_le_bytes());
            }
            out.extend(&write.guest);
        }
        Question::StartCheck(check) => {
            out.push(13);
            put_map(&mut out, &check.map);
            out.extend(check.block.to_le_bytes());
            out.extend(&check.guest);
        }
        Question::Job(_) => unreachable!("jobs are asked of the desk program only"),
        Question::Boot(boot) => put_boot(&mut out, boot, &question.numbers()),
    }
    out
}

/// The kind without a map, or the one with a map and the map.
fn put_kind(out: &mut Vec<u8>, [without, with]: [u8; 2], map: &Map) {
    match map {
        None => out.push(without),
        Some(numbers) => put_kind_and_map(out, with, numbers),
    }
}

fn put_kind_and_map(out: &mut Vec<u8>, kind: u8, numbers: &[u64]) {
    out.push(kind);
    put_map(out, numbers);
}

/// The count of a map's numbers, and the numbers.
fn put_map(out: &mut Vec<u8>, numbers: &[u64]) {
    out.push(u8::try_from(numbers.len()).expect("a generated map has at most 255 numbers"));
    for number in numbers {
        out.extend(number.to_le_bytes());
    }
}

fn put_load(out: &mut Vec<u8>, kinds: [u8; 2], load: &Load) {
    put_kind(out, kinds, &load.map);
    put_lent(out, load.options, &load.image, &load.guest);
}

fn put_steps(out: &mut Vec<u8>, steps: &Steps) {
    let kind = match steps.loader {
        Loader::Elf => 14,
        Loader::Bzimage => 15,
        Loader::Arm64 => 17,
    };
    put_kind_and_map(out, kind, &steps.map);
    put_lent(out, steps.options, &steps.bytes, &steps.guest);
    for call in &steps.calls {
        out.extend(call.budget.to_le_bytes());
        for number in [call.place, call.length, call.guest] {
            out.extend(number.to_le_bytes());
        }
        out.push(u8::from(call.is_whole));
    }
}

/// A boot, always over a map: the count of its answer's numbers, its list with the count in front, the lengths of the
/// slices and the slices.
fn put_boot(out: &mut Vec<u8>, boot: &Boot, map: &[u64]) {
    put_kind_and_map(out, 18, map);
    out.push(boot.answers as u8);
    put_map(out, &boot.list);
    let slices = [
        &boot.image,
        &boot.guest,
        &boot.text,
        &boot.init,
        &boot.ramdisk,
        &boot.tree,
    ];
    slices.iter().for_each(|slice| put_length4(out, slice));
    put_length2(out, boot.rows.len());
    slices.iter().for_each(|slice| out.extend(*slice));
    for number in &boot.rows {
        out.extend(number.to_le_bytes());
    }
}

/// Options, an image and a guest.
fn put_lent(out: &mut Vec<u8>, options: Options, image: &[u8], guest: &[u8]) {
    let flags = u8::from(options.offset.is_some()) + 2 * u8::from(options.highmem.is_some());
    out.push(flags);
    out.extend(options.offset.unwrap_or(0).to_le_bytes());
    out.extend(options.highmem.unwrap_or(0).to_le_bytes());
    put_length4(out, image);
    put_length4(out, guest);
    out.extend(image);
    out.extend(guest);
}

fn put_calls(out: &mut Vec<u8>, calls: &[Call]) {
    for call in calls {
        put_call(out, call);
    }
}

fn put_call(out: &mut Vec<u8>, call: &Call) {
    match call {
        Call::New { capacity } => {
            out.push(1);
            out.extend(capacity.to_le_bytes());
        }
        Call::InsertStr(text) => {
            out.push(2);
            put_text(out, text);
        }
        Call::InsertInitArgs(text) => {
            out.push(3);
            put_text(out, text);
        }
        Call::Insert { key, value } => {
            out.push(4);
            put_length2(out, key.len());
            put_length2(out, value.len());
            out.extend(key);
            out.extend(value);
        }
        Call::InsertMultiple { key, ends, values } => {
            out.push(5);
            put_length2(out, key.len());
            put_length2(out, ends.len());
            put_length2(out, values.len());
            out.extend(key);
            for end in ends {
                out.extend(end.to_le_bytes());
            }
            out.extend(values);
        }
        Call::AddDevice {
            size,
            address,
            irq,
            id,
        } => {
            out.push(6);
            out.extend(size.to_le_bytes());
            out.extend(address.to_le_bytes());
            out.extend(irq.to_le_bytes());
            out.push(u8::from(id.is_some()));
            out.extend(id.unwrap_or(0).to_le_bytes());
        }
        Call::TryFrom { capacity, text } => {
            out.push(7);
            out.extend(capacity.to_le_bytes());
            put_text(out, text);
        }
        Call::AsCstring { room } => {
            out.push(8);
            out.extend(room.to_le_bytes());
        }
        Call::Keep => out.push(9),
        Call::IsEqual => out.push(10),
    }
}

fn put_text(out: &mut Vec<u8>, text: &[u8]) {
    put_length2(out, text.len());
    out.extend(text);
}

fn put_length2(out: &mut Vec<u8>, length: usize) {
    let length = u16::try_from(length).expect("a generated text has at most 65,535 bytes");
    out.extend(length.to_le_bytes());
}

fn put_length4(out: &mut Vec<u8>, bytes: &[u8]) {
    out.extend((bytes.len() as u32).to_le_bytes());
}

#[cfg(test)]
mod tests {
    use super::*;
    use crate::boot_examples;

    #[test]
    fn a_boot_has_its_slices_in_turn() {
        let boot = boot_examples::tree();
        let bytes = framed(&Question::Boot(boot.clone()));
        let numbers = 1 + 16 + 1 + 1 + 8 * 12;
        let slices = [&boot.image[..], &boot.guest, &boot.text, &boot.ramdisk];
        let wanted = [&slices.concat()[..], &boot.tree].concat();
        assert_eq!(bytes[4..7], [18, 2, 0]);
        assert_eq!(bytes[5 + numbers + 6 * 4 + 2..], wanted);
        assert_eq!(bytes[..4], (bytes.len() as u32 - 4).to_le_bytes());
    }
}
