//! The worked examples of the rules, as questions. They are good images to damage, too.

use crate::question::{Call, LineLoad, Load, Options, Question, Walk};
use std::ops::Range;

pub fn put(image: &mut [u8], place: usize, bytes: &[u8]) {
    image[place..place + bytes.len()].copy_from_slice(bytes);
}

/// First content of a guest in which no two neighbours are equal.
pub fn guest(length: usize) -> Vec<u8> {
    (0..length).map(|place| (place * 7 + 0x51) as u8).collect()
}

/// An ELF image of 123 bytes: one segment of three bytes for address 16, taking 8 bytes of memory.
pub fn small_elf() -> Load {
    let mut image = vec![0; 123];
    put(&mut image, 0, b"\x7fELF");
    image[5] = 1;
    image[24] = 16;
    image[32] = 64;
    image[54] = 56;
    image[56] = 1;
    image[64] = 1;
    image[72] = 120;
    image[88] = 16;
    image[96] = 3;
    image[104] = 8;
    put(&mut image, 120, &[0xaa, 0xbb, 0xcc]);
    Load {
        options: Options::default(),
        map: None,
        image,
        guest: guest(32),
    }
}

/// Two segments with a note header between them, whose second note is the PVH one.
pub fn elf_with_notes() -> Load {
    let mut load = small_elf();
    let table = load.image[64..120].to_vec();
    let mut image = load.image[..64].to_vec();
    image[56] = 3;
    for _ in 0..3 {
        image.extend(&table);
    }
    let notes = image.len();
    image.extend([3, 0, 0, 0, 5, 0, 0, 0, 1, 0, 0, 0]);
    image.extend(b"ABC\0descr\0\0\0");
    image.extend(pvh_note());
    let body = image.len();
    image.extend([0xaa, 0xbb, 0xcc, 0xdd]);
    image[72] = body as u8;
    put(&mut image, 120, &[4]);
    image[128] = notes as u8;
    image[152] = (body - notes) as u8;
    image[184] = (body + 2) as u8;
    image[200] = 17;
    image[208] = 2;
    load.image = image;
    load
}

/// A PVH note with the entry point 1 MiB.
pub fn pvh_note() -> [u8; 20] {
    *b"\x04\0\0\0\x04\0\0\0\x12\0\0\0Xen\0\x00\x00\x10\x00"
}

/// The smallest loads that a departure from the published crate shows in: its name, what is loaded, what the rules say, and the load.
pub fn departures() -> Vec<(&'static str, &'static str, &'static str, Load)> {
    vec![
        (
            "L13",
            "a segment of 1 byte for address 1 with p_memsz 2^64 - 1, 2 guest bytes",
            "refused 13, nothing written",
            smallest(&[(64, 1), (88, 1), (96, 1)], &[104..112], 2),
        ),
        (
            "L3",
            "a segment without file bytes, p_memsz 1, for address 0, 1 guest byte",
            "load 0, end 1, nothing written",
            smallest(&[(64, 1), (104, 1)], &[], 1),
        ),
        (
            "L8",
            "a segment of 1 byte for address 0 with p_memsz 0, 1 guest byte",
            "refused 14, nothing written",
            smallest(&[(64, 1), (96, 1)], &[], 1),
        ),
        (
            "L7",
            "two note headers, of which the first has the PVH note and the second no notes, 1 guest byte",
            "load 0, end 0, PVH entry point 0 of the descriptor of 4 bytes at 136",
            smallest_of_notes(),
        ),
    ]
}

/// Two note headers: the first of one byte at 120, where the PVH note stands in the fields of the second that nobody looks at.
fn smallest_of_notes() -> Load {
    let mut load = smallest(&[(56, 2), (64, 4), (72, 120), (96, 1)], &[], 1);
    load.image.resize(176, 0);
    for (place, byte) in [(120, 4), (124, 4), (128, 18)] {
        load.image[place] = byte;
    }
    put(&mut load.image, 132, b"Xen");
    load
}

/// An ELF image of 120 bytes, header and one program header, all 0 but for what a load asks of the header and these bytes: places with
/// a value each, and runs of FF hex.
fn smallest(bytes: &[(usize, u8)], ff: &[Range<usize>], guest_length: usize) -> Load {
    let mut image = vec![0; 120];
    put(&mut image, 0, b"\x7fELF");
    for (place, byte) in [(5, 1), (32, 64), (54, 56), (56, 1)].iter().chain(bytes) {
        image[*place] = *byte;
    }
    for run in ff {
        image[run.clone()].fill(0xff);
    }
    Load {
        options: Options::default(),
        map: None,
        image,
        guest: guest(guest_length),
    }
}

/// A bzImage of one setup sector and a kernel of three bytes for address 4.
pub fn small_bzimage() -> Load {
    let mut image = vec![0; 1027];
    image[0x1f1] = 1;
    put(&mut image, 0x202, b"HdrS");
    put(&mut image, 0x206, &[0x0f, 0x02]);
    image[0x211] = 1;
    image[0x214] = 4;
    put(&mut image, 1024, &[0xaa, 0xbb, 0xcc]);
    Load {
        options: Options::default(),
        map: None,
        image,
        guest: guest(12),
    }
}

fn elf(change: impl Fn(&mut Load)) -> Question {
    let mut load = small_elf();
    change(&mut load);
    Question::Elf(load)
}

fn walk(size: u64) -> Question {
    let image = pvh_note().to_vec();
    Question::Note(Walk {
        place: 0,
        size,
        image,
    })
}

fn line(capacity: u32, calls: &[Call]) -> Question {
    let mut all = vec![Call::New { capacity }];
    all.extend_from_slice(calls);
    all.push(Call::AsCstring { room: 64 });
    Question::Line(all)
}

/// Every worked example.
pub fn all() -> Vec<Question> {
    let mut short_bzimage = small_bzimage();
    short_bzimage.image[0x1f1] = 0;
    short_bzimage.image.resize(2559, 0);
    let key_value = Call::Insert {
        key: b"foo".to_vec(),
        value: b"bar".to_vec(),
    };
    let boot = Call::InsertStr(b"a".to_vec());
    let slug = [boot.clone(), Call::InsertStr(vec![])];
    let init_slug = [boot.clone(), Call::InsertInitArgs(vec![])];
    let whole = |capacity| Call::TryFrom {
        capacity,
        text: b"a=\"x -- y\" -- z".to_vec(),
    };
    let device = Call::AddDevice {
        size: 4096,
        address: 4096,
        irq: 5,
        id: Some(42),
    };
    let line_load = LineLoad {
        map: None,
        address: 3,
        guest: guest(12),
        calls: vec![Call::New { capacity: 8 }, key_value.clone()],
    };
    vec![
        elf(|_| {}),
        elf(|load| load.options.offset = Some(4)),
        elf(|load| load.guest.truncate(19)),
        elf(|load| load.guest.truncate(18)),
        elf(|load| load.options.highmem = Some(16)),
        elf(|load| load.options.highmem = Some(17)),
        Question::Elf(elf_with_notes()),
        walk(20),
        walk(1),
        Question::Bzimage(small_bzimage()),
        Question::Bzimage(short_bzimage),
        line(8, &[key_value.clone()]),
        line(7, &[key_value]),
        line(3, &slug),
        line(2, &slug),
        line(6, &init_slug),
        line(5, &init_slug),
        line(1, &[whole(16)]),
        line(1, &[whole(15)]),
        line(64, &[device]),
        Question::LineLoad(line_load),
    ]
}

/// An arm64 Image of a header and three bytes, all of whose other bytes hold something, for address 8 of 80 bytes.
pub fn small_arm64() -> Load {
    let mut image: Vec<u8> = (101..168).collect();
    put(&mut image, 8, &8u64.to_le_bytes());
    put(&mut image, 16, &100u64.to_le_bytes());
    put(&mut image, 24, &10u64.to_le_bytes());
    put(&mut image, 56, b"ARM\x64");
    Load {
        image,
        guest: guest(80),
        ..Load::default()
    }
}

#[cfg(test)]
mod tests {
    use super::*;
    use crate::over_second;

    #[test]
    fn the_second_program_answers_the_worked_examples() {
        let lines: Vec<String> = all()
            .iter()
            .map(|question| {
                let line = over_second::answer(question).line(question.guest());
                line.split(" guest").next().unwrap().to_string()
            })
            .collect();
        let kernel = "bzimage ok 4 7 header 01";
        assert!(lines[9].starts_with(kernel), "{}", lines[9]);
        let device = crate::answer::hex(b"virtio_mmio.device=4K@0x1000:5:42\0");
        let wanted = [
            "elf ok 16 24 pvh ignored",
            "elf ok 20 28 pvh ignored",
            "elf ok 16 24 pvh ignored",
            "elf refused 10",
            "elf ok 16 24 pvh ignored",
            "elf refused 5",
            "elf ok 16 25 pvh at 1048576 note 272 4",
            "note ok pvh at 1048576 note 16 4 headers 1",
            "note ok pvh at 1048576 note 16 4 headers 1",
            &lines[9],
            "bzimage refused 22",
            "line ok ok ok:666f6f3d62617200",
            "line ok 47 ok:00",
            "line ok ok ok ok:612000",
            "line ok ok 47 ok:6100",
            "line ok ok ok ok:6100",
            "line ok ok 47 ok:6100",
            "line ok ok ok:613d2278202d2d207922202d2d207a00",
            "line ok 41 ok:00",
            &format!("line ok ok ok:{device}"),
            "line ok ok load ok",
        ];
        assert_eq!(lines, wanted);
    }
}
