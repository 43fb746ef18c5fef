//! ELF images of several program headers, each good or refused in one way: what a load leaves when a later header is refused, where its
//! memory ends, and which note is used.

use crate::examples::{guest, put};
use crate::question::{Load, Options};
use crate::rng::Rng;

const HEADER: usize = 64;
const PROGRAM_HEADER: usize = 56;
const LOADABLE: u32 = 1;
const NOTES: u32 = 4;

/// How many bytes there are to load.
const TEXT: u64 = 24;

/// The notes behind them, each as the sizes of name and descriptor, type, name and descriptor: two with a PVH entry, of which the
/// second has a long descriptor, one without, and three that are refused, for a short descriptor, for a size and for the image's end.
const ALL_NOTES: [&[u8]; 6] = [
    b"\x04\0\0\0\x04\0\0\0\x12\0\0\0Xen\0\x00\x00\x10\x00",
    b"\x04\0\0\0\x07\0\0\0\x12\0\0\0Xen\0\x00\x00\x20\x00\x01\x02\x03\0",
    b"\x04\0\0\0\x04\0\0\0\x12\0\0\0GNU\0\x00\x00\x30\x00",
    b"\x04\0\0\0\x03\0\0\0\x12\0\0\0Xen\0",
    b"\0\0\0\0\xfd\xff\xff\xff\x01\0\0\0",
    b"only 11 B..",
];

/// Type, place, address, file size and memory size.
type Fields = (u32, [u64; 4]);

/// What the headers of one image are chosen around.
struct Plan {
    count: usize,
    offset: Option<u64>,
    moved: u64,
    guest: u64,
    /// Where the bytes to load begin in the image, and its length.
    text: u64,
    image: u64,
}

impl Plan {
    fn new(count: usize, offset: Option<u64>, guest: u64) -> Plan {
        let text = (HEADER + count * PROGRAM_HEADER) as u64;
        Plan {
            count,
            offset,
            moved: offset.unwrap_or(0),
            guest,
            text,
            image: text + TEXT + ALL_NOTES.concat().len() as u64,
        }
    }

    /// The load of the image with these headers.
    fn load(&self, entry: u64, headers: &[Fields], text: &[u8], guest: Vec<u8>) -> Load {
        let mut image = vec![0; self.text as usize];
        put(&mut image, 0, b"\x7fELF\x02\x01\x01");
        put(&mut image, 24, &entry.to_le_bytes());
        put(&mut image, 32, &(HEADER as u64).to_le_bytes());
        put(&mut image, 54, &(PROGRAM_HEADER as u16).to_le_bytes());
        put(&mut image, 56, &(self.count as u16).to_le_bytes());
        let entries = image[HEADER..].chunks_exact_mut(PROGRAM_HEADER);
        for (entry, (kind, numbers)) in entries.zip(headers) {
            put(entry, 0, &kind.to_le_bytes());
            for (place, number) in [8, 24, 32, 40].into_iter().zip(numbers) {
                put(entry, place, &number.to_le_bytes());
            }
        }
        image.extend(text);
        image.extend(ALL_NOTES.concat());
        Load {
            options: Options {
                offset: self.offset,
                highmem: None,
            },
            map: None,
            image,
            guest,
        }
    }
}

/// A few headers, chosen at random.
pub fn question(rng: &mut Rng) -> Load {
    let count = rng.length(1, 5);
    let offset = rng.pick(&[None, None, Some(0), Some(1), Some(8)]);
    let guest = rng.length(24, 48);
    let plan = Plan::new(count, offset, guest as u64);
    let headers: Vec<Fields> = (0..count).map(|_| fields(rng, &plan)).collect();
    let (text, guest) = (rng.bytes(TEXT as usize), rng.bytes(guest));
    plan.load(rng.below(64), &headers, &text, guest)
}

/// Every sequence of up to three headers of each kind, not moved, moved by 0, and moved.
pub fn each_sequence() -> impl Iterator<Item = Load> {
    let text: Vec<u8> = (1..=TEXT as u8).collect();
    let offsets = [None, Some(0), Some(8)].into_iter();
    let plans = offsets.flat_map(|offset| (0..4).map(move |count| Plan::new(count, offset, 40)));
    plans.flat_map(move |plan| {
        let kinds = each_kind(&plan);
        let text = text.clone();
        (0..kinds.len().pow(plan.count as u32)).map(move |index| {
            let place = |which: usize| index / kinds.len().pow(which as u32) % kinds.len();
            let headers: Vec<Fields> = (0..plan.count).map(|which| kinds[place(which)]).collect();
            plan.load(16, &headers, &text, guest(plan.guest as usize))
        })
    })
}

/// One header of each kind.
fn each_kind(plan: &Plan) -> Vec<Fields> {
    let wraps = plan.moved.wrapping_neg();
    let segment = |fields| (LOADABLE, fields);
    let (text, image) = (plan.text, plan.image);
    vec![
        segment([text, 1, 3, 8]),
        segment([text + 5, 2, 3, 3]),
        (6, [text, 1, 3, 8]),
        // bytes past the image, bytes past guest memory, an address and an end past 64 bits
        segment([image - 2, 1, 3, 3]),
        segment([text, plan.guest - 2, 3, 3]),
        segment([text, wraps, 3, 3]),
        segment([text, 1, 3, wraps.wrapping_sub(1)]),
        // memory alone: within and past the guest, with an end and an address past 64 bits; and no memory
        segment([text, 4, 0, 30]),
        segment([image, 50, 0, 2]),
        segment([text, 1, 0, wraps.wrapping_sub(1)]),
        segment([text, wraps, 0, 1]),
        segment([text, wraps, 0, 0]),
        // more bytes in the file than in memory, and with an address past 64 bits
        segment([text, 1, 3, 2]),
        segment([text, wraps, 1, 0]),
        // two PVH notes, another one, none, and three that are refused
        notes(plan, 0, 20),
        notes(plan, 1, 1),
        notes(plan, 2, 20),
        notes(plan, 0, 0),
        notes(plan, 3, 1),
        notes(plan, 4, 12),
        notes(plan, 5, 1),
    ]
}

/// One program header; most are good, so that others come after them.
fn fields(rng: &mut Rng, plan: &Plan) -> Fields {
    match rng.below(14) {
        0 => refused(rng, plan),
        1 => bad_notes(rng, plan),
        2 | 3 => memory_alone(rng, plan),
        4 => overfull(rng, plan),
        5..=8 => good_notes(rng, plan),
        _ => good(rng, plan),
    }
}

/// A segment that is loaded.
fn good(rng: &mut Rng, plan: &Plan) -> Fields {
    let size = 1 + rng.below(8);
    let offset = plan.text + rng.below(TEXT - size + 1);
    let address = rng.below(plan.guest - plan.moved - size + 1);
    (LOADABLE, [offset, address, size, size + rng.below(9)])
}

/// A segment at a limit of the image, of guest memory or of 64 bits: refused, or just not.
fn refused(rng: &mut Rng, plan: &Plan) -> Fields {
    let (kind, [mut offset, mut address, size, mut memory]) = good(rng, plan);
    let over = rng.below(2);
    match rng.below(4) {
        0 => offset = plan.image - size + over,
        1 => address = plan.guest - plan.moved - size + over,
        2 => address = plan.moved.wrapping_neg().wrapping_sub(1 - over),
        _ => memory = (address + plan.moved).wrapping_neg().wrapping_sub(1 - over),
    }
    (kind, [offset, address, size, memory])
}

/// A segment without file bytes: its memory within the guest, past it, at the end of 64 bits, or none.
fn memory_alone(rng: &mut Rng, plan: &Plan) -> Fields {
    let wraps = plan.moved.wrapping_neg();
    let near = [plan.guest - plan.moved, u64::MAX - 64, wraps];
    let address = match rng.below(2) {
        0 => rng.below(plan.guest),
        _ => rng.near(&near),
    };
    let ends = address.wrapping_add(plan.moved).wrapping_neg();
    let memory = match rng.below(4) {
        0 => 0,
        1 => rng.near(&[ends]),
        _ => 1 + rng.below(64),
    };
    let offset = rng.pick(&[plan.text, plan.image, u64::MAX]);
    (LOADABLE, [offset, address, 0, memory])
}

/// A segment with more bytes in the file than in memory, or just not: good otherwise, or at a limit too; and now and then of another
/// type, of which it is not asked.
fn overfull(rng: &mut Rng, plan: &Plan) -> Fields {
    let segment = match rng.below(3) {
        0 => refused(rng, plan),
        _ => good(rng, plan),
    };
    let (_, [offset, address, size, _]) = segment;
    let memory = rng.pick(&[0, 1, size - 1, size - 1, size]);
    let kind = rng.pick(&[LOADABLE, LOADABLE, LOADABLE, 6]);
    (kind, [offset, address, size, memory])
}

/// A note header with a PVH note, with another note, with both, or with none.
fn good_notes(rng: &mut Rng, plan: &Plan) -> Fields {
    let (first, size) = rng.pick(&[(0, 1), (0, 20), (1, 24), (2, 20), (2, 1), (0, 0), (1, 0)]);
    notes(plan, first, size)
}

/// A note header whose notes are refused, by the first or by a later one.
fn bad_notes(rng: &mut Rng, plan: &Plan) -> Fields {
    let (first, size) = rng.pick(&[(3, 1), (4, 12), (5, 1), (2, 21)]);
    notes(plan, first, size)
}

/// A note header over so many bytes from one of the notes on.
fn notes(plan: &Plan, first: usize, size: u64) -> Fields {
    let before: usize = ALL_NOTES[..first].iter().map(|note| note.len()).sum();
    (NOTES, [plan.text + TEXT + before as u64, 0, size, 0])
}
