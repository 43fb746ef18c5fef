//! The images that are loaded and the words that are inserted.

use crate::memory::Memory;

/// Where every kernel goes: the start of high memory.
pub const START: u64 = 1 << 20;

/// The capacity of a line: the greatest there is.
pub const CAPACITY: usize = rekusoyen::entry::LIMIT;

const HEADER: usize = 64;
const PROGRAM_HEADER: usize = 56;
const PAGE: usize = 4096;
const SECTOR: usize = 512;

/// An ELF image of so many loadable segments of so many bytes. They stand one after the other in the image, from a page on, and
/// go one after the other to guest memory.
pub fn elf(segments: usize, size: usize) -> Memory {
    let first = (HEADER + PROGRAM_HEADER * segments).next_multiple_of(PAGE);
    let mut image = bytes(first + segments * size);
    put_headers(&mut image, segments);
    for segment in 0..segments {
        let at = HEADER + PROGRAM_HEADER * segment;
        let before = (segment * size) as u64;
        put(&mut image, at, &1u32.to_le_bytes());
        put(&mut image, at + 8, &(first as u64 + before).to_le_bytes());
        put(&mut image, at + 24, &(START + before).to_le_bytes());
        put(&mut image, at + 32, &(size as u64).to_le_bytes());
        put(&mut image, at + 40, &(size as u64).to_le_bytes());
    }
    Memory::from(&image[..])
}

/// An ELF image of so many note headers, each of which has all the notes that stand behind them: so many, of 12 bytes, with neither name
/// nor descriptor.
pub fn notes(headers: usize, notes: usize) -> Memory {
    const NOTE: usize = 12;
    let first = HEADER + PROGRAM_HEADER * headers;
    let mut image = vec![0; first + NOTE * notes];
    put_headers(&mut image, headers);
    for header in 0..headers {
        let at = HEADER + PROGRAM_HEADER * header;
        put(&mut image, at, &4u32.to_le_bytes());
        put(&mut image, at + 8, &(first as u64).to_le_bytes());
        put(&mut image, at + 32, &((NOTE * notes) as u64).to_le_bytes());
    }
    Memory::from(&image[..])
}

/// The ELF header, with so many program headers behind it that are all zeros.
fn put_headers(image: &mut [u8], headers: usize) {
    image[..HEADER + PROGRAM_HEADER * headers].fill(0);
    put(image, 0, b"\x7fELF\x02\x01\x01");
    put(image, 24, &START.to_le_bytes());
    put(image, 32, &(HEADER as u64).to_le_bytes());
    put(image, 54, &(PROGRAM_HEADER as u16).to_le_bytes());
    put(image, 56, &(headers as u16).to_le_bytes());
}

/// A bzImage of so many bytes in all, with the boot sector and seven sectors of setup.
pub fn bzimage(size: usize) -> Memory {
    const SETUP_SECTORS: usize = 7;
    let mut image = bytes(size);
    image[..(SETUP_SECTORS + 1) * SECTOR].fill(0);
    put(&mut image, 0x1f1, &[SETUP_SECTORS as u8]);
    put(&mut image, 0x202, b"HdrS");
    put(&mut image, 0x206, &0x20fu16.to_le_bytes());
    put(&mut image, 0x211, &[1]);
    put(&mut image, 0x214, &(START as u32).to_le_bytes());
    Memory::from(&image[..])
}

/// The keys and values of one line.
pub type Pairs = Vec<(String, String)>;

/// The pairs of each line: `name000=value000` and on, 16 bytes and a space, of which 960 fill most of a line.
pub fn pairs(lines: usize, pairs: usize) -> Vec<Pairs> {
    let pair = |number| (format!("name{number:03}"), format!("value{number:03}"));
    let line = |line| (line * pairs..(line + 1) * pairs).map(pair).collect();
    (0..lines).map(line).collect()
}

/// The text of a full line: 720 words of boot text, and init text up to the last byte that a line of this capacity takes.
pub fn full_text() -> String {
    let words = |numbers: std::ops::Range<usize>| {
        let word = |number| format!("name{number:03}=value{number:03}");
        numbers.map(word).collect::<Vec<_>>().join(" ")
    };
    let mut text = format!("{} -- {} ", words(0..720), words(720..960));
    text.push_str(&"x".repeat(CAPACITY - 1 - text.len()));
    text
}

/// Bytes without a pattern that a copy gone wrong could keep, the same at each run: xorshift.
fn bytes(count: usize) -> Vec<u8> {
    let mut state = 0x9e37_79b9_7f4a_7c15u64;
    let mut made = Vec::with_capacity(count + 8);
    while made.len() < count {
        state ^= state << 13;
        state ^= state >> 7;
        state ^= state << 17;
        made.extend(state.to_le_bytes());
    }
    made.truncate(count);
    made
}

fn put(image: &mut [u8], at: usize, value: &[u8]) {
    image[at..at + value.len()].copy_from_slice(value);
}
