//! Loading an ELF image into guest memory.

use crate::fields::{range, u16_at, u32_at, u64_at, within_limit, ADDRESS_LIMIT};
use crate::map::Map;
use crate::note::{self, Pvh};
use crate::{Departure, Refusal, Rules};
use std::ops::Range;

const MAGIC: [u8; 4] = [0x7f, 0x45, 0x4c, 0x46];
const LITTLE_ENDIAN: u8 = 1;
const HEADER_SIZE: usize = 64;
const PROGRAM_HEADER_SIZE: usize = 56;
const TYPE_LOAD: u32 = 1;
const TYPE_NOTE: u32 = 4;

/// What an accepted load answers.
#[derive(Clone, Copy, Debug, PartialEq, Eq)]
pub struct Loaded {
    pub load: u64,
    pub end: u64,
    pub pvh: Pvh,
}

/// The fields that matter of the header at the start of the image.
struct Header {
    entry: u64,
    table: u64,
    count: u16,
}

/// The fields that matter of one program header.
struct ProgramHeader {
    kind: u32,
    offset: u64,
    address: u64,
    file_size: u64,
    memory_size: u64,
}

/// Loads `image` into the ranges of `guest` that the numbers of `map` give. By the published rules a refusal leaves the segments
/// before the refused header written.
pub fn load(
    rules: Rules,
    image: &[u8],
    guest: &mut [u8],
    map: &[u64],
    offset: Option<u64>,
    highmem: Option<u64>,
) -> Result<Loaded, Refusal> {
    let mut memory = guest.to_vec();
    let outcome = load_into(rules, image, &mut memory, map, offset, highmem);
    if outcome.is_ok() || !rules.has(Departure::L13) {
        guest.copy_from_slice(&memory);
    }
    outcome
}

/// Takes the headers in turn, and writes each segment when it is met.
fn load_into(
    rules: Rules,
    image: &[u8],
    guest: &mut [u8],
    map: &[u64],
    offset: Option<u64>,
    highmem: Option<u64>,
) -> Result<Loaded, Refusal> {
    within_limit(image.len())?;
    within_limit(guest.len())?;
    let map = Map::from_numbers(map, guest.len())?;
    let header = read_header(image)?;
    if highmem.is_some_and(|lowest| header.entry < lowest) {
        return Err(Refusal::InvalidEntryAddress);
    }
    let load = moved(header.entry, offset).ok_or(Refusal::Overflow)?;
    let mut end = 0;
    let mut pvh = Pvh::Ignored;
    for program_header in program_headers(image, &header)? {
        match program_header.kind {
            TYPE_LOAD if rules.has(Departure::L8) && is_overfull(&program_header) => {
                return Err(Refusal::InvalidProgramHeaderFileSize);
            }
            TYPE_LOAD if program_header.file_size > 0 => {
                let segment_end = load_segment(image, guest, &map, offset, &program_header)?;
                end = end.max(segment_end);
            }
            TYPE_LOAD if rules.has(Departure::L3) && program_header.memory_size > 0 => {
                end = end.max(memory_end(offset, &program_header)?);
            }
            TYPE_NOTE => {
                let later = pvh_of(image, offset, &program_header)?;
                if !(rules.has(Departure::L7) && is_present(pvh)) {
                    pvh = later;
                }
            }
            _ => {}
        }
    }
    Ok(Loaded { load, end, pvh })
}

/// Every byte that an accepted load writes, in its order: the address in guest memory, and the place in the image.
pub fn writes(image: &[u8], offset: Option<u64>) -> Vec<(usize, usize)> {
    let mut writes = Vec::new();
    let Ok(header) = read_header(image) else {
        return writes;
    };
    for segment in program_headers(image, &header).unwrap_or_default() {
        if segment.kind == TYPE_LOAD {
            let address = u128::from(segment.address) + u128::from(offset.unwrap_or(0));
            for byte in 0..segment.file_size {
                writes.push((
                    address as usize + byte as usize,
                    (segment.offset + byte) as usize,
                ));
            }
        }
    }
    writes
}

/// The memory of every loadable segment of an accepted load, with file bytes or without.
pub fn taken(image: &[u8], offset: Option<u64>) -> Vec<Range<u128>> {
    let headers = read_header(image).and_then(|header| program_headers(image, &header));
    let headers = headers.unwrap_or_default().into_iter();
    headers
        .filter(|memory| memory.kind == TYPE_LOAD)
        .map(|memory| {
            let start = u128::from(memory.address) + u128::from(offset.unwrap_or(0));
            start..start + u128::from(memory.memory_size)
        })
        .collect()
}

fn read_header(image: &[u8]) -> Result<Header, Refusal> {
    if image.len() < HEADER_SIZE {
        return Err(Refusal::ReadElfHeader);
    }
    if image[..4] != MAGIC {
        return Err(Refusal::InvalidElfMagicNumber);
    }
    if image[5] != LITTLE_ENDIAN {
        return Err(Refusal::BigEndianElfOnLittle);
    }
    if usize::from(u16_at(image, 54)) != PROGRAM_HEADER_SIZE {
        return Err(Refusal::InvalidProgramHeaderSize);
    }
    let header = Header {
        entry: u64_at(image, 24),
        table: u64_at(image, 32),
        count: u16_at(image, 56),
    };
    if header.table < HEADER_SIZE as u64 {
        return Err(Refusal::InvalidProgramHeaderOffset);
    }
    Ok(header)
}

/// All program headers, in file order, once the whole table is known to stand in the image.
fn program_headers(image: &[u8], header: &Header) -> Result<Vec<ProgramHeader>, Refusal> {
    if header.count == 0 {
        return Ok(Vec::new());
    }
    let size = u128::from(header.count) * PROGRAM_HEADER_SIZE as u128;
    let table =
        range(image.len(), u128::from(header.table), size).ok_or(Refusal::ReadProgramHeader)?;
    let entries = image[table].chunks_exact(PROGRAM_HEADER_SIZE);
    Ok(entries.map(program_header).collect())
}

fn program_header(bytes: &[u8]) -> ProgramHeader {
    ProgramHeader {
        kind: u32_at(bytes, 0),
        offset: u64_at(bytes, 8),
        address: u64_at(bytes, 24),
        file_size: u64_at(bytes, 32),
        memory_size: u64_at(bytes, 40),
    }
}

/// ELF says that the bytes in the file are never more than those in memory.
fn is_overfull(segment: &ProgramHeader) -> bool {
    segment.file_size > segment.memory_size
}

/// Copies one segment and answers where it ends in guest memory.
fn load_segment(
    image: &[u8],
    guest: &mut [u8],
    map: &Map,
    offset: Option<u64>,
    segment: &ProgramHeader,
) -> Result<u64, Refusal> {
    let address = moved(segment.address, offset).ok_or(Refusal::InvalidProgramHeaderAddress)?;
    let size = u128::from(segment.file_size);
    let from = range(image.len(), u128::from(segment.offset), size);
    let to = map.room(address, segment.file_size);
    let (Some(from), Some(to)) = (from, to) else {
        return Err(Refusal::ReadKernelImage);
    };
    guest[to].copy_from_slice(&image[from]);
    moved(address, Some(segment.memory_size)).ok_or(Refusal::MemoryOverflow)
}

/// Where a segment of memory alone ends: there is nothing to copy, and guest memory need not have it.
fn memory_end(offset: Option<u64>, memory: &ProgramHeader) -> Result<u64, Refusal> {
    let start = moved(memory.address, offset).ok_or(Refusal::InvalidProgramHeaderAddress)?;
    moved(start, Some(memory.memory_size)).ok_or(Refusal::MemoryOverflow)
}

/// What one note header makes of PVH: an image that is moved cannot be entered at its PVH entry point.
fn pvh_of(image: &[u8], offset: Option<u64>, notes: &ProgramHeader) -> Result<Pvh, Refusal> {
    if offset.is_some() {
        return Ok(Pvh::Ignored);
    }
    Ok(note::walk(image, notes.offset, notes.file_size)?.pvh)
}

fn is_present(pvh: Pvh) -> bool {
    matches!(pvh, Pvh::Present(_))
}

/// `address` plus what is added to it, if that is still an address.
fn moved(address: u64, by: Option<u64>) -> Option<u64> {
    let sum = u128::from(address) + u128::from(by.unwrap_or(0));
    if sum < ADDRESS_LIMIT {
        Some(sum as u64)
    } else {
        None
    }
}

#[cfg(test)]
mod tests {
    use super::*;
    use crate::map::whole;

    const PUBLISHED: Rules = Rules::PUBLISHED;

    /// A load over the whole slice.
    fn load(
        rules: Rules,
        image: &[u8],
        guest: &mut [u8],
        offset: Option<u64>,
        highmem: Option<u64>,
    ) -> Result<Loaded, Refusal> {
        let map = whole(guest.len());
        super::load(rules, image, guest, &map, offset, highmem)
    }

    fn put(image: &mut [u8], place: usize, bytes: &[u8]) {
        image[place..place + bytes.len()].copy_from_slice(bytes);
    }

    /// One segment of three bytes for address 16, taking 8 bytes of memory.
    fn small() -> Vec<u8> {
        let mut image = vec![0; 123];
        put(&mut image, 0, &MAGIC);
        image[5] = 1;
        image[24] = 16;
        image[32] = 64;
        image[54] = 56;
        image[56] = 1;
        image[64] = 1;
        image[72] = 120;
        image[88] = 16;
        image[96] = 3;
        image[104] = 8;
        put(&mut image, 120, &[0xaa, 0xbb, 0xcc]);
        image
    }

    fn loaded(load: u64, end: u64, pvh: Pvh) -> Result<Loaded, Refusal> {
        Ok(Loaded { load, end, pvh })
    }

    #[test]
    fn the_segment_is_copied_and_nothing_else_touched() {
        let mut guest = [0x55; 32];
        let answer = load(PUBLISHED, &small(), &mut guest, None, None);
        assert_eq!(answer, loaded(16, 24, Pvh::Ignored));
        let mut wanted = [0x55; 32];
        wanted[16..19].copy_from_slice(&[0xaa, 0xbb, 0xcc]);
        assert_eq!(guest, wanted);
    }

    #[test]
    fn an_offset_moves_load_address_end_and_bytes() {
        let mut guest = [0; 32];
        let answer = load(PUBLISHED, &small(), &mut guest, Some(4), None);
        assert_eq!(answer, loaded(20, 28, Pvh::Ignored));
        assert_eq!(guest[20..23], [0xaa, 0xbb, 0xcc]);
    }

    #[test]
    fn only_the_bytes_of_the_file_must_fit_the_guest() {
        assert_eq!(
            load(PUBLISHED, &small(), &mut [0; 19], None, None),
            loaded(16, 24, Pvh::Ignored)
        );
        let mut guest = [0x55; 18];
        assert_eq!(
            load(PUBLISHED, &small(), &mut guest, None, None),
            Err(Refusal::ReadKernelImage)
        );
        assert_eq!(guest, [0x55; 18]);
    }

    #[test]
    fn highmem_is_compared_with_the_entry_before_the_offset() {
        let mut guest = [0; 64];
        assert!(load(PUBLISHED, &small(), &mut guest, None, Some(16)).is_ok());
        let refused = Err(Refusal::InvalidEntryAddress);
        assert_eq!(
            load(PUBLISHED, &small(), &mut guest, None, Some(17)),
            refused
        );
        assert_eq!(
            load(PUBLISHED, &small(), &mut guest, Some(4), Some(17)),
            refused
        );
        assert_eq!(
            load(PUBLISHED, &small(), &mut guest, Some(u64::MAX), Some(17)),
            refused
        );
    }

    #[test]
    fn header_tests_come_in_their_order() {
        let mut image = small();
        let ask =
            |image: &[u8]| load(PUBLISHED, image, &mut [0; 32], Some(u64::MAX), None).unwrap_err();
        assert_eq!(ask(&image), Refusal::Overflow);
        image[32] = 63;
        assert_eq!(ask(&image), Refusal::InvalidProgramHeaderOffset);
        image[55] = 1;
        assert_eq!(ask(&image), Refusal::InvalidProgramHeaderSize);
        image[5] = 2;
        assert_eq!(ask(&image), Refusal::BigEndianElfOnLittle);
        image[3] = 0;
        assert_eq!(ask(&image), Refusal::InvalidElfMagicNumber);
        assert_eq!(ask(&image[..63]), Refusal::ReadElfHeader);
    }

    #[test]
    fn the_table_must_stand_in_the_image_only_if_it_has_headers() {
        let mut image = small();
        image[33] = 0xff;
        let answer = load(PUBLISHED, &image, &mut [0; 32], None, None);
        assert_eq!(answer, Err(Refusal::ReadProgramHeader));
        image[56] = 0;
        let answer = load(PUBLISHED, &image, &mut [0; 32], None, None);
        assert_eq!(answer, loaded(16, 0, Pvh::Ignored));
    }

    #[test]
    fn a_memory_size_over_the_last_address_is_refused_after_the_copy() {
        let mut image = small();
        put(&mut image, 104, &(u64::MAX - 15).to_le_bytes());
        let mut guest = [0; 32];
        assert_eq!(
            load(PUBLISHED, &image, &mut guest, None, None),
            Err(Refusal::MemoryOverflow)
        );
        assert_eq!(guest[16..19], [0xaa, 0xbb, 0xcc]);
        put(&mut image, 104, &(u64::MAX - 16).to_le_bytes());
        assert_eq!(
            load(PUBLISHED, &image, &mut guest, None, None),
            loaded(16, u64::MAX, Pvh::Ignored)
        );
    }

    #[test]
    fn an_address_that_leaves_64_bits_is_refused_before_the_copy() {
        let mut image = small();
        put(&mut image, 88, &u64::MAX.to_le_bytes());
        let answer = load(PUBLISHED, &image, &mut [0; 32], Some(1), None);
        assert_eq!(answer, Err(Refusal::InvalidProgramHeaderAddress));
        let answer = load(PUBLISHED, &image, &mut [0; 32], Some(0), None);
        assert_eq!(answer, Err(Refusal::ReadKernelImage));
    }

    #[test]
    fn a_segment_without_file_bytes_does_not_raise_the_end() {
        let mut image = small();
        image[96] = 0;
        assert_eq!(
            load(PUBLISHED, &image, &mut [0; 1], None, None),
            loaded(16, 0, Pvh::Ignored)
        );
    }

    #[test]
    fn memory_alone_counts_for_the_end() {
        let rules = Rules::of(&[Departure::L3]);
        let ask = |image: &[u8], offset| load(rules, image, &mut [], offset, None);
        let mut image = small();
        // no file bytes, wherever they would stand
        image[96] = 0;
        image[72..80].fill(0xff);
        assert_eq!(ask(&image, None), loaded(16, 24, Pvh::Ignored));
        assert_eq!(ask(&image, Some(4)), loaded(20, 28, Pvh::Ignored));
        put(&mut image, 104, &(u64::MAX - 16).to_le_bytes());
        assert_eq!(ask(&image, None), loaded(16, u64::MAX, Pvh::Ignored));
        assert_eq!(ask(&image, Some(1)), Err(Refusal::MemoryOverflow));
        put(&mut image, 88, &u64::MAX.to_le_bytes());
        assert_eq!(
            ask(&image, Some(1)),
            Err(Refusal::InvalidProgramHeaderAddress)
        );
        // empty in both sizes: passed over, even where its address wraps
        image[104..112].fill(0);
        assert_eq!(ask(&image, Some(1)), loaded(17, 0, Pvh::Ignored));
    }

    #[test]
    fn more_bytes_in_the_file_than_in_memory_are_refused_before_all_else() {
        let rules = Rules::of(&[Departure::L8]);
        let refused = Err(Refusal::InvalidProgramHeaderFileSize);
        let mut image = small();
        image[104] = 2;
        assert_eq!(load(rules, &image, &mut [0; 32], None, None), refused);
        assert_eq!(
            load(PUBLISHED, &image, &mut [0; 32], None, None),
            loaded(16, 18, Pvh::Ignored)
        );
        // where its bytes or its address would be refused, too
        put(&mut image, 88, &u64::MAX.to_le_bytes());
        image[72..80].fill(0xff);
        for offset in [None, Some(1)] {
            assert_eq!(load(rules, &image, &mut [], offset, None), refused);
        }
        // as many are good, and other types may be of any sizes
        image = small();
        image[104] = 3;
        assert_eq!(
            load(rules, &image, &mut [0; 32], None, None),
            loaded(16, 19, Pvh::Ignored)
        );
        (image[64], image[104]) = (2, 2);
        assert!(load(rules, &image, &mut [0; 32], None, None).is_ok());
    }

    /// An image of note headers alone, whose bytes begin at these places behind them with these sizes: two PVH notes, of entry points 1
    /// and 2, and one that is cut off.
    fn with_notes(headers: &[(u8, u8)]) -> Vec<u8> {
        let mut image = small();
        image.truncate(64);
        image[56] = headers.len() as u8;
        let body = 64 + 56 * headers.len() as u16;
        for (place, size) in headers {
            let mut entry = [0; 56];
            entry[0] = 4;
            put(&mut entry, 8, &(body + u16::from(*place)).to_le_bytes());
            entry[32] = *size;
            image.extend(entry);
        }
        for address in [1, 2] {
            image.extend(*b"\x04\0\0\0\x04\0\0\0\x12\0\0\0Xen\0");
            image.extend([address, 0, 0, 0]);
        }
        image
    }

    /// The first and the second PVH note; no notes; notes that pass the image.
    const FIRST: (u8, u8) = (0, 20);
    const SECOND: (u8, u8) = (20, 20);
    const NONE: (u8, u8) = (0, 0);
    const CUT: (u8, u8) = (30, 1);

    fn pvh_by(rules: Rules, offset: Option<u64>, headers: &[(u8, u8)]) -> Result<Pvh, Refusal> {
        let loaded = load(rules, &with_notes(headers), &mut [], offset, None);
        loaded.map(|loaded| loaded.pvh)
    }

    fn at(address: u64, place: u64) -> Result<Pvh, Refusal> {
        let size = 4;
        Ok(Pvh::Present(note::Entry {
            address,
            place,
            size,
        }))
    }

    #[test]
    fn by_the_published_rules_the_last_note_header_decides() {
        let pvh = |headers: &[(u8, u8)]| pvh_by(PUBLISHED, None, headers);
        assert_eq!(pvh(&[FIRST]), at(1, 120 + 16));
        assert_eq!(pvh(&[FIRST, NONE]), Ok(Pvh::NotPresent));
        assert_eq!(pvh(&[FIRST, SECOND]), at(2, 176 + 36));
        assert_eq!(pvh_by(PUBLISHED, Some(0), &[FIRST, NONE]), Ok(Pvh::Ignored));
    }

    #[test]
    fn the_first_note_found_holds() {
        let rules = Rules::of(&[Departure::L7]);
        let pvh = |headers: &[(u8, u8)]| pvh_by(rules, None, headers);
        assert_eq!(pvh(&[FIRST, NONE]), at(1, 176 + 16));
        assert_eq!(pvh(&[FIRST, SECOND]), at(1, 176 + 16));
        assert_eq!(pvh(&[NONE, SECOND, FIRST, NONE]), at(2, 288 + 36));
        assert_eq!(pvh(&[NONE, NONE]), Ok(Pvh::NotPresent));
        // later note headers are still walked
        assert_eq!(pvh(&[FIRST, CUT]), Err(Refusal::ReadNoteHeader));
        // with an offset none is
        assert_eq!(pvh_by(rules, Some(0), &[FIRST, CUT]), Ok(Pvh::Ignored));
    }

    #[test]
    fn all_or_nothing_leaves_the_guest_of_a_refused_load() {
        let mut image = small();
        put(&mut image, 104, &u64::MAX.to_le_bytes());
        let rules = Rules::of(&[Departure::L13]);
        let mut guest = [0x55; 32];
        let refused = Err(Refusal::MemoryOverflow);
        assert_eq!(load(rules, &image, &mut guest, None, None), refused);
        assert_eq!(guest, [0x55; 32]);
        assert_eq!(load(PUBLISHED, &image, &mut guest, None, None), refused);
        assert_eq!(guest[16..19], [0xaa, 0xbb, 0xcc]);
        let mut guest = [0x55; 32];
        assert!(load(rules, &small(), &mut guest, None, None).is_ok());
        assert_eq!(guest[16..19], [0xaa, 0xbb, 0xcc]);
    }

    #[test]
    fn a_segment_lies_within_one_range() {
        let loaded = |map: &[u64]| {
            let mut guest = [0x55; 32];
            let answer = super::load(PUBLISHED, &small(), &mut guest, map, None, None);
            answer.map(|_| guest[16..19].to_vec())
        };
        let written = Ok(vec![0xaa, 0xbb, 0xcc]);
        for map in [[16, 3, 20, 1], [0, 15, 16, 16], [0, 1, 2, 30]] {
            assert_eq!(loaded(&map), written, "{map:?}");
        }
        let no_room = Err(Refusal::ReadKernelImage);
        for map in [[0, 17, 18, 14], [0, 18, 19, 13], [17, 3, 30, 1]] {
            assert_eq!(loaded(&map), no_room, "{map:?}");
        }
        assert_eq!(loaded(&[]), no_room);
    }

    #[test]
    fn a_bad_map_is_refused_before_anything_is_read() {
        for map in [&[0, 17, 17, 15][..], &[0, 33], &[0, 0], &[0]] {
            let mut guest = [0x55; 32];
            let answer = super::load(PUBLISHED, &[], &mut guest, map, None, None);
            assert_eq!(answer, Err(Refusal::BadMap));
        }
    }
}
