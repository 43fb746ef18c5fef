//! The PVH start block: written into guest memory with its two lists, and checked there.

use crate::fields::within_limit;
use crate::map::Map;
use crate::Refusal;
use std::ops::Range;

pub const MAGIC: u64 = 0x336e_c578;
pub const VERSION: u64 = 1;

/// The widths of the fields of the block, of a module and of a range of the memory map. The last field of each is reserved.
pub const BLOCK: [usize; 10] = [4, 4, 4, 4, 8, 8, 8, 8, 4, 4];
pub const MODULE: [usize; 4] = [8, 8, 8, 8];
pub const RANGE: [usize; 4] = [8, 8, 4, 4];

#[derive(Clone, Copy, Debug, PartialEq, Eq)]
pub struct Start {
    pub block: u64,
    pub modules: u64,
    pub ranges: u64,
    pub flags: u32,
    pub command_line: u64,
    pub rsdp: u64,
}

/// What an accepted block says: its ten numbers, and four for each row of its lists.
#[derive(Clone, Debug, PartialEq, Eq)]
pub struct Found {
    pub block: Vec<u64>,
    pub modules: Vec<u64>,
    pub ranges: Vec<u64>,
}

/// Writes the block and its lists, of which each row has four numbers.
pub fn write(
    guest: &mut [u8],
    map: &[u64],
    start: Start,
    modules: &[u64],
    ranges: &[u64],
) -> Result<(), Refusal> {
    within_limit(guest.len())?;
    let map = Map::from_numbers(map, guest.len())?;
    let module_bytes = rows(&MODULE, modules)?;
    let range_bytes = rows(&RANGE, ranges)?;
    let (module_count, range_count) = (modules.len() as u64 / 4, ranges.len() as u64 / 4);
    if module_count > u32::MAX.into() || range_count > u32::MAX.into() {
        return Err(Refusal::BadPart);
    }
    let block = [
        MAGIC,
        VERSION,
        start.flags.into(),
        module_count,
        start.modules,
        start.command_line,
        start.rsdp,
        start.ranges,
        range_count,
        0,
    ];
    let block_bytes = bytes_of(&BLOCK, &block);
    let parts = [
        (start.block, block_bytes),
        (start.modules, module_bytes),
        (start.ranges, range_bytes),
    ];
    let mut places: Vec<Range<usize>> = Vec::new();
    for (address, bytes) in &parts {
        // no rows lie anywhere and overlap nothing
        if bytes.is_empty() {
            places.push(0..0);
            continue;
        }
        let place = map.room(*address, bytes.len() as u64);
        let place = place.ok_or(Refusal::BadPart)?;
        if places.iter().any(|other| meet(other, &place)) {
            return Err(Refusal::BadPart);
        }
        places.push(place);
    }
    for (place, (_, bytes)) in places.into_iter().zip(parts) {
        guest[place].copy_from_slice(&bytes);
    }
    Ok(())
}

/// Checks the block at an address, no matter who wrote it.
pub fn check(guest: &[u8], map: &[u64], at: u64) -> Result<Found, Refusal> {
    within_limit(guest.len())?;
    let map = Map::from_numbers(map, guest.len())?;
    let place = map.room(at, BLOCK.iter().sum::<usize>() as u64);
    let block = numbers_of(&BLOCK, &guest[place.ok_or(Refusal::BadPart)?]);
    if block[0] != MAGIC {
        return Err(Refusal::BadStartMagic);
    }
    if block[1] != VERSION {
        return Err(Refusal::BadStartVersion);
    }
    if block[9] != 0 {
        return Err(Refusal::BadStartReserved);
    }
    let modules = list(guest, &map, &MODULE, block[4], block[3])?;
    let ranges = list(guest, &map, &RANGE, block[7], block[8])?;
    Ok(Found {
        block,
        modules,
        ranges,
    })
}

/// The numbers of a list that lies in guest memory and whose reserved fields are 0.
fn list(
    guest: &[u8],
    map: &Map,
    widths: &[usize; 4],
    at: u64,
    count: u64,
) -> Result<Vec<u64>, Refusal> {
    if count == 0 {
        return Ok(vec![]);
    }
    let place = map.room(at, count * widths.iter().sum::<usize>() as u64);
    let numbers = numbers_of(widths, &guest[place.ok_or(Refusal::BadPart)?]);
    let mut reserved = numbers.iter().skip(3).step_by(4);
    if !reserved.all(|number| *number == 0) {
        return Err(Refusal::BadStartReserved);
    }
    Ok(numbers)
}

/// The bytes of whole rows whose numbers fit their fields; a reserved one is 0.
fn rows(widths: &[usize; 4], numbers: &[u64]) -> Result<Vec<u8>, Refusal> {
    if numbers.len() % 4 != 0 {
        return Err(Refusal::BadList);
    }
    for row in numbers.chunks(4) {
        let fits = |(number, width): (&u64, &usize)| *width == 8 || *number < 1 << (8 * width);
        if !row.iter().zip(widths).all(fits) || row[3] != 0 {
            return Err(Refusal::BadList);
        }
    }
    Ok(bytes_of(widths, numbers))
}

fn bytes_of(widths: &[usize], numbers: &[u64]) -> Vec<u8> {
    let widths = widths.iter().cycle();
    let fields = numbers.iter().zip(widths);
    fields
        .flat_map(|(number, width)| number.to_le_bytes().into_iter().take(*width))
        .collect()
}

fn numbers_of(widths: &[usize], bytes: &[u8]) -> Vec<u64> {
    let mut numbers = Vec::new();
    let mut rest = bytes;
    for width in widths.iter().cycle() {
        if rest.is_empty() {
            break;
        }
        let (field, left) = rest.split_at(*width);
        let mut number = [0; 8];
        number[..*width].copy_from_slice(field);
        numbers.push(u64::from_le_bytes(number));
        rest = left;
    }
    numbers
}

/// Whether two places share a byte.
fn meet(a: &Range<usize>, b: &Range<usize>) -> bool {
    a.start < b.end && b.start < a.end
}

#[cfg(test)]
mod tests {
    use super::*;
    use crate::map::whole;

    const START: Start = Start {
        block: 8,
        modules: 64,
        ranges: 96,
        flags: 3,
        command_line: 5,
        rsdp: 6,
    };

    const ONE: [u64; 4] = [1, 2, 3, 0];

    fn written(start: Start, modules: &[u64], ranges: &[u64]) -> Result<Vec<u8>, Refusal> {
        let mut guest = vec![0xa5; 130];
        let before = guest.clone();
        let map = whole(guest.len());
        let outcome = write(&mut guest, &map, start, modules, ranges);
        assert!(outcome.is_ok() || guest == before);
        outcome.map(|()| guest)
    }

    #[test]
    fn what_is_written_is_accepted_and_read_back() {
        let guest = written(START, &ONE, &ONE).unwrap();
        assert_eq!(guest[..8], [0xa5; 8]);
        assert_eq!(guest[120..], [0xa5; 10]);
        let found = check(&guest, &whole(130), 8).unwrap();
        assert_eq!(found.block, [MAGIC, 1, 3, 1, 64, 5, 6, 96, 1, 0]);
        assert_eq!(found.modules, ONE);
        assert_eq!(found.ranges, ONE);
        for address in [0, 7, 9, 74] {
            let answer = check(&guest, &whole(130), address);
            assert_eq!(answer, Err(Refusal::BadStartMagic), "{address}");
        }
        for address in [75, u64::MAX] {
            let answer = check(&guest, &whole(130), address);
            assert_eq!(answer, Err(Refusal::BadPart), "{address}");
        }
    }

    #[test]
    fn parts_lie_in_memory_and_apart() {
        let at = |block, modules, ranges| Start {
            block,
            modules,
            ranges,
            ..START
        };
        assert!(written(at(0, 56, 88), &ONE, &ONE).is_ok());
        assert!(written(at(74, 0, 32), &ONE, &ONE).is_ok());
        for start in [at(75, 0, 32), at(74, 43, 0), at(74, 0, 51), at(74, 0, 31)] {
            assert_eq!(written(start, &ONE, &ONE), Err(Refusal::BadPart));
        }
        // no rows lie anywhere
        assert!(written(at(74, 80, u64::MAX), &[], &[]).is_ok());
    }

    #[test]
    fn a_list_is_one_of_rows() {
        for bad in [&[1][..], &[1, 2, 3, 4], &[1, 2, 1 << 32, 0]] {
            assert_eq!(written(START, &ONE, bad), Err(Refusal::BadList));
        }
        assert!(written(START, &[1, 2, 1 << 32, 0], &ONE).is_ok());
    }

    #[test]
    fn every_fixed_field_is_checked() {
        let guest = written(START, &ONE, &ONE).unwrap();
        let fixed = [
            (8..12, Refusal::BadStartMagic),
            (12..16, Refusal::BadStartVersion),
            (60..64, Refusal::BadStartReserved),
            (88..96, Refusal::BadStartReserved),
            (116..120, Refusal::BadStartReserved),
        ];
        for (places, refusal) in fixed {
            for place in places {
                let mut other = guest.clone();
                other[place] ^= 0x10;
                assert_eq!(check(&other, &whole(130), 8), Err(refusal), "{place}");
            }
        }
    }
}
