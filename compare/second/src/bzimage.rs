//! Loading a bzImage into guest memory.

use crate::fields::{u16_at, u32_at, within_limit};
use crate::map::Map;
use crate::Refusal;

/// Where the setup header begins in the image, and how many bytes it has.
pub const HEADER_PLACE: usize = 0x1f1;
pub const HEADER_SIZE: usize = 123;

const MAGIC: u32 = 0x5372_6448;
const OLDEST_VERSION: u16 = 0x0200;
const LOADED_HIGH: u8 = 1;
const SECTOR_SIZE: usize = 512;
const DEFAULT_SECTORS: usize = 4;

/// The sizes of the thirty-nine fields of the setup header, in order.
const FIELD_SIZES: [usize; 39] = [
    1, 2, 4, 2, 2, 2, 2, 2, 4, 2, 4, 2, 2, 1, 1, 2, 4, 4, 4, 4, 2, 1, 1, 4, 4, 4, 1, 1, 2, 4, 4, 8,
    4, 4, 8, 8, 4, 4, 4,
];

// the places in that list of the fields that are looked at
const SETUP_SECTS: usize = 0;
const HEADER: usize = 8;
const VERSION: usize = 9;
const LOADFLAGS: usize = 14;
const CODE32_START: usize = 16;

/// Where a field begins in the setup header.
const fn place_of(field: usize) -> usize {
    let mut place = 0;
    let mut earlier = 0;
    while earlier < field {
        place += FIELD_SIZES[earlier];
        earlier += 1;
    }
    place
}

/// What an accepted load answers.
#[derive(Clone, Copy, Debug, PartialEq, Eq)]
pub struct Loaded {
    pub load: u64,
    pub end: u64,
    pub header: [u8; HEADER_SIZE],
}

/// Loads the kernel of `image` into one of the ranges of `guest` that the numbers of `map` give. A refusal writes nothing.
pub fn load(
    image: &[u8],
    guest: &mut [u8],
    map: &[u64],
    offset: Option<u64>,
    highmem: Option<u64>,
) -> Result<Loaded, Refusal> {
    within_limit(image.len())?;
    within_limit(guest.len())?;
    let map = Map::from_numbers(map, guest.len())?;
    let mut header = read_header(image);
    if !is_bzimage(&header) {
        return Err(Refusal::InvalidBzImage);
    }
    let setup_size = setup_size(&header);
    if image.len() < setup_size {
        return Err(Refusal::Underflow);
    }
    let start = u64::from(u32_at(&header, place_of(CODE32_START)));
    if highmem.is_some_and(|lowest| start < lowest) {
        return Err(Refusal::InvalidKernelStartAddress);
    }
    let load = offset.unwrap_or(start);
    let kernel = &image[setup_size..];
    // an empty kernel is accepted at any address, also at one outside the guest
    if !kernel.is_empty() {
        let place = map.room(load, kernel.len() as u64);
        let place = place.ok_or(Refusal::ReadBzImageCompressedKernel)?;
        guest[place].copy_from_slice(kernel);
    }
    let end = load + kernel.len() as u64;
    let field = place_of(CODE32_START);
    header[field..field + 4].copy_from_slice(&(load as u32).to_le_bytes());
    Ok(Loaded { load, end, header })
}

/// Every byte that an accepted load writes, in its order: the address in guest memory, and the place in the image.
pub fn writes(image: &[u8], loaded: &Loaded) -> Vec<(usize, usize)> {
    let start = setup_size(&loaded.header);
    let write = |place| (loaded.load as usize + (place - start), place);
    (start..image.len()).map(write).collect()
}

/// The setup header; what lies past the image counts as zero.
fn read_header(image: &[u8]) -> [u8; HEADER_SIZE] {
    let mut header = [0; HEADER_SIZE];
    for (byte, stands) in header.iter_mut().zip(image.iter().skip(HEADER_PLACE)) {
        *byte = *stands;
    }
    header
}

fn is_bzimage(header: &[u8; HEADER_SIZE]) -> bool {
    u32_at(header, place_of(HEADER)) == MAGIC
        && u16_at(header, place_of(VERSION)) >= OLDEST_VERSION
        && header[place_of(LOADFLAGS)] & LOADED_HIGH != 0
}

/// How many bytes of the image come before the kernel.
fn setup_size(header: &[u8; HEADER_SIZE]) -> usize {
    let sectors = match usize::from(header[place_of(SETUP_SECTS)]) {
        0 => DEFAULT_SECTORS,
        sectors => sectors,
    };
    (sectors + 1) * SECTOR_SIZE
}

#[cfg(test)]
mod tests {
    use super::*;
    use crate::map::whole;

    /// A load over the whole slice.
    fn load(
        image: &[u8],
        guest: &mut [u8],
        offset: Option<u64>,
        highmem: Option<u64>,
    ) -> Result<Loaded, Refusal> {
        let map = whole(guest.len());
        super::load(image, guest, &map, offset, highmem)
    }

    fn image(sectors: u8, length: usize) -> Vec<u8> {
        let mut image = vec![0; length];
        image[0x1f1] = sectors;
        image[0x202..0x206].copy_from_slice(b"HdrS");
        image[0x206..0x208].copy_from_slice(&[0x0f, 0x02]);
        image[0x211] = 1;
        image[0x214..0x218].copy_from_slice(&[4, 0, 0, 0]);
        image
    }

    #[test]
    fn the_fields_stand_where_the_boot_protocol_has_them() {
        assert_eq!(FIELD_SIZES.iter().sum::<usize>(), HEADER_SIZE);
        assert_eq!(HEADER_PLACE + place_of(HEADER), 0x202);
        assert_eq!(HEADER_PLACE + place_of(VERSION), 0x206);
        assert_eq!(HEADER_PLACE + place_of(LOADFLAGS), 0x211);
        assert_eq!(HEADER_PLACE + place_of(CODE32_START), 0x214);
    }

    #[test]
    fn no_sectors_mean_four() {
        let mut image = image(0, 2562);
        image[2560..].copy_from_slice(&[7, 8]);
        let mut guest = [0x55; 6];
        let loaded = load(&image, &mut guest, None, None).unwrap();
        assert_eq!((loaded.load, loaded.end), (4, 6));
        assert_eq!(guest, [0x55, 0x55, 0x55, 0x55, 7, 8]);
        let answer = load(&image[..2559], &mut guest, None, None);
        assert_eq!(answer, Err(Refusal::Underflow));
    }

    #[test]
    fn the_header_comes_back_with_the_load_address() {
        let image = image(1, 1025);
        let loaded = load(&image, &mut [0; 3], Some(2), None).unwrap();
        let mut wanted: [u8; HEADER_SIZE] = image[0x1f1..0x1f1 + 123].try_into().unwrap();
        wanted[35] = 2;
        assert_eq!(loaded.header, wanted);
    }

    #[test]
    fn an_empty_kernel_is_accepted_at_any_address() {
        let loaded = load(&image(1, 1024), &mut [], Some(u64::MAX), None).unwrap();
        assert_eq!((loaded.load, loaded.end), (u64::MAX, u64::MAX));
        assert_eq!(loaded.header[35..39], [0xff; 4]);
    }

    #[test]
    fn a_kernel_that_passes_the_guest_writes_nothing() {
        let mut guest = [0x55; 6];
        let answer = load(&image(1, 1027), &mut guest, None, None);
        assert_eq!(answer, Err(Refusal::ReadBzImageCompressedKernel));
        assert_eq!(guest, [0x55; 6]);
        assert!(load(&image(1, 1026), &mut guest, None, None).is_ok());
    }

    #[test]
    fn highmem_is_compared_with_the_header_alone() {
        let image = image(1, 1025);
        let refused = Err(Refusal::InvalidKernelStartAddress);
        assert_eq!(load(&image, &mut [0; 32], Some(16), Some(5)), refused);
        assert!(load(&image, &mut [0; 32], Some(0), Some(4)).is_ok());
    }

    #[test]
    fn magic_version_and_flag_come_before_the_length() {
        for (place, value) in [(0x202, 0), (0x207, 1), (0x211, 0xfe)] {
            let mut image = image(9, 1024);
            image[place] = value;
            let answer = load(&image, &mut [], None, None);
            assert_eq!(answer, Err(Refusal::InvalidBzImage));
        }
        assert_eq!(load(&[], &mut [], None, None), Err(Refusal::InvalidBzImage));
    }

    #[test]
    fn a_kernel_lies_within_one_range_and_an_empty_one_anywhere() {
        let loaded = |length: usize, map: &[u64]| {
            super::load(&image(1, length), &mut [0; 12], map, None, None).map(|_| ())
        };
        assert_eq!(loaded(1027, &[4, 3]), Ok(()));
        let no_room = Err(Refusal::ReadBzImageCompressedKernel);
        for map in [&[0, 5, 6, 6][..], &[5, 7], &[0, 6], &[]] {
            assert_eq!(loaded(1027, map), no_room, "{map:?}");
            assert_eq!(loaded(1024, map), Ok(()));
        }
        let answer = super::load(&[], &mut [0; 12], &[0, 5, 5, 7], None, None);
        assert_eq!(answer, Err(Refusal::BadMap));
    }
}
