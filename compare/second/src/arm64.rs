//! Loading an arm64 Image into guest memory.

use crate::fields::{u32_at, u64_at, within_limit};
use crate::map::Map;
use crate::Refusal;

const HEADER_SIZE: usize = 64;
const TEXT_OFFSET: usize = 8;
const IMAGE_SIZE: usize = 16;
const FLAGS: usize = 24;
const MAGIC: usize = 56;

/// `ARM` and 64 hex, the first byte least.
const THE_MAGIC: u32 = 0x644d_5241;
const BIG_ENDIAN: u64 = 1;
const ALIGNMENT: u64 = 2 << 20;

/// What an accepted load answers.
#[derive(Clone, Copy, Debug, PartialEq, Eq)]
pub struct Loaded {
    pub load: u64,
    pub end: u64,
}

/// Puts the whole file into one of the ranges of `guest` that the numbers of `map` give. A refusal writes nothing.
pub fn load(image: &[u8], guest: &mut [u8], map: &[u64], base: u64) -> Result<Loaded, Refusal> {
    within_limit(image.len())?;
    within_limit(guest.len())?;
    let map = Map::from_numbers(map, guest.len())?;
    if image.len() < HEADER_SIZE {
        return Err(Refusal::ShortImage);
    }
    if u32_at(image, MAGIC) != THE_MAGIC {
        return Err(Refusal::BadImageMagic);
    }
    if u64_at(image, FLAGS) & BIG_ENDIAN != 0 {
        return Err(Refusal::BigEndianImage);
    }
    let size = u64_at(image, IMAGE_SIZE);
    if size == 0 {
        return Err(Refusal::NoImageSize);
    }
    if base % ALIGNMENT != 0 {
        return Err(Refusal::UnalignedBase);
    }
    let start = u128::from(base) + u128::from(u64_at(image, TEXT_OFFSET));
    let load = u64::try_from(start).map_err(|_| Refusal::ImageStartWraps)?;
    let place = map.room(load, image.len() as u64);
    let place = place.ok_or(Refusal::NoRoomForImage)?;
    let end = start + u128::from(size);
    let end = u64::try_from(end).map_err(|_| Refusal::ImageEndWraps)?;
    guest[place].copy_from_slice(image);
    Ok(Loaded { load, end })
}

/// Every byte that an accepted load writes, in its order: the address, and the place in the image.
pub fn writes(image: &[u8], loaded: &Loaded) -> Vec<(usize, usize)> {
    let places = 0..image.len();
    places
        .map(|place| (loaded.load as usize + place, place))
        .collect()
}

#[cfg(test)]
mod tests {
    use super::*;
    use crate::map::whole;

    fn image(text_offset: u64, size: u64) -> Vec<u8> {
        let mut image: Vec<u8> = (1..=66).collect();
        image[TEXT_OFFSET..][..8].copy_from_slice(&text_offset.to_le_bytes());
        image[IMAGE_SIZE..][..8].copy_from_slice(&size.to_le_bytes());
        image[FLAGS..][..8].copy_from_slice(&0xfeu64.to_le_bytes());
        image[MAGIC..][..4].copy_from_slice(b"ARM\x64");
        image
    }

    fn loaded(image: &[u8], base: u64) -> Result<(u64, u64), Refusal> {
        let mut guest = [0x55; 80];
        let answer = load(image, &mut guest, &whole(80), base);
        let mut wanted = [0x55; 80];
        if let Ok(loaded) = answer {
            wanted[loaded.load as usize..][..image.len()].copy_from_slice(image);
        }
        assert_eq!(guest, wanted);
        answer.map(|loaded| (loaded.load, loaded.end))
    }

    #[test]
    fn the_whole_file_goes_behind_base_and_text_offset() {
        assert_eq!(loaded(&image(0, 9), 0), Ok((0, 9)));
        assert_eq!(loaded(&image(14, 9), 0), Ok((14, 23)));
        assert_eq!(loaded(&image(15, 9), 0), Err(Refusal::NoRoomForImage));
        assert_eq!(loaded(&image(14, 9), 2 << 20), Err(Refusal::NoRoomForImage));
    }

    #[test]
    fn the_base_is_a_multiple_of_2_mib_whatever_the_text_offset() {
        for base in [1, (2 << 20) - 1, (2 << 20) - 14, 1 << 20] {
            let refused = Err(Refusal::UnalignedBase);
            assert_eq!(loaded(&image(14, 9), base), refused);
        }
    }

    #[test]
    fn sums_are_whole_numbers() {
        let last = (2u64 << 20).wrapping_neg();
        let below = image((2 << 20) - 1, u64::MAX);
        assert_eq!(loaded(&below, last), Err(Refusal::NoRoomForImage));
        let above = image(2 << 20, u64::MAX);
        assert_eq!(loaded(&above, last), Err(Refusal::ImageStartWraps));
        let end = image(3, u64::MAX - 3);
        assert_eq!(loaded(&end, 0), Ok((3, u64::MAX)));
        let past = image(3, u64::MAX - 2);
        assert_eq!(loaded(&past, 0), Err(Refusal::ImageEndWraps));
    }

    #[test]
    fn the_header_is_asked_in_order() {
        let mut bad = image(0, 0);
        bad[FLAGS] |= 1;
        bad[MAGIC] = b'a';
        assert_eq!(loaded(&bad[..63], 1), Err(Refusal::ShortImage));
        assert_eq!(loaded(&bad, 1), Err(Refusal::BadImageMagic));
        bad[MAGIC] = b'A';
        assert_eq!(loaded(&bad, 1), Err(Refusal::BigEndianImage));
        bad[FLAGS] &= 0xfe;
        assert_eq!(loaded(&bad, 1), Err(Refusal::NoImageSize));
        bad[IMAGE_SIZE] = 1;
        assert_eq!(loaded(&bad, 1), Err(Refusal::UnalignedBase));
        assert_eq!(loaded(&bad[..64], 0), Ok((0, 1)));
    }

    #[test]
    fn the_file_lies_within_one_range() {
        let over = |map: &[u64]| load(&image(4, 9), &mut [0; 80], map, 0).map(|_| ());
        assert_eq!(over(&[4, 66]), Ok(()));
        for map in [&[0, 69][..], &[5, 75], &[0, 40, 41, 39], &[]] {
            assert_eq!(over(map), Err(Refusal::NoRoomForImage), "{map:?}");
        }
        let answer = load(&[], &mut [0; 80], &[0, 81], 0);
        assert_eq!(answer, Err(Refusal::BadMap));
    }
}
