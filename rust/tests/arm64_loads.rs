//! Loads of arm64 Images.

mod images;

use images::{arm64_image, fresh, fresh_with};
use rekusoyen::loader::arm64::{Error, Image};
use rekusoyen::loader::{Arm64Steps, KernelLoaderResult, MapError, StepError};
use rekusoyen::{GuestAddress, Map};
use std::num::NonZeroU64;

const ROOM: usize = 100;

/// What a load of an image answers and leaves.
fn load(base: u64, image: &[u8]) -> (rekusoyen::loader::Result<KernelLoaderResult>, Vec<u8>) {
    let mut guest = fresh(ROOM);
    let answer = Image::load_into(&mut guest, GuestAddress(base), image);
    (answer, guest)
}

#[test]
fn the_whole_file_goes_behind_base_and_text_offset() {
    for (text_offset, size) in [(0, 1), (16, 200), (32, u64::MAX - 32), (33, 1)] {
        let image = arm64_image(text_offset, size, b"abc");
        let (answer, guest) = load(0, &image);
        let kernel = answer.unwrap();
        assert_eq!(kernel.kernel_load, GuestAddress(text_offset));
        assert_eq!(kernel.kernel_end, text_offset + size);
        assert_eq!(kernel.setup_header, None);
        assert_eq!(guest, fresh_with(ROOM, &[(text_offset as usize, &image)]));
    }
}

#[test]
fn a_base_of_two_mib_is_added() {
    let image = arm64_image(16, 200, b"abc");
    let mut guest = vec![0; (2 << 20) + ROOM];
    let kernel = Image::load_into(&mut guest, GuestAddress(2 << 20), &image).unwrap();
    assert_eq!(kernel.kernel_load, GuestAddress((2 << 20) + 16));
    assert_eq!(kernel.kernel_end, (2 << 20) + 216);
    let (before, behind) = guest.split_at((2 << 20) + 16);
    assert!(before.iter().all(|byte| *byte == 0));
    assert_eq!(behind[..67], image);
}

#[test]
fn a_refused_load_leaves_guest_memory() {
    let whole = arm64_image(16, 200, b"abc");
    let edited = |place: usize, byte| {
        let mut image = whole.clone();
        image[place] = byte;
        image
    };
    let last = (2u64 << 20).wrapping_neg();
    for (base, image, error) in [
        (0, whole[..63].to_vec(), Error::ShortImage),
        (0, vec![], Error::ShortImage),
        (0, edited(57, 0), Error::BadImageMagic),
        (0, edited(24, 11), Error::BigEndianImage),
        (0, edited(16, 0), Error::NoImageSize),
        (8, whole.clone(), Error::UnalignedBase),
        ((2 << 20) - 16, whole.clone(), Error::UnalignedBase),
        (last, arm64_image(2 << 20, 1, b""), Error::ImageStartWraps),
        (0, edited(8, 34), Error::NoRoomForImage),
        (2 << 20, whole.clone(), Error::NoRoomForImage),
        (0, arm64_image(1, u64::MAX, b""), Error::ImageEndWraps),
    ] {
        let (answer, guest) = load(base, &image);
        assert_eq!(answer, Err(error.into()));
        assert_eq!(guest, fresh(ROOM));
    }
}

#[test]
fn the_file_lies_within_one_range() {
    let image = arm64_image(16, 200, b"abc");
    let over = |ranges: &[(u64, usize)]| {
        let ranges: Vec<_> = ranges.iter().map(|(a, n)| (GuestAddress(*a), *n)).collect();
        let mut guest = fresh(ROOM);
        let map = Map::from_ranges(&ranges);
        let answer = Image::load_into_map(&mut guest, &map, GuestAddress(0), &image);
        (answer.map(|_| ()), guest)
    };
    let written = fresh_with(ROOM, &[(16, &image)]);
    for ranges in [&[(16, 67)][..], &[(0, 3), (10, 80)], &[(0, ROOM)]] {
        assert_eq!(over(ranges), (Ok(()), written.clone()));
    }
    let no_room = Err(MapError::Load(Error::NoRoomForImage.into()));
    for ranges in [&[][..], &[(17, 80)], &[(0, 82)], &[(0, 40), (41, 59)]] {
        assert_eq!(over(ranges), (no_room, fresh(ROOM)));
    }
    let touching = over(&[(0, 40), (40, 60)]);
    assert_eq!(touching, (Err(MapError::BadMap), fresh(ROOM)));
}

/// Each error has its text, alone and within the loader's, and its number.
#[test]
fn errors_have_texts_and_numbers() {
    use std::error::Error as _;
    let all = [
        (Error::ShortImage, Some(81)),
        (Error::BadImageMagic, Some(82)),
        (Error::BigEndianImage, Some(83)),
        (Error::NoImageSize, Some(84)),
        (Error::UnalignedBase, Some(85)),
        (Error::ImageStartWraps, Some(86)),
        (Error::NoRoomForImage, Some(87)),
        (Error::ImageEndWraps, Some(88)),
        (Error::SliceTooLong, Some(60)),
        (Error::SeekImage, None),
        (Error::ReadImage, None),
    ];
    for (error, number) in all {
        let outer = rekusoyen::loader::Error::from(error);
        assert_eq!((error.number(), outer.number()), (number, number));
        let inner = outer.source().unwrap().to_string();
        assert_eq!(inner, error.to_string());
        let text = format!("Kernel Loader: failed to load arm64 kernel image: {error}");
        assert_eq!(outer.to_string(), text);
    }
}

/// In portions of every size: each copies its budget, and the last answers as the whole load does.
#[test]
fn portions_make_the_whole_load() {
    let image = arm64_image(16, 200, b"abc");
    let (answer, whole) = load(0, &image);
    let map = Map::whole(ROOM);
    for budget in (1..=68).chain([u64::MAX]) {
        let mut guest = fresh(ROOM);
        let size = NonZeroU64::new(budget).unwrap();
        let steps = Image::load_in_portions(&mut guest, &map, GuestAddress(0), &image, size);
        let steps: Vec<_> = steps.map(|step| step.unwrap()).collect();
        let (last, before) = steps.split_last().unwrap();
        assert!(before
            .iter()
            .all(|step| step.copied == budget && step.answer.is_none()));
        assert_eq!(steps.iter().map(|step| step.copied).sum::<u64>(), 67);
        assert_eq!(last.answer, Some(answer));
        assert_eq!(guest, whole);
    }
}

#[test]
fn a_stop_leaves_the_whole_load_stopped_there() {
    let image = arm64_image(16, 200, b"abc");
    let map = Map::whole(ROOM);
    let mut steps = Arm64Steps::new(None, None);
    let mut guest = fresh(ROOM);
    for copied in [0, 30, 66] {
        if copied > 0 {
            let budget = if copied == 30 { 30 } else { 36 };
            let step = steps.step(&mut guest, &map, &image, budget).unwrap();
            assert_eq!((step.copied, step.answer), (budget, None));
        }
        let none = steps.step(&mut guest, &map, &image, 0);
        assert_eq!(none, Err(StepError::NoBudget));
        assert_eq!(guest, fresh_with(ROOM, &[(16, &image[..copied])]));
    }
    let shorter = steps.step(&mut guest, &map, &image[..66], 1);
    assert_eq!(shorter, Err(StepError::LentChanged));
    let last = steps.step(&mut guest, &map, &image, 9).unwrap();
    assert_eq!((last.copied, last.answer), (1, Some(load(0, &image).0)));
}
