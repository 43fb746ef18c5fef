//! Images loaded in steps.

mod images;

use images::{fresh, fresh_with, BzImageFile, ElfImage, LOADABLE};
use rekusoyen::loader::{bzimage, elf, BzImage, BzImageSteps, Elf, ElfSteps, StepError};
use rekusoyen::{GuestAddress, Map};
use std::num::NonZeroU64;

const ROOM: usize = 64;

/// Two segments, seven bytes in all.
fn image() -> Vec<u8> {
    ElfImage::entered_at(16)
        .with(LOADABLE, 16, b"abcd")
        .with(LOADABLE, 40, b"xyz")
        .bytes()
}

/// What guest memory holds after so many bytes of the load.
fn stopped(bytes: u64) -> Vec<u8> {
    let places = [16, 17, 18, 19, 40, 41, 42].into_iter().zip(*b"abcdxyz");
    let mut guest = fresh(ROOM);
    for (address, byte) in places.take(bytes as usize) {
        guest[address] = byte;
    }
    guest
}

#[test]
fn portions_of_any_size_make_the_whole_load() {
    let map = Map::whole(ROOM);
    let mut whole = fresh(ROOM);
    let answer = Elf::load_into_with_note(&mut whole, None, &image(), None);
    for budget in [1, 2, 3, 4, 5, 6, 7, 8, u64::MAX] {
        let mut guest = fresh(ROOM);
        let image = image();
        let budget = NonZeroU64::new(budget).unwrap();
        let steps: Vec<_> = Elf::load_in_portions(&mut guest, &map, None, &image, None, budget)
            .map(|step| step.unwrap())
            .collect();
        assert_eq!(
            steps.len() as u64,
            1.max((7 + (budget.get() - 1).min(7)) / budget)
        );
        assert_eq!(steps.iter().map(|step| step.copied).sum::<u64>(), 7);
        let (last, before) = steps.split_last().unwrap();
        assert!(before
            .iter()
            .all(|step| step.answer.is_none() && step.copied == budget.get()));
        assert_eq!(last.answer, Some(answer.clone()));
        assert_eq!(guest, whole);
    }
}

#[test]
fn every_stop_leaves_the_whole_load_stopped_there() {
    let (image, map) = (image(), Map::whole(ROOM));
    let mut load = ElfSteps::new(None, None);
    let mut guest = fresh(ROOM);
    for copied in 1..=7 {
        let step = load.step(&mut guest, &map, &image, 1).unwrap();
        assert_eq!((step.copied, step.answer.is_some()), (1, copied == 7));
        assert_eq!(guest, stopped(copied));
    }
    let again = load.step(&mut guest, &map, &image, u64::MAX).unwrap();
    assert_eq!(again.copied, 0);
    assert!(matches!(again.answer, Some(Ok(_))));
    assert_eq!(guest, stopped(7));
}

#[test]
fn a_refused_call_is_no_step() {
    let (image, map) = (image(), Map::whole(ROOM));
    let other = Map::from_ranges(&[(GuestAddress(0), ROOM - 1)]);
    let bad = Map::from_ranges(&[(GuestAddress(0), ROOM + 1)]);
    let mut load = ElfSteps::new(None, None);
    let mut guest = fresh(ROOM);
    load.step(&mut guest, &map, &image, 3).unwrap();
    let before = load.clone();
    let refused = [
        (load.step(&mut guest, &map, &image, 0), StepError::NoBudget),
        (load.step(&mut guest, &bad, &image, 0), StepError::BadMap),
        (
            load.step(&mut guest, &other, &image, 1),
            StepError::LentChanged,
        ),
        (
            load.step(&mut guest, &map, &image[1..], 1),
            StepError::LentChanged,
        ),
    ];
    for (step, error) in refused {
        assert_eq!(step, Err(error));
        assert!(!error.to_string().is_empty());
    }
    assert_eq!(load, before);
    assert_eq!(guest, stopped(3));
    assert_eq!(load.step(&mut guest, &map, &image, 2).unwrap().copied, 2);
    assert_eq!(guest, stopped(5));
}

#[test]
fn a_refused_image_is_answered_in_the_first_step() {
    let map = Map::whole(ROOM);
    let mut guest = fresh(ROOM);
    let budget = NonZeroU64::new(1).unwrap();
    let mut portions = Elf::load_in_portions(&mut guest, &map, None, b"no ELF", None, budget);
    let step = portions.next().unwrap().unwrap();
    assert_eq!(step.copied, 0);
    assert_eq!(step.answer, Some(Err(elf::Error::ReadElfHeader.into())));
    assert!(portions.next().is_none());
    assert_eq!(guest, fresh(ROOM));
}

#[test]
fn a_bzimage_is_loaded_in_portions_as_in_one() {
    let map = Map::whole(ROOM);
    let image = BzImageFile::loaded_at(16, b"abcde").bytes();
    let mut whole = fresh(ROOM);
    let answer = BzImage::load_into(&mut whole, None, &image, None);
    assert!(answer.is_ok());
    for budget in [1, 2, 4, 5, 6, u64::MAX] {
        let mut guest = fresh(ROOM);
        let budget = NonZeroU64::new(budget).unwrap();
        let portions = BzImage::load_in_portions(&mut guest, &map, None, &image, None, budget);
        let steps: Vec<_> = portions.map(|step| step.unwrap()).collect();
        let (last, before) = steps.split_last().unwrap();
        assert!(before.iter().all(|step| step.answer.is_none()));
        assert_eq!(steps.iter().map(|step| step.copied).sum::<u64>(), 5);
        assert_eq!(last.answer, Some(answer));
        assert_eq!(guest, whole);
    }
}

#[test]
fn a_bzimage_stops_and_repeats_its_answer() {
    let map = Map::whole(ROOM);
    let image = BzImageFile::loaded_at(16, b"abc").bytes();
    let mut load = BzImageSteps::new(Some(GuestAddress(8)), None);
    let mut guest = fresh(ROOM);
    assert_eq!(load.step(&mut guest, &map, &image, 2).unwrap().copied, 2);
    assert_eq!(guest, fresh_with(ROOM, &[(8, b"ab")]));
    let before = load.clone();
    let none = load.step(&mut guest, &map, &image, 0);
    assert_eq!(none, Err(StepError::NoBudget));
    let shorter = load.step(&mut guest, &map, &image[1..], 1);
    assert_eq!(shorter, Err(StepError::LentChanged));
    assert_eq!(load, before);
    let last = load.step(&mut guest, &map, &image, 9).unwrap();
    let header = last.answer.unwrap().unwrap().setup_header.unwrap();
    assert_eq!(({ header.code32_start }, last.copied), (8, 1));
    let again = load.step(&mut guest, &map, &image, 9).unwrap();
    assert_eq!((again.copied, again.answer), (0, last.answer));
    let mut refused = BzImageSteps::new(None, None);
    let step = refused.step(&mut guest, &map, b"no bzImage", 1).unwrap();
    assert_eq!(
        step.answer,
        Some(Err(bzimage::Error::InvalidBzImage.into()))
    );
    assert_eq!(guest, fresh_with(ROOM, &[(8, b"abc")]));
}
