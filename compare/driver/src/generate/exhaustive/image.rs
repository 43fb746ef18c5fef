//! Loads of the small images.

use crate::examples::{self, put};
use crate::question::{Load, Options};

pub fn elf() -> impl Iterator<Item = Load> {
    let images = [examples::small_elf(), examples::elf_with_notes()];
    images
        .into_iter()
        .flat_map(|load| {
            let end = load.image.len();
            each_byte(load.clone(), 0, end)
                .chain(each_length(load.clone(), 0, 33))
                .chain(each_option(load, 40))
        })
        .chain(elf_fields())
}

/// Every two fields of the small image at all pairs of their limits.
fn elf_fields() -> impl Iterator<Item = Load> {
    // e_entry, e_phoff, p_offset, p_paddr, p_filesz, p_memsz
    const PLACES: [usize; 6] = [24, 32, 72, 88, 96, 104];
    let pairs = (0..PLACES.len()).flat_map(|a| (0..a).map(move |b| (PLACES[a], PLACES[b])));
    pairs.flat_map(|(first, second)| {
        let crossed = limits().flat_map(move |a| limits().map(move |b| (a, b)));
        crossed.flat_map(move |(a, b)| {
            [None, Some(0), Some(13), Some(u64::MAX - 15)].map(|offset| {
                let mut load = examples::small_elf();
                load.options.offset = offset;
                put(&mut load.image, first, &a.to_le_bytes());
                put(&mut load.image, second, &b.to_le_bytes());
                load
            })
        })
    })
}

/// Numbers around every limit that the small image, its guest and 64 bits set.
fn limits() -> impl Iterator<Item = u64> {
    const ANCHORS: [u64; 8] = [0, 16, 29, 32, 64, 67, 120, 123];
    const FAR: [u64; 4] = [1 << 32, 1 << 40, 1 << 63, u64::MAX - 16];
    let near = ANCHORS.into_iter().chain(FAR);
    near.flat_map(|anchor| [anchor.wrapping_sub(1), anchor, anchor + 1])
}

pub fn bzimage() -> impl Iterator<Item = Load> {
    let small = examples::small_bzimage();
    let mut four_sectors = small.clone();
    four_sectors.image[0x1f1] = 0;
    four_sectors.image.splice(1024..1024, vec![0; 1536]);
    let kernels = (0..4).flat_map(|kernel| {
        let mut load = examples::small_bzimage();
        load.image.truncate(1024 + kernel);
        each_option(load, 9)
    });
    let lengths = (0..small.image.len()).map({
        let small = small.clone();
        move |length| {
            let mut load = small.clone();
            load.image.truncate(length);
            load
        }
    });
    each_byte(small.clone(), 0x1f0, 0x1f1 + 124)
        .chain(lengths)
        .chain(each_length(small, 1020, 12))
        .chain(each_length(four_sectors, 2556, 12))
        .chain(kernels)
}

/// Each byte from `start` to `end` of the image with each value.
fn each_byte(load: Load, start: usize, end: usize) -> impl Iterator<Item = Load> {
    (start..end).flat_map(move |place| {
        let load = load.clone();
        (0..=255).map(move |value| {
            let mut load = load.clone();
            load.image[place] = value;
            load
        })
    })
}

/// Each length of the image from `shortest` on, with each length of the guest.
fn each_length(load: Load, shortest: usize, longest_guest: usize) -> impl Iterator<Item = Load> {
    (shortest..=load.image.len()).flat_map(move |length| {
        let load = load.clone();
        (0..=longest_guest).map(move |guest| {
            let mut load = load.clone();
            load.image.truncate(length);
            load.guest = examples::guest(guest);
            load
        })
    })
}

/// Offsets and lowest entries around every limit, with each length of the guest.
fn each_option(load: Load, longest_guest: usize) -> impl Iterator<Item = Load> {
    let offsets = || {
        let near = [0, 1, 4, 5, 8, 9, 13, 14, 16, 17].map(Some);
        let far = [1 << 32, 1 << 63, u64::MAX - 24, u64::MAX - 16].map(Some);
        let farther = [u64::MAX - 15, u64::MAX - 1, u64::MAX].map(Some);
        [None].into_iter().chain(near).chain(far).chain(farther)
    };
    let highmems = || {
        [
            None,
            Some(0),
            Some(3),
            Some(4),
            Some(5),
            Some(15),
            Some(16),
            Some(17),
            Some(u64::MAX),
        ]
    };
    let options =
        offsets().flat_map(move |offset| highmems().map(|highmem| Options { offset, highmem }));
    options.flat_map(move |options| {
        let load = load.clone();
        (0..=longest_guest).map(move |guest| Load {
            options,
            map: None,
            image: load.image.clone(),
            guest: examples::guest(guest),
        })
    })
}
