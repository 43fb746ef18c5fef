//! Guest memory that is a slice with a map.

mod images;

use images::{fresh, fresh_with, BzImageFile, ElfImage, LOADABLE};
use rekusoyen::loader::{
    bzimage, elf, load_cmdline_into, load_cmdline_into_map, BzImage, Cmdline, Elf, Error, MapError,
};
use rekusoyen::{GuestAddress, Map};
use std::error::Error as _;

const ROOM: usize = 80;

type Ranges<'a> = &'a [(u64, usize)];

fn map(ranges: Ranges) -> Map {
    let range = |(start, size): &(u64, usize)| (GuestAddress(*start), *size);
    ranges.iter().map(range).collect()
}

/// Three bytes for address 16.
fn elf_image() -> Vec<u8> {
    ElfImage::entered_at(16).with(LOADABLE, 16, b"abc").bytes()
}

/// The answers of the three loads of three bytes to address 16, and what each leaves of guest memory.
fn loads(map: &Map) -> [(Result<(), MapError>, Vec<u8>); 3] {
    let bzimage = BzImageFile::loaded_at(16, b"abc").bytes();
    let line = Cmdline::try_from("ab", 9).unwrap();
    let mut guests = [fresh(ROOM), fresh(ROOM), fresh(ROOM)];
    let [for_elf, for_bzimage, for_line] = &mut guests;
    let elf = Elf::load_into_map(for_elf, map, None, &elf_image(), None);
    let bzimage = BzImage::load_into_map(for_bzimage, map, None, &bzimage, None);
    let line = load_cmdline_into_map(for_line, map, GuestAddress(16), &line);
    let [for_elf, for_bzimage, for_line] = guests;
    [
        (elf.map(|_| ()), for_elf),
        (bzimage.map(|_| ()), for_bzimage),
        (line, for_line),
    ]
}

fn refusals() -> [Error; 3] {
    [
        elf::Error::ReadKernelImage.into(),
        bzimage::Error::ReadBzImageCompressedKernel.into(),
        Error::CommandLineOverflow,
    ]
}

#[test]
fn what_lies_within_one_range_is_loaded() {
    let maps: [Ranges; 6] = [
        &[(0, ROOM)],
        &[(16, 3)],
        &[(0, 19)],
        &[(16, 64)],
        &[(0, 15), (16, 3), (20, 60)],
        &[(0, 1), (2, 1), (16, 3), (79, 1)],
    ];
    for ranges in maps {
        let written: [&[u8]; 3] = [b"abc", b"abc", b"ab\0"];
        for ((answer, guest), bytes) in loads(&map(ranges)).into_iter().zip(written) {
            assert_eq!(answer, Ok(()), "{ranges:?}");
            assert_eq!(guest, fresh_with(ROOM, &[(16, bytes)]), "{ranges:?}");
        }
    }
}

#[test]
fn what_meets_a_hole_is_refused_and_nothing_is_written() {
    let maps: [Ranges; 8] = [
        &[],
        &[(0, 16)],
        &[(19, 61)],
        &[(16, 2)],
        &[(17, 63)],
        &[(0, 17), (18, 62)],
        &[(0, 18), (19, 61)],
        &[(16, 1), (18, 1)],
    ];
    for ranges in maps {
        for ((answer, guest), error) in loads(&map(ranges)).into_iter().zip(refusals()) {
            assert_eq!(answer, Err(error.into()), "{ranges:?}");
            assert_eq!(guest, fresh(ROOM), "{ranges:?}");
        }
    }
}

#[test]
fn a_map_that_is_not_good_is_refused() {
    let maps: [Ranges; 9] = [
        &[(16, 0)],
        &[(0, 20), (30, 0)],
        &[(0, ROOM + 1)],
        &[(0, 20), (80, 1)],
        &[(16, usize::MAX)],
        &[(u64::MAX, 17)],
        &[(0, 17), (17, 63)],
        &[(0, 18), (17, 63)],
        &[(40, 9), (0, 20)],
    ];
    for ranges in maps {
        for (answer, guest) in loads(&map(ranges)) {
            assert_eq!(answer, Err(MapError::BadMap), "{ranges:?}");
            assert_eq!(guest, fresh(ROOM), "{ranges:?}");
        }
    }
}

#[test]
fn a_map_has_at_most_sixteen_ranges() {
    for (count, accepted) in [(15, true), (16, true), (17, false)] {
        let ranges: Vec<_> = (0..count).map(|range| (4 * range, 3)).collect();
        for (answer, _) in loads(&map(&ranges)) {
            let wanted = if accepted {
                Ok(())
            } else {
                Err(MapError::BadMap)
            };
            assert_eq!(answer, wanted, "{count}");
        }
    }
}

#[test]
fn the_map_is_asked_before_the_image_and_the_line() {
    let bad = map(&[(0, 9)]);
    let guest = &mut [0; 8][..];
    let zero_inside = Cmdline::try_from("a\0b", 20).unwrap();
    let elf = Elf::load_into_map_with_note(guest, &bad, None, &[], None).map(|_| ());
    let bzimage = BzImage::load_into_map(guest, &bad, None, &[], None).map(|_| ());
    let line = load_cmdline_into_map(guest, &bad, GuestAddress(0), &zero_inside);
    assert_eq!([elf, bzimage, line], [Err(MapError::BadMap); 3]);
}

#[test]
fn over_the_whole_slice_all_is_as_without_a_map() {
    let line = Cmdline::try_from("ab", 9).unwrap();
    for room in [0, 16, 18, 19, 40] {
        let whole = Map::whole(room);
        let (mut with, mut without) = (fresh(room), fresh(room));
        let elf = Elf::load_into_map_with_note(&mut with, &whole, None, &elf_image(), None);
        let plain = Elf::load_into_with_note(&mut without, None, &elf_image(), None);
        assert_eq!(elf, plain.map_err(MapError::Load));
        let image = BzImageFile::loaded_at(8, b"abc").bytes();
        let bzimage = BzImage::load_into_map(&mut with, &whole, None, &image, None);
        let plain = BzImage::load_into(&mut without, None, &image, None);
        assert_eq!(bzimage, plain.map_err(MapError::Load));
        let put = load_cmdline_into_map(&mut with, &whole, GuestAddress(14), &line);
        let plain = load_cmdline_into(&mut without, GuestAddress(14), &line);
        assert_eq!(put, plain.map_err(MapError::Load));
        assert_eq!(with, without);
    }
}

#[test]
fn a_kernel_of_no_bytes_is_accepted_anywhere() {
    let image = BzImageFile::loaded_at(16, b"").bytes();
    for ranges in [&[][..], &[(0, 16), (17, 3)]] {
        let kernel = BzImage::load_into_map(&mut fresh(20), &map(ranges), None, &image, None);
        let kernel = kernel.unwrap();
        assert_eq!(
            (kernel.kernel_load, kernel.kernel_end),
            (GuestAddress(16), 16)
        );
    }
}

#[test]
fn a_map_tells_its_ranges() {
    let ranges = [(GuestAddress(3), 4), (GuestAddress(9), 1)];
    assert_eq!(
        Map::from_ranges(&ranges).ranges().collect::<Vec<_>>(),
        ranges
    );
    assert_eq!(Map::whole(5), Map::from_ranges(&[(GuestAddress(0), 5)]));
    assert_eq!(Map::whole(0), Map::default());
}

#[test]
fn errors_have_texts_and_numbers() {
    let inner = Error::from(elf::Error::ReadKernelImage);
    let error = MapError::from(inner);
    assert_eq!(error.to_string(), inner.to_string());
    assert_eq!(
        (error.number(), MapError::BadMap.number()),
        (Some(10), Some(77))
    );
    assert!(error.source().is_some() && MapError::BadMap.source().is_none());
    let text = "Kernel Loader: the map of guest memory is not good";
    assert_eq!(MapError::BadMap.to_string(), text);
}
