//! A plan is what the load does: the same answer or refusal, and guest memory after its parts is guest memory after the load.

mod images;

use images::{arm64_image, fresh, pvh_note, BzImageFile, ElfImage, LOADABLE, NOTE};
use rekusoyen::loader::{arm64, elf, BzImage, Elf, KernelLoaderResult, MapError, Part, Plan};
use rekusoyen::{GuestAddress, Map};

const ROOM: usize = 0x3000;

/// Guest memory of two ranges.
fn map() -> Map {
    Map::from_ranges(&[(GuestAddress(0x100), 0xf00), (GuestAddress(0x2000), 0x1000)])
}

type Load<'a> = &'a dyn Fn(&mut [u8], &[u8]) -> Result<KernelLoaderResult, MapError>;
type Planned<'a> = &'a dyn Fn(&[u8]) -> Result<Plan, MapError>;

/// The plan of an image and of every image with a byte of its headers changed, and of its parts cut.
fn is_the_load(image: &[u8], headers: usize, load: Load, plan: Planned) {
    let check = |image: &[u8]| {
        let mut loaded = fresh(ROOM);
        let answer = load(&mut loaded, image);
        let planned = plan(image);
        let told = planned.as_ref().map(|plan| plan.kernel).map_err(|e| *e);
        assert_eq!(told, answer);
        let mut copied = fresh(ROOM);
        for part in planned.iter().flat_map(|plan| &plan.parts) {
            let (to, from) = (part.address.0 as usize, part.place as usize);
            let size = part.size as usize;
            assert!(size > 0);
            copied[to..to + size].copy_from_slice(&image[from..from + size]);
        }
        assert!(copied == loaded);
        answer.is_ok()
    };
    assert!(check(image));
    for length in 0..image.len() {
        check(&image[..length]);
    }
    let mut image = image.to_vec();
    for place in 0..headers {
        let before = image[place];
        for changed in [0, 1, 4, before ^ 0x10, before.wrapping_add(1), 255] {
            image[place] = changed;
            check(&image);
        }
        image[place] = before;
    }
}

#[test]
fn of_elf() {
    let image = ElfImage::entered_at(0x200)
        .with(LOADABLE, 0x200, b"first")
        .with(LOADABLE, 0x2ffd, b"end")
        // over the first one
        .with(LOADABLE, 0x202, b"x")
        .with(LOADABLE, u64::MAX, b"")
        .with(NOTE, 0, &pvh_note(0x204))
        .bytes();
    let map = map();
    for offset in [None, Some(GuestAddress(0)), Some(GuestAddress(0x100))] {
        let image = if offset == Some(GuestAddress(0x100)) {
            // the last segment would leave memory
            ElfImage::entered_at(7).with(LOADABLE, 7, b"moved").bytes()
        } else {
            image.clone()
        };
        is_the_load(
            &image,
            64 + 5 * 56,
            &|guest, image| Elf::load_into_map(guest, &map, offset, image, None),
            &|image| Elf::plan(&map, offset, image, None),
        );
    }
    let plan = Elf::plan(&map, None, &image, None).unwrap();
    let addresses: Vec<_> = plan.parts.iter().map(|part| part.address.0).collect();
    assert_eq!(addresses, [0x200, 0x2ffd, 0x202]);
    let note = plan.pvh_note.unwrap();
    assert_eq!(&image[note.place as usize..][..4], &0x204u32.to_le_bytes());
}

#[test]
fn of_bzimage() {
    let image = BzImageFile::loaded_at(0x2000, b"bzimage").bytes();
    let map = map();
    is_the_load(
        &image,
        0x26c,
        &|guest, image| BzImage::load_into_map(guest, &map, None, image, None),
        &|image| BzImage::plan(&map, None, image, None),
    );
    // a kernel of no bytes has no part, wherever it goes
    let empty = BzImageFile::loaded_at(0x1000, b"").bytes();
    assert_eq!(BzImage::plan(&map, None, &empty, None).unwrap().parts, []);
}

#[test]
fn of_arm64() {
    let image = arm64_image(0x2000, 200, b"abc");
    let map = map();
    let base = GuestAddress(0);
    is_the_load(
        &image,
        64,
        &|guest, image| arm64::Image::load_into_map(guest, &map, base, image),
        &|image| arm64::Image::plan(&map, base, image),
    );
    let part = Part {
        address: GuestAddress(0x2000),
        place: 0,
        size: 67,
    };
    let plan = arm64::Image::plan(&map, base, &image).unwrap();
    assert_eq!(plan.parts, [part]);
}

#[test]
fn a_map_that_is_not_good_has_no_plan() {
    let image = ElfImage::entered_at(0).bytes();
    let touching = Map::from_ranges(&[(GuestAddress(0), 8), (GuestAddress(8), 8)]);
    let falling = Map::from_ranges(&[(GuestAddress(100), 8), (GuestAddress(0), 8)]);
    for map in [touching, falling] {
        assert_eq!(Elf::plan(&map, None, &image, None), Err(MapError::BadMap));
    }
    // without memory there is a plan for what needs none
    let none = Map::default();
    assert_eq!(Elf::plan(&none, None, &image, None).unwrap().parts, []);
    let segment = ElfImage::entered_at(0).with(LOADABLE, 0, b"x").bytes();
    let refused = Elf::plan(&none, None, &segment, None).unwrap_err();
    assert_eq!(refused, MapError::Load(elf::Error::ReadKernelImage.into()));
}
