//! Guest memory of vm-memory's regions: holes, regions that touch, a start other than 0, and more ranges than a map takes.

mod images;

use std::io::Cursor;

use images::{arm64_image, fresh, pvh_note, BzImageFile, ElfImage, LOADABLE, NOTE};
use rekusoyen::loader::{
    self, arm64, bzimage, elf, load_cmdline, BzImage, Cmdline, Elf, KernelLoader,
    KernelLoaderResult, PvhBootCapability,
};
use rekusoyen::Refusal;
use vm_memory::bitmap::AtomicBitmap;
use vm_memory::{
    Bytes, GuestAddress, GuestMemoryBackend, GuestMemoryError, GuestMemoryMmap, GuestMemoryRegion,
    GuestMemoryRegionBytes, GuestRegionCollection, GuestRegionMmap, GuestUsize,
    MemoryRegionAddress, MmapRegion, VolatileSlice,
};

type Memory = GuestMemoryMmap<AtomicBitmap>;

fn bitmap(region: &GuestRegionMmap<AtomicBitmap>) -> &AtomicBitmap {
    MmapRegion::bitmap(region)
}

fn memory(regions: &[(u64, usize)]) -> Memory {
    let regions: Vec<_> = regions
        .iter()
        .map(|(start, size)| (GuestAddress(*start), *size))
        .collect();
    let memory = Memory::from_ranges(&regions).unwrap();
    for (start, size) in regions {
        memory.write_slice(&fresh(size), start).unwrap();
    }
    for region in memory.iter() {
        bitmap(region).reset();
    }
    memory
}

/// Guest memory has these bytes at these addresses, and no other byte changed; a page is marked exactly where it has one of them.
#[track_caller]
fn holds(memory: &Memory, written: &[(u64, &[u8])]) {
    for region in memory.iter() {
        let start = region.start_addr().0;
        let mut found = vec![0; region.len() as usize];
        memory.read_slice(&mut found, region.start_addr()).unwrap();
        let mut wanted = fresh(found.len());
        let page = bitmap(region).byte_size() / bitmap(region).len();
        let mut pages = vec![false; bitmap(region).len()];
        for (address, bytes) in written {
            for (address, byte) in (*address..).zip(*bytes) {
                if (start..start + region.len()).contains(&address) {
                    let place = (address - start) as usize;
                    wanted[place] = *byte;
                    pages[place / page] = true;
                }
            }
        }
        assert!(found == wanted, "the region at {start:x}");
        let marked = (0..pages.len()).map(|page| bitmap(region).is_bit_set(page));
        assert_eq!(marked.collect::<Vec<_>>(), pages, "the region at {start:x}");
    }
}

fn elf(memory: &Memory, image: &ElfImage) -> loader::Result<KernelLoaderResult> {
    Elf::load(memory, None, &mut Cursor::new(image.bytes()), None)
}

fn bzimage(memory: &Memory, at: u64) -> loader::Result<KernelLoaderResult> {
    let image = BzImageFile::loaded_at(0, b"bzimage").bytes();
    BzImage::load(
        memory,
        Some(GuestAddress(at)),
        &mut Cursor::new(image),
        None,
    )
}

fn line(memory: &Memory, at: u64) -> loader::Result<()> {
    let line = Cmdline::try_from("quiet", 10).unwrap();
    load_cmdline(memory, GuestAddress(at), &line)
}

const PAGE: u64 = 0x1_0000;

/// The layout of a PC: memory below 640 KiB and from 1 MiB on, a hole below 4 GiB, and memory behind it.
#[test]
fn kernels_and_lines_go_into_any_region() {
    let regions = &[(0, 0xa_0000), (0x10_0000, 0x10_0000), (1 << 32, 0x10_0000)];
    let image = ElfImage::entered_at(0x10_0000)
        .with(LOADABLE, 0x10_0000, b"first")
        .with(LOADABLE, 1 << 32, b"second")
        .with(LOADABLE, 0x9_fffd, b"end")
        .with(NOTE, 0, &pvh_note(7));
    let guest = memory(regions);
    let kernel = elf(&guest, &image).unwrap();
    assert_eq!(kernel.kernel_load, GuestAddress(0x10_0000));
    assert_eq!(kernel.kernel_end, (1 << 32) + 6);
    let entry = PvhBootCapability::PvhEntryPresent(GuestAddress(7));
    assert_eq!(kernel.pvh_boot_cap, entry);
    let written: &[(u64, &[u8])] = &[
        (0x10_0000, b"first"),
        (1 << 32, b"second"),
        (0x9_fffd, b"end"),
    ];
    holds(&guest, written);

    for at in [0, 0x9_fff9, 0x10_0000, 0x1f_fff9, 1 << 32] {
        let guest = memory(regions);
        assert_eq!(bzimage(&guest, at).unwrap().kernel_end, at + 7);
        holds(&guest, &[(at, b"bzimage")]);
        let guest = memory(regions);
        assert_eq!(line(&guest, at), Ok(()));
        holds(&guest, &[(at, b"quiet\0")]);
    }
}

#[test]
fn what_meets_a_hole_is_refused_and_nothing_is_written() {
    let guest = memory(&[(PAGE, 0x1000), (PAGE + 0x1001, 0x1000)]);
    let end = PAGE + 0x2001;
    for (at, is_hole) in [
        (0, true),
        (PAGE - 1, true),
        (PAGE + 0xffe, true),
        (PAGE + 0x1000, true),
        (end - 2, false),
        (end, false),
        (u64::MAX, false),
    ] {
        let image = ElfImage::entered_at(0)
            .with(LOADABLE, PAGE, b"good")
            .with(LOADABLE, at, b"bad");
        let refused = elf(&guest, &image);
        // what has no address has no end either
        let error = elf::Error::ReadKernelImage;
        assert_eq!(refused, Err(error.into()), "{at:x}");
        let error = bzimage::Error::ReadBzImageCompressedKernel;
        assert_eq!(bzimage(&guest, at), Err(error.into()), "{at:x}");
        // linux-loader tells a hole from the end
        let error = if is_hole {
            loader::Error::CommandLineCopy
        } else {
            loader::Error::CommandLineOverflow
        };
        assert_eq!(line(&guest, at), Err(error), "{at:x}");
        assert_eq!(error.refusal(), Some(Refusal::CommandLineOverflow));
    }
    holds(&guest, &[]);
}

#[test]
fn regions_that_touch_are_one_range() {
    let regions = &[(PAGE, 0x1000), (PAGE + 0x1000, 0x1000), (PAGE + 0x2000, 2)];
    let across = PAGE + 0x1000 - 2;
    let guest = memory(regions);
    let image = ElfImage::entered_at(0).with(LOADABLE, across, b"across");
    assert_eq!(elf(&guest, &image).unwrap().kernel_end, across + 6);
    holds(&guest, &[(across, b"across")]);
    // all three
    let long = vec![b'x'; 0x1004];
    let guest = memory(regions);
    let image = ElfImage::entered_at(0).with(LOADABLE, across, &long);
    elf(&guest, &image).unwrap();
    holds(&guest, &[(across, &long)]);
    let guest = memory(regions);
    bzimage(&guest, across).unwrap();
    holds(&guest, &[(across, b"bzimage")]);
    let guest = memory(regions);
    line(&guest, across).unwrap();
    holds(&guest, &[(across, b"quiet\0")]);
}

#[test]
fn memory_may_begin_anywhere() {
    let start = 2 << 30;
    let guest = memory(&[(start, 0x2000)]);
    let image = ElfImage::entered_at(0x10).with(LOADABLE, 0x10, b"elf");
    let offset = Some(GuestAddress(start));
    let kernel = Elf::load(&guest, offset, &mut Cursor::new(image.bytes()), None).unwrap();
    assert_eq!(kernel.kernel_load, GuestAddress(start + 0x10));
    holds(&guest, &[(start + 0x10, b"elf")]);
    assert_eq!(elf(&guest, &image), Err(elf::Error::ReadKernelImage.into()));

    let guest = memory(&[(start, 0x2000)]);
    let image = arm64_image(16, 200, b"abc");
    let load = |base| arm64::Image::load(&guest, base, &mut Cursor::new(&image), None);
    assert_eq!(load(None), Err(arm64::Error::NoRoomForImage.into()));
    assert_eq!(load(offset).unwrap().kernel_end, start + 216);
    holds(&guest, &[(start + 16, &image)]);
}

/// So many ranges of 4 KiB, with as much between them; behind each one two more regions that touch it.
fn apart(count: u64) -> Memory {
    let regions: Vec<_> = (0..count)
        .flat_map(|index| {
            let start = index * 0x2000;
            [
                (start, 0x100),
                (start + 0x100, 0x700),
                (start + 0x800, 0x800),
            ]
        })
        .collect();
    memory(&regions)
}

#[test]
fn more_than_16_ranges_have_an_error_that_says_so() {
    let image = ElfImage::entered_at(0).with(LOADABLE, 0x2000, b"elf");
    let arm64 = arm64_image(16, 200, b"abc");
    let arm64 = |guest: &Memory| arm64::Image::load(guest, None, &mut Cursor::new(&arm64), None);
    let guest = apart(16);
    elf(&guest, &image).unwrap();
    bzimage(&guest, 0x1e000).unwrap();
    arm64(&guest).unwrap();
    line(&guest, 0x4000).unwrap();

    let guest = apart(17);
    let refused = [
        elf(&guest, &image).unwrap_err(),
        bzimage(&guest, 0).unwrap_err(),
        arm64(&guest).unwrap_err(),
    ];
    holds(&guest, &[]);
    let errors: [loader::Error; 3] = [
        elf::Error::Align.into(),
        bzimage::Error::Overflow.into(),
        arm64::Error::TooManyRanges.into(),
    ];
    assert_eq!(refused, errors);
    for error in refused {
        assert_eq!(error.refusal(), Some(Refusal::BadMap));
        assert!(error.to_string().contains("more than 16 ranges"), "{error}");
    }
    // a line needs its own range alone
    line(&guest, 0x2_0ff0).unwrap();
    holds(&guest, &[(0x2_0ff0, b"quiet\0")]);
}

/// Memory at 2^40 and above is no room, and does not disturb a load below.
#[test]
fn guest_memory_may_be_longer_than_a_slice() {
    let high = 1 << 40;
    let regions = &[
        (0, 0x4000),
        (high - 0x1000, 0x2000),
        (high + 0x3000, 0x1000),
    ];
    let guest = memory(regions);
    let image = |at| ElfImage::entered_at(0).with(LOADABLE, at, b"elf");
    for at in [high - 2, high, high + 0x3000] {
        let refused = elf(&guest, &image(at));
        assert_eq!(refused, Err(elf::Error::ReadKernelImage.into()), "{at:x}");
        assert_eq!(line(&guest, at), Err(loader::Error::CommandLineCopy));
    }
    holds(&guest, &[]);
    elf(&guest, &image(high - 3)).unwrap();
    line(&guest, 0x1000).unwrap();
    holds(&guest, &[(high - 3, b"elf"), (0x1000, b"quiet\0")]);
}

#[test]
fn guest_memory_without_regions_has_no_room() {
    let guest = Memory::new();
    let image = ElfImage::entered_at(3);
    assert_eq!(elf(&guest, &image).unwrap().kernel_load, GuestAddress(3));
    let image = image.with(LOADABLE, 0, b"elf");
    assert_eq!(elf(&guest, &image), Err(elf::Error::ReadKernelImage.into()));
    assert_eq!(line(&guest, 0), Err(loader::Error::CommandLineOverflow));
}

/// A region whose memory can be had, or cannot.
struct Region {
    memory: GuestRegionMmap,
    is_there: bool,
}

impl GuestMemoryRegion for Region {
    type B = ();

    fn len(&self) -> GuestUsize {
        self.memory.len()
    }

    fn start_addr(&self) -> GuestAddress {
        self.memory.start_addr()
    }

    fn bitmap(&self) {}

    fn get_slice(
        &self,
        offset: MemoryRegionAddress,
        count: usize,
    ) -> Result<VolatileSlice<'_>, GuestMemoryError> {
        if !self.is_there {
            return Err(GuestMemoryError::HostAddressNotAvailable);
        }
        GuestMemoryRegion::get_slice(&self.memory, offset, count)
    }
}

impl GuestMemoryRegionBytes for Region {}

/// What was copied before stays, as with linux-loader.
#[test]
fn a_region_that_cannot_be_written_is_an_error() {
    let region = |start, is_there| Region {
        memory: GuestRegionMmap::from_range(GuestAddress(start), 0x1000, None).unwrap(),
        is_there,
    };
    let regions = vec![region(0, true), region(0x1000, false), region(0x2000, true)];
    let guest = GuestRegionCollection::from_regions(regions).unwrap();
    let image = ElfImage::entered_at(0)
        .with(LOADABLE, 0x10, b"first")
        .with(LOADABLE, 0x1ffe, b"second")
        .with(LOADABLE, 0x2010, b"third");
    let refused = Elf::load(&guest, None, &mut Cursor::new(image.bytes()), None);
    assert_eq!(refused, Err(elf::Error::ReadKernelImage.into()));
    let found = |address: u64| {
        let mut bytes = [0; 5];
        guest.read_slice(&mut bytes, GuestAddress(address)).unwrap();
        bytes
    };
    assert_eq!(
        [found(0x10), found(0x2000), found(0x2010)],
        [*b"first", [0; 5], [0; 5]]
    );

    let line = Cmdline::try_from("quiet", 10).unwrap();
    let refused = load_cmdline(&guest, GuestAddress(0x1800), &line);
    assert_eq!(refused, Err(loader::Error::CommandLineCopy));
}
