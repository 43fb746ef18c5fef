//! Refusals and their numbers: each is reached by some call, or it is said why none reaches it.

mod images;

use images::{arm64_image, fresh, note, note_header, BzImageFile, ElfImage, LOADABLE, NOTE};
use rekusoyen::boot::{self, Boot, Pvh, Tree, ZeroPage};
use rekusoyen::boot_page;
use rekusoyen::cmdline::{self, Cmdline};
use rekusoyen::loader::bootparam::boot_e820_entry;
use rekusoyen::loader::elf::start_info::hvm_memmap_table_entry;
use rekusoyen::loader::{
    self, arm64, bzimage, elf, load_cmdline_into, load_cmdline_into_map, BzImage, Elf, ElfSteps,
    StepError,
};
use rekusoyen::start_info::{self, Start};
use rekusoyen::words::words;
use rekusoyen::{GuestAddress, Map, Refusal};
use vm_memory::MmapRegion;

/// The safe functions lend as many places as a line can have words, so that nobody can be refused for them; and no
/// function of the library does a job of the desk program.
const NEVER: [Refusal; 2] = [Refusal::TooFewPlaces, Refusal::BadJob];

#[test]
fn every_refusal_is_reached_and_has_its_number() {
    let reached = [
        of_elf(),
        of_notes(),
        of_bzimage(),
        of_arm64(),
        of_lines(),
        of_maps(),
        of_steps(),
        of_pages(),
        of_starts(),
        of_long(),
        of_words(),
        of_boots(),
    ]
    .concat();
    for (refusal, number) in &reached {
        assert_eq!(*number, Some(refusal.number()), "{refusal:?}");
    }
    for refusal in Refusal::ALL {
        let is_reached = reached.iter().any(|row| row.0 == *refusal);
        let is_left_out = NEVER.contains(refusal);
        assert_eq!(is_reached, !is_left_out, "{refusal:?}");
    }
}

/// A bzImage for address 0x4000, which takes a line of 4 bytes and 0x100 bytes of memory, with these bytes at a place.
fn bzimage_with(place: usize, bytes: &[u8]) -> Vec<u8> {
    let mut image = BzImageFile::loaded_at(0x4000, b"kernel").bytes();
    image[0x22c..0x230].copy_from_slice(&0x7fff_u32.to_le_bytes());
    image[0x238] = 4;
    image[0x261] = 1;
    image[0x258..0x260].copy_from_slice(&0x4000_u64.to_le_bytes());
    image[place..place + bytes.len()].copy_from_slice(bytes);
    image
}

fn of_boots() -> Reached {
    let boot = |image: &[u8], [line, ramdisk, page]: [u64; 3], is_64_bit, text: &[u8], row| {
        let [line, ramdisk, page] = [line, ramdisk, page].map(|at| Some(GuestAddress(at)));
        let entry = ZeroPage {
            is_64_bit,
            page,
            line,
            ramdisk,
        };
        let boot = Boot::new(image).text(text).ramdisk(b"disk").rows(&[row]);
        let error = boot.zero_page(entry).plan(&Map::whole(0x6000));
        error.expect_err("it is refused").number()
    };
    let all = (GuestAddress(0), 0x6000, 1);
    let image = bzimage_with(0x206, &[0x0f]);
    let at = |line, ramdisk, page| boot(&image, [line, ramdisk, page], false, b"line", all);
    let in_row = |start, size| {
        let row = (GuestAddress(start), size, 1);
        boot(&image, [0x100, 0x200, 0x1000], false, b"line", row)
    };
    let good = [0x100, 0x200, 0x1000];
    let large = bzimage_with(0x262, &[1]);
    let arm64 = arm64_image(0x4000, 0x100, b"");
    let tree = Boot::new(&arm64).tree(Tree::default());
    vec![
        (
            Refusal::LineTooLong,
            boot(&image, good, false, b"longer", all),
        ),
        (Refusal::WrongEntry, boot(&arm64, good, false, b"", all)),
        (
            Refusal::No64BitEntry,
            boot(&image, good, true, b"line", all),
        ),
        (
            Refusal::NoPvhEntry,
            Boot::new(&image)
                .rows(&[all])
                .pvh(Pvh::default())
                .plan(&Map::whole(0x6000))
                .err()
                .and_then(|error| error.number()),
        ),
        (
            Refusal::LineNotInTree,
            tree.plan(&Map::whole(0x6000))
                .err()
                .and_then(|error| error.number()),
        ),
        (
            Refusal::KernelOutside,
            boot(&large, good, false, b"line", all),
        ),
        (Refusal::RamdiskOutside, at(0x100, 0x5ffd, 0x1000)),
        (Refusal::BootDataOutside, at(0x100, 0x200, 0x5001)),
        (Refusal::RamdiskTooHigh, at(0x100, 0x7ffd, 0x1000)),
        (Refusal::KernelMeetsLine, at(0x40ff, 0x200, 0x1000)),
        (Refusal::KernelMeetsRamdisk, at(0x100, 0x40ff, 0x1000)),
        (Refusal::KernelMeetsBootData, at(0x100, 0x200, 0x3001)),
        (Refusal::LineMeetsRamdisk, at(0x100, 0x104, 0x1000)),
        (Refusal::LineMeetsBootData, at(0x1fff, 0x200, 0x1000)),
        (Refusal::RamdiskMeetsBootData, at(0x100, 0xffd, 0x1000)),
        (Refusal::KernelNotInRows, in_row(0, 0x40ff)),
        (Refusal::LineNotInRows, in_row(0x101, 0x5000)),
        (
            Refusal::RamdiskNotInRows,
            boot(
                &image,
                [0x300, 0x200, 0x1000],
                false,
                b"line",
                (GuestAddress(0x300), 0x5000, 1),
            ),
        ),
        (
            Refusal::NoRoom,
            boot::put(&mut [], &Map::default(), GuestAddress(0), b"x")
                .err()
                .map(Refusal::number),
        ),
    ]
}

fn of_starts() -> Reached {
    let write = |reserved| {
        let row = hvm_memmap_table_entry {
            reserved,
            ..Default::default()
        };
        let answer = start_info::write(&mut [], &Map::default(), Start::default(), &[], &[row]);
        answer.err().map(Refusal::number)
    };
    let check = |place: usize| {
        let mut guest = [0; 56];
        let (map, at) = (Map::whole(guest.len()), GuestAddress(0));
        start_info::write(&mut guest, &map, Start::default(), &[], &[]).expect("a block");
        guest[place] ^= 1;
        let answer = start_info::check(&guest, &map, at);
        answer.err().map(Refusal::number)
    };
    vec![
        (Refusal::BadPart, write(0)),
        (Refusal::BadList, write(1)),
        (Refusal::BadStartMagic, check(0)),
        (Refusal::BadStartVersion, check(4)),
        (Refusal::BadStartReserved, check(52)),
    ]
}

fn of_pages() -> Reached {
    let row = boot_e820_entry {
        addr: 0,
        size: 0,
        r#type: 1,
    };
    let build = |size: usize, count: usize| {
        let (header, addresses) = (Default::default(), Default::default());
        boot_page::build(&mut vec![0; size], header, addresses, &vec![row; count])
    };
    let by_page = |answer: Result<(), Refusal>| answer.err().map(Refusal::number);
    vec![
        (Refusal::BadPageSize, by_page(build(4095, 129))),
        (Refusal::TooManyRows, by_page(build(4096, 129))),
        (Refusal::BadRow, by_page(build(4096, 128))),
    ]
}

/// No bytes lead to these: a reader that fails does.
#[test]
fn errors_without_a_number() {
    for error in [elf::Error::SeekElfStart, elf::Error::SeekNoteHeader] {
        assert_eq!(
            (error.number(), loader::Error::from(error).refusal()),
            (None, None)
        );
    }
    for error in [
        bzimage::Error::ReadBzImageHeader,
        bzimage::Error::SeekBzImageEnd,
        bzimage::Error::SeekBzImageHeader,
    ] {
        assert_eq!(
            (error.number(), loader::Error::from(error).refusal()),
            (None, None)
        );
    }
}

/// A refusal, and the number of the error that a call answered which is to be refused so.
type Reached = Vec<(Refusal, Option<u32>)>;

fn by_load<T>(answer: loader::Result<T>) -> Option<u32> {
    answer.err()?.number()
}

fn by_line<T>(answer: cmdline::Result<T>) -> Option<u32> {
    Some(answer.err()?.number())
}

fn of_words() -> Reached {
    let number = words(b"\"").err().map(|error| error.number());
    vec![(Refusal::UnclosedQuote, number)]
}

fn of_elf() -> Reached {
    let plain = ElfImage::entered_at(16).with(LOADABLE, 16, b"abc");
    let edited = |edit: fn(&mut ElfImage)| {
        let mut image = plain.clone();
        edit(&mut image);
        image.bytes()
    };
    let load = |image: &[u8], offset: Option<u64>, highmem: Option<u64>| {
        let (offset, highmem) = (offset.map(GuestAddress), highmem.map(GuestAddress));
        by_load(Elf::load_into(&mut fresh(32), offset, image, highmem))
    };
    let whole = plain.bytes();
    let last = Some(u64::MAX);
    vec![
        (Refusal::InvalidElfMagicNumber, load(&[0; 64], None, None)),
        (
            Refusal::BigEndianElfOnLittle,
            load(&edited(|i| i.encoding = 2), None, None),
        ),
        (
            Refusal::InvalidProgramHeaderSize,
            load(&edited(|i| i.e_phentsize = 0), None, None),
        ),
        (
            Refusal::InvalidProgramHeaderOffset,
            load(&edited(|i| i.e_phoff = 0), None, None),
        ),
        (Refusal::InvalidEntryAddress, load(&whole, None, last)),
        (Refusal::Overflow, load(&whole, last, None)),
        (Refusal::ReadElfHeader, load(&[], None, None)),
        (Refusal::ReadProgramHeader, load(&whole[..64], None, None)),
        (
            Refusal::InvalidProgramHeaderAddress,
            load(&edited(|i| i.e_entry = 0), last, None),
        ),
        (Refusal::ReadKernelImage, load(&whole, Some(32), None)),
        (
            Refusal::MemoryOverflow,
            load(&edited(|i| i.headers[0].p_memsz = u64::MAX), None, None),
        ),
        (
            Refusal::InvalidProgramHeaderFileSize,
            load(&edited(|i| i.headers[0].p_memsz = 2), None, None),
        ),
    ]
}

/// By the walk itself and by a load.
fn of_notes() -> Reached {
    let rows = [
        (Refusal::Overflow, note_header(u32::MAX, 0, 0)),
        (Refusal::ReadNoteHeader, note_header(4, 4, 18)),
        (Refusal::InvalidPvhNote, note(b"Xen\0", 18, b"")),
    ];
    let walked = rows
        .iter()
        .map(|(refusal, bytes)| (*refusal, by_load(elf::notes(bytes, 0, 1))));
    let loaded = rows.iter().map(|(refusal, bytes)| {
        let image = ElfImage::entered_at(0).with(NOTE, 0, bytes).bytes();
        (
            *refusal,
            by_load(Elf::load_into(&mut [], None, &image, None)),
        )
    });
    walked.chain(loaded).collect()
}

fn of_bzimage() -> Reached {
    let whole = BzImageFile::loaded_at(16, b"abc").bytes();
    let load = |image: &[u8], highmem: Option<u64>| {
        let highmem = highmem.map(GuestAddress);
        by_load(BzImage::load_into(&mut fresh(18), None, image, highmem))
    };
    vec![
        (Refusal::InvalidBzImage, load(&[], None)),
        (Refusal::Underflow, load(&whole[..1023], None)),
        (Refusal::InvalidKernelStartAddress, load(&whole, Some(17))),
        (Refusal::ReadBzImageCompressedKernel, load(&whole, None)),
    ]
}

fn of_arm64() -> Reached {
    let edited = |edits: &[(usize, u8)]| {
        let mut image = arm64_image(16, 100, b"abc");
        for (place, byte) in edits {
            image[*place] = *byte;
        }
        image
    };
    let load = |image: &[u8], base: u64| {
        by_load(arm64::Image::load_into(
            &mut fresh(96),
            GuestAddress(base),
            image,
        ))
    };
    let (whole, last) = (edited(&[]), (2u64 << 20).wrapping_neg());
    let wide = arm64_image(u64::MAX - last, 100, b"abc");
    vec![
        (Refusal::ShortImage, load(&whole[..63], 0)),
        (Refusal::BadImageMagic, load(&edited(&[(56, 0)]), 0)),
        (Refusal::BigEndianImage, load(&edited(&[(24, 1)]), 0)),
        (Refusal::NoImageSize, load(&edited(&[(16, 0)]), 0)),
        (Refusal::UnalignedBase, load(&whole, 1)),
        (
            Refusal::ImageStartWraps,
            load(&arm64_image(2 << 20, 100, b""), last),
        ),
        (Refusal::NoRoomForImage, load(&wide, last)),
        (Refusal::NoRoomForImage, load(&edited(&[(8, 30)]), 0)),
        (
            Refusal::ImageEndWraps,
            load(&arm64_image(16, u64::MAX - 15, b""), 0),
        ),
    ]
}

fn of_lines() -> Reached {
    let mut line = Cmdline::new(9).unwrap();
    line.insert_init_args("z").unwrap();
    let empty = Cmdline::new(1).unwrap();
    let zero = Cmdline::try_from("\0", 9).unwrap();
    let put = |line| by_load(load_cmdline_into(&mut [], GuestAddress(0), line));
    vec![
        (Refusal::InvalidCommandLine, put(&line)),
        (Refusal::InvalidCommandLine, put(&zero)),
        (Refusal::CommandLineOverflow, put(&empty)),
        (Refusal::InvalidCapacity, by_line(Cmdline::new(0))),
        (Refusal::InvalidCapacity, by_line(Cmdline::try_from("a", 1))),
        (Refusal::InvalidAscii, by_line(line.insert_str("é"))),
        (Refusal::HasSpace, by_line(line.insert(" ", ""))),
        (Refusal::HasEquals, by_line(line.insert("=", ""))),
        (Refusal::MissingVal, by_line(line.insert_multiple("a", &[]))),
        (
            Refusal::MmioSize,
            by_line(line.add_virtio_mmio_device(0, GuestAddress(0), 0, None)),
        ),
        (Refusal::TooLarge, by_line(line.insert_str("abcd"))),
        (Refusal::NoQuoteSpace, by_line(line.insert("a", " "))),
        (Refusal::InvalidQuote, by_line(line.insert("a", "b\"c"))),
        (Refusal::NoBootArgsInserted, by_line(line.as_cstring())),
        (Refusal::NullTerminator, by_line(zero.as_cstring())),
    ]
}

/// A map that passes guest memory, in each load.
fn of_maps() -> Reached {
    let map = Map::whole(9);
    let line = Cmdline::new(1).unwrap();
    let guest = &mut [0; 8][..];
    let answers = [
        Elf::load_into_map(guest, &map, None, &[], None).map(|_| ()),
        BzImage::load_into_map(guest, &map, None, &[], None).map(|_| ()),
        arm64::Image::load_into_map(guest, &map, GuestAddress(0), &[]).map(|_| ()),
        load_cmdline_into_map(guest, &map, GuestAddress(0), &line),
    ];
    answers
        .map(|answer| (Refusal::BadMap, answer.unwrap_err().number()))
        .to_vec()
}

fn of_steps() -> Reached {
    let map = Map::whole(8);
    let guest = &mut [0; 8][..];
    let mut load = ElfSteps::new(None, None);
    let none = load.step(guest, &map, &[], 0);
    load.step(guest, &map, &[], 1).expect("a step");
    let changed = load.step(guest, &map, &[0], 1);
    let number = |step: Result<_, StepError>| Some(step.unwrap_err().refusal().number());
    vec![
        (Refusal::NoBudget, number(none)),
        (Refusal::LentChanged, number(changed)),
    ]
}

/// Slices of one byte more than 2^40. The memory is mapped and never touched, so that it costs nothing.
fn of_long() -> Reached {
    let map = || MmapRegion::<()>::new((1 << 40) + 1).expect("2^40 bytes of address space");
    let (guest, image) = (map(), map());
    // SAFETY: both are mapped to be read and written for as long as this function runs, and nobody else has them.
    let (guest, image) = unsafe {
        (
            std::slice::from_raw_parts_mut(guest.as_ptr(), guest.size()),
            std::slice::from_raw_parts(image.as_ptr(), image.size()),
        )
    };
    let line = Cmdline::new(1).unwrap();
    let answers = [
        by_load(Elf::load_into(&mut [], None, image, None)),
        by_load(Elf::load_into(guest, None, &[], None)),
        by_load(elf::notes(image, 0, 0)),
        by_load(BzImage::load_into(&mut [], None, image, None)),
        by_load(BzImage::load_into(guest, None, &[], None)),
        by_load(arm64::Image::load_into(&mut [], GuestAddress(0), image)),
        by_load(arm64::Image::load_into(guest, GuestAddress(0), &[])),
        by_load(load_cmdline_into(guest, GuestAddress(0), &line)),
    ];
    answers
        .map(|number| (Refusal::SliceTooLong, number))
        .to_vec()
}
