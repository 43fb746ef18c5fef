//! ELF loads over slices: what is answered, and every byte of guest memory afterwards.

mod images;

use images::{
    fresh, fresh_with, note, note_header, pvh_note, ElfImage, ProgramHeader, BODY, LOADABLE, NOTE,
};
use rekusoyen::loader::elf::{
    notes, segments, Elf, Error, Notes, PvhBootCapability, PvhNote, Segment,
};
use rekusoyen::loader::{self, KernelLoaderResult};
use rekusoyen::GuestAddress;
use PvhBootCapability::{PvhEntryIgnored, PvhEntryNotPresent, PvhEntryPresent};

/// A load that was made, and the guest memory that it left.
struct Loaded {
    answer: loader::Result<KernelLoaderResult>,
    guest: Vec<u8>,
}

/// Loads an image into a number of guest bytes.
fn load(image: &[u8], room: usize, offset: Option<u64>, highmem: Option<u64>) -> Loaded {
    let mut guest = fresh(room);
    let (offset, highmem) = (offset.map(GuestAddress), highmem.map(GuestAddress));
    Loaded {
        answer: Elf::load_into(&mut guest, offset, image, highmem),
        guest,
    }
}

impl Loaded {
    #[track_caller]
    fn gives(&self, load: u64, end: u64, pvh: PvhBootCapability, written: &[(usize, &[u8])]) {
        let kernel = KernelLoaderResult {
            kernel_load: GuestAddress(load),
            kernel_end: end,
            setup_header: None,
            pvh_boot_cap: pvh,
        };
        assert_eq!(self.answer, Ok(kernel));
        assert_eq!(self.guest, fresh_with(self.guest.len(), written));
    }

    #[track_caller]
    fn is_refused(&self, error: impl Into<loader::Error>) {
        assert_eq!(self.answer, Err(error.into()));
        assert_eq!(self.guest, fresh(self.guest.len()));
    }
}

/// Three bytes for address 16, where the kernel is entered, and 8 bytes of memory.
fn plain() -> ElfImage {
    ElfImage::entered_at(16)
        .with(LOADABLE, 16, b"abc")
        .edited(|header| header.p_memsz = 8)
}

/// The same, edited.
fn plain_but(edit: impl FnOnce(&mut ElfImage)) -> Vec<u8> {
    let mut image = plain();
    edit(&mut image);
    image.bytes()
}

#[test]
fn a_segment_goes_to_its_address_moved_by_the_offset() {
    let image = plain().bytes();
    load(&image, 32, None, None).gives(16, 24, PvhEntryIgnored, &[(16, b"abc")]);
    load(&image, 32, Some(4), None).gives(20, 28, PvhEntryIgnored, &[(20, b"abc")]);
    // the bytes need room, the rest of the memory does not
    load(&image, 19, None, None).gives(16, 24, PvhEntryIgnored, &[(16, b"abc")]);
    load(&image, 18, None, None).is_refused(Error::ReadKernelImage);
    load(&image, 0, None, None).is_refused(Error::ReadKernelImage);
}

#[test]
fn high_memory_is_compared_with_the_entry_before_the_offset() {
    let image = plain().bytes();
    load(&image, 32, None, Some(16)).gives(16, 24, PvhEntryIgnored, &[(16, b"abc")]);
    load(&image, 32, None, Some(17)).is_refused(Error::InvalidEntryAddress);
    load(&image, 32, Some(4), Some(17)).is_refused(Error::InvalidEntryAddress);
}

#[test]
fn later_segments_cover_earlier_ones_and_the_greatest_end_counts() {
    let image = ElfImage::entered_at(2)
        .with(LOADABLE, 8, b"abcd")
        .edited(|header| header.p_memsz = 20)
        .with(LOADABLE, 10, b"xyz")
        // neither bytes nor memory: skipped
        .with(LOADABLE, u64::MAX, b"")
        // of no type that a load knows
        .with(7, u64::MAX, b"skipped")
        .bytes();
    let written: &[(usize, &[u8])] = &[(8, b"ab"), (10, b"xyz")];
    load(&image, 16, None, None).gives(2, 28, PvhEntryIgnored, written);
}

#[test]
fn memory_without_bytes_counts_for_the_end() {
    let memory = |address, size| {
        let with = plain().with(LOADABLE, address, b"");
        with.edited(|header| header.p_memsz = size)
            // where its bytes would stand does not matter
            .edited(|header| header.p_offset = u64::MAX)
            .bytes()
    };
    let written: &[(usize, &[u8])] = &[(16, b"abc")];
    load(&memory(1 << 50, 5), 32, None, None).gives(16, (1 << 50) + 5, PvhEntryIgnored, written);
    load(&memory(2, 5), 32, None, None).gives(16, 24, PvhEntryIgnored, written);
    let last = u64::MAX;
    load(&memory(1, last - 1), 32, None, None).gives(16, last, PvhEntryIgnored, written);
    load(&memory(1, last), 32, None, None).is_refused(loader::Error::MemoryOverflow);
    let far = load(&memory(last, 1), 32, Some(1), None);
    far.is_refused(Error::InvalidProgramHeaderAddress);
    // empty in both sizes: passed over, wherever it would lie
    load(&memory(last, 0), 32, Some(1), None).gives(17, 25, PvhEntryIgnored, &[(17, b"abc")]);
}

#[test]
fn an_image_without_segments_is_accepted() {
    let image = ElfImage::entered_at(5).bytes();
    load(&image[..64], 0, None, None).gives(5, 0, PvhEntryIgnored, &[]);
}

#[test]
fn the_header_is_refused() {
    let whole = plain().bytes();
    load(&whole[..63], 32, None, None).is_refused(Error::ReadElfHeader);
    load(&[], 32, None, None).is_refused(Error::ReadElfHeader);
    type Edit = fn(&mut ElfImage);
    let edits: [(Error, Edit); 5] = [
        (Error::InvalidElfMagicNumber, |image| image.magic[3] = b'f'),
        (Error::BigEndianElfOnLittle, |image| image.encoding = 2),
        (Error::InvalidProgramHeaderSize, |image| {
            image.e_phentsize = 55
        }),
        (Error::InvalidProgramHeaderOffset, |image| {
            image.e_phoff = 63
        }),
        (Error::ReadProgramHeader, |image| image.e_phoff = u64::MAX),
    ];
    for (error, edit) in edits {
        load(&plain_but(edit), 32, None, None).is_refused(error);
    }
    load(&whole[..119], 32, None, None).is_refused(Error::ReadProgramHeader);
    load(&whole, 32, Some(u64::MAX - 15), None).is_refused(Error::Overflow);
}

#[test]
fn a_refused_segment_leaves_nothing_written() {
    let edits: [fn(&mut ProgramHeader); 4] = [
        |header| header.p_offset += 1,
        |header| header.p_offset = u64::MAX,
        |header| header.p_paddr = 30,
        |header| header.p_paddr = u64::MAX,
    ];
    for edit in edits {
        let image = plain().with(LOADABLE, 24, b"def").edited(edit);
        load(&image.bytes(), 32, None, None).is_refused(Error::ReadKernelImage);
    }
    // the offset and the address pass 2^64, the offset and the entry do not
    let image = plain()
        .with(LOADABLE, u64::MAX - 3, b"def")
        .with(LOADABLE, 24, b"ghi");
    load(&image.bytes(), 32, Some(4), None).is_refused(Error::InvalidProgramHeaderAddress);
    // its own bytes have room, its end is 2^64
    let image = plain()
        .with(LOADABLE, 24, b"def")
        .edited(|header| header.p_memsz = u64::MAX - 23)
        .with(LOADABLE, 28, b"ghi");
    load(&image.bytes(), 32, None, None).is_refused(loader::Error::MemoryOverflow);
}

#[test]
fn more_bytes_in_the_file_than_in_memory_are_refused() {
    let sized = |memory| plain().edited(|header| header.p_memsz = memory);
    let written: &[(usize, &[u8])] = &[(16, b"abc")];
    load(&sized(3).bytes(), 32, None, None).gives(16, 19, PvhEntryIgnored, written);
    let error = Error::SeekProgramHeader;
    assert_eq!(error.number(), Some(14));
    load(&sized(2).bytes(), 32, None, None).is_refused(error);
    // before all that is asked of its address and its bytes, and after the headers before it
    let far = sized(2).edited(|header| header.p_paddr = u64::MAX);
    load(&far.bytes(), 32, Some(1), None).is_refused(error);
    load(&far.bytes(), 0, None, None).is_refused(error);
    let after = ElfImage::entered_at(16)
        .with(LOADABLE, 30, b"abc")
        .with(LOADABLE, 16, b"def")
        .edited(|header| header.p_memsz = 2);
    load(&after.bytes(), 32, None, None).is_refused(Error::ReadKernelImage);
}

#[test]
fn pvh_is_present_absent_or_ignored() {
    let entry = PvhEntryPresent(GuestAddress(0x100000));
    let other = note(b"GNU\0", 18, &[1, 2, 3, 4]);
    let with = |notes: &[u8]| plain().with(NOTE, 0, notes);
    let (some, none) = (with(&pvh_note(0x100000)), with(&other));
    let written: &[(usize, &[u8])] = &[(16, b"abc")];
    load(&some.bytes(), 32, None, None).gives(16, 24, entry, written);
    load(&none.bytes(), 32, None, None).gives(16, 24, PvhEntryNotPresent, written);
    load(&plain().bytes(), 32, None, None).gives(16, 24, PvhEntryIgnored, written);
    // an offset, also of 0, has it ignored, and no note is walked
    let broken = with(&note_header(u32::MAX, 0, 1));
    for image in [&some, &none, &broken] {
        load(&image.bytes(), 32, Some(0), None).gives(16, 24, PvhEntryIgnored, written);
    }
    // the first note found holds, whatever note headers stand before and behind it
    let some_then_none = some.clone().with(NOTE, 0, &other);
    let none_then_some = none.clone().with(NOTE, 0, &pvh_note(0x100000));
    let some_then_another = some.clone().with(NOTE, 0, &pvh_note(0x200000));
    for image in [some_then_none, none_then_some, some_then_another] {
        load(&image.bytes(), 32, None, None).gives(16, 24, entry, written);
    }
    // a later one is walked all the same
    let some_then_broken = some.clone().with(NOTE, 0, &note_header(u32::MAX, 0, 1));
    load(&some_then_broken.bytes(), 32, None, None).is_refused(Error::Overflow);
    // alignment is always 4, whatever the header says
    let aligned = some.edited(|header| header.p_align = 3);
    load(&aligned.bytes(), 32, None, None).gives(16, 24, entry, written);
}

#[test]
fn the_note_that_was_used_is_told() {
    let told = |image: &ElfImage, offset: Option<u64>| {
        let offset = offset.map(GuestAddress);
        let loaded = Elf::load_into_with_note(&mut fresh(32), offset, &image.bytes(), None);
        loaded.map(|(_, note)| note)
    };
    // in the image: three bytes to load, a note of another name, two PVH notes in one segment, one in another
    let other = note(b"GNU\0", 18, &[1, 2, 3, 4]);
    let first = [other.clone(), note(b"Xen\0", 18, &[7; 9]), pvh_note(1)].concat();
    let image = plain().with(NOTE, 0, &first).with(NOTE, 0, &pvh_note(2));
    let used = PvhNote {
        place: BODY + 3 + 20 + 16,
        size: 9,
    };
    assert_eq!(told(&image, None), Ok(Some(used)));
    assert_eq!(told(&image, Some(0)), Ok(None));
    assert_eq!(told(&plain(), None), Ok(None));
    assert_eq!(told(&plain().with(NOTE, 0, &other), None), Ok(None));
    let broken = image.with(NOTE, 0, &note_header(0, u32::MAX, 1));
    assert_eq!(told(&broken, None), Err(Error::Overflow.into()));
}

#[test]
fn a_refused_note_leaves_nothing_written() {
    let refused = [
        (Error::ReadNoteHeader, pvh_note(1)[..19].to_vec()),
        (Error::InvalidPvhNote, note(b"Xen\0", 18, &[1, 2, 3])),
        (Error::Overflow, note_header(u32::MAX - 2, 0, 1)),
        (Error::Overflow, note_header(0, u32::MAX - 2, 1)),
    ];
    for (error, bytes) in refused {
        let mut image = plain().with(LOADABLE, 24, b"def").with(NOTE, 0, &bytes);
        // the note's header comes before the second segment's, and the image ends with the note
        image.headers.swap(1, 2);
        load(&image.bytes(), 32, None, None).is_refused(error);
    }
}

#[test]
fn notes_are_walked_over_any_part_of_an_image() {
    let found = |place, headers| Notes {
        pvh_boot_cap: PvhEntryPresent(GuestAddress(7)),
        pvh_note: Some(PvhNote { place, size: 4 }),
        headers,
    };
    let not_found = |headers| Notes {
        pvh_boot_cap: PvhEntryNotPresent,
        pvh_note: None,
        headers,
    };
    let other = note(b"other", 18, b"12345");
    let behind = [other.clone(), pvh_note(7)].concat();
    let size = behind.len() as u64;
    assert_eq!(notes(&pvh_note(7), 0, 20), Ok(found(16, 1)));
    // a note that is begun is read to its end, which the image sets
    assert_eq!(notes(&pvh_note(7), 0, 1), Ok(found(16, 1)));
    assert_eq!(notes(&pvh_note(7), 0, 0), Ok(not_found(0)));
    let place = other.len() as u64;
    assert_eq!(notes(&behind, 0, size), Ok(found(place + 16, 2)));
    assert_eq!(notes(&behind, place, 1), Ok(found(place + 16, 1)));
    assert_eq!(notes(&behind, 0, other.len() as u64), Ok(not_found(1)));
    let refused = [
        (Error::ReadNoteHeader, notes(&pvh_note(7)[..19], 0, 19)),
        (Error::ReadNoteHeader, notes(&[], 0, 1)),
        (Error::ReadNoteHeader, notes(&behind, u64::MAX, 1)),
        (Error::InvalidPvhNote, notes(&note(b"Xen\0", 18, b""), 0, 1)),
        (Error::Overflow, notes(&note_header(u32::MAX, 0, 0), 0, 1)),
    ];
    for (error, answer) in refused {
        assert_eq!(answer, Err(error.into()));
    }
}

#[test]
fn segments_are_the_program_headers_that_the_image_has() {
    let image = plain().with(NOTE, 9, &pvh_note(7));
    let bytes = image.bytes();
    let wanted: Vec<_> = image
        .headers
        .iter()
        .map(|header| Segment {
            p_type: header.p_type,
            p_offset: header.p_offset,
            p_paddr: header.p_paddr,
            p_filesz: header.p_filesz,
            p_memsz: header.p_memsz,
        })
        .collect();
    assert_eq!(segments(&bytes).collect::<Vec<_>>(), wanted);
    assert_eq!((wanted[0].p_offset, wanted[1].p_offset), (BODY, BODY + 3));
    let kinds = segments(&bytes).map(|segment| (segment.is_loadable(), segment.is_note()));
    assert_eq!(kinds.collect::<Vec<_>>(), [(true, false), (false, true)]);
    // the second passes the end, then the first too; then there is no table, and no count
    for (length, count) in [(176, 2), (175, 1), (119, 0), (63, 0), (57, 0), (0, 0)] {
        assert_eq!(segments(&bytes[..length]).count(), count, "{length} bytes");
    }
    let far = plain_but(|image| image.e_phoff = u64::MAX);
    assert_eq!(segments(&far).count(), 0);
}
