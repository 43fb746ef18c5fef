//! The bitmap of guest memory is marked exactly where an accepted call wrote, and by a refused one nowhere.

mod images;

use std::collections::BTreeSet;
use std::io::Cursor;

use images::{note_header, BzImageFile, ElfImage, LOADABLE, NOTE};
use rekusoyen::loader::{
    self, elf, load_cmdline, BzImage, Cmdline, Elf, KernelLoader, KernelLoaderResult,
};
use vm_memory::bitmap::AtomicBitmap;
use vm_memory::{GuestAddress, GuestMemoryBackend, GuestMemoryMmap};

/// Places far enough from each other that no two have a page in common, whatever the page size of the machine.
const A: u64 = 0x10_0000;
const B: u64 = 0x20_0000;
const C: u64 = 0x30_0000;
const ROOM: u64 = 0x40_0000;

type Memory = GuestMemoryMmap<AtomicBitmap>;

fn memory() -> Memory {
    Memory::from_ranges(&[(GuestAddress(0), ROOM as usize)]).unwrap()
}

/// The marked pages are those that have one of these bytes: addresses, and how many from there on.
#[track_caller]
fn is_marked(memory: &Memory, written: &[(u64, u64)]) {
    let region = memory.find_region(GuestAddress(0)).unwrap();
    let bitmap = region.bitmap();
    let page_size = bitmap.byte_size() as u64 / bitmap.len() as u64;
    let marked = (0..bitmap.len() as u64).filter(|page| bitmap.is_bit_set(*page as usize));
    let wanted = written
        .iter()
        .flat_map(|(address, count)| *address..address + count)
        .map(|address| address / page_size);
    assert_eq!(marked.collect::<BTreeSet<_>>(), wanted.collect());
}

/// Loads an ELF image; the answer is a refusal, or the kernel's end.
#[track_caller]
fn elf(
    image: ElfImage,
    offset: Option<u64>,
    answer: Result<u64, loader::Error>,
    written: &[(u64, u64)],
) {
    let memory = memory();
    let mut image = Cursor::new(image.bytes());
    let told = Elf::load(&memory, offset.map(GuestAddress), &mut image, None);
    assert_eq!(told.map(|kernel| kernel.kernel_end), answer);
    is_marked(&memory, written);
}

/// One segment of three bytes for A.
fn one() -> ElfImage {
    ElfImage::entered_at(A).with(LOADABLE, A, b"abc")
}

#[test]
fn an_accepted_elf_load_marks_its_segments() {
    elf(one(), None, Ok(A + 3), &[(A, 3)]);
    elf(one(), Some(B - A), Ok(B + 3), &[(B, 3)]);
    let several = one()
        // across the border of two pages, with memory behind it that has no bytes
        .with(LOADABLE, B - 1, b"de")
        .edited(|header| header.p_memsz = 0x1_0000)
        // what has no bytes writes nothing, wherever it belongs, with memory or without, and so does what is not loaded
        .with(LOADABLE, u64::MAX, b"")
        .with(LOADABLE, A - 1, b"")
        .edited(|header| header.p_memsz = 0x8_0000)
        .with(7, ROOM, b"skipped")
        .with(LOADABLE, C, b"f");
    let written: &[(u64, u64)] = &[(A, 3), (B - 1, 2), (C, 1)];
    elf(several, None, Ok(C + 1), written);
}

#[test]
fn a_refused_elf_load_marks_nothing() {
    // each is refused after a good segment, and before another
    let over_the_end = one()
        .with(LOADABLE, ROOM - 1, b"de")
        .with(LOADABLE, C, b"f");
    let no_room = elf::Error::ReadKernelImage;
    elf(over_the_end, None, Err(no_room.into()), &[]);
    let too_far = one()
        .with(LOADABLE, u64::MAX, b"de")
        .with(LOADABLE, C - 1, b"f");
    let error = elf::Error::InvalidProgramHeaderAddress;
    elf(too_far, Some(1), Err(error.into()), &[]);
    let no_end = one()
        .with(LOADABLE, B, b"de")
        .edited(|header| header.p_memsz = u64::MAX)
        .with(LOADABLE, C, b"f");
    elf(no_end, None, Err(loader::Error::MemoryOverflow), &[]);
    let bad_note = one()
        .with(NOTE, 0, &note_header(u32::MAX, 0, 0))
        .with(LOADABLE, C, b"f");
    let error = elf::Error::Overflow;
    elf(bad_note.clone(), None, Err(error.into()), &[]);
    // with an offset the note is not walked
    elf(bad_note, Some(0), Ok(C + 1), &[(A, 3), (C, 1)]);
}

#[test]
fn a_bzimage_load_marks_its_kernel() {
    let load =
        |memory: &Memory, kernel: &[u8], offset: u64| -> loader::Result<KernelLoaderResult> {
            let mut image = Cursor::new(BzImageFile::loaded_at(0, kernel).bytes());
            BzImage::load(memory, Some(GuestAddress(offset)), &mut image, None)
        };
    let memory = memory();
    load(&memory, b"abc", ROOM - 2).unwrap_err();
    load(&memory, b"", u64::MAX).unwrap();
    is_marked(&memory, &[]);
    load(&memory, b"abc", B - 1).unwrap();
    is_marked(&memory, &[(B - 1, 3)]);
}

#[test]
fn a_line_marks_its_text_and_zero() {
    let memory = memory();
    let line = Cmdline::try_from("a", 9).unwrap();
    load_cmdline(&memory, GuestAddress(ROOM - 1), &line).unwrap_err();
    is_marked(&memory, &[]);
    // the zero is in the next page
    load_cmdline(&memory, GuestAddress(B - 1), &line).unwrap();
    is_marked(&memory, &[(B - 1, 2)]);
}
