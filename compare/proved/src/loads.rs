//! Loads of images, and walks over notes.

use crate::ffi::call;
use crate::outcome;
use driver::answer::{Answer, BzimageLoaded, ElfLoaded, Note, NoteWalked, Pvh, Told};
use driver::question::{Load, Loader, Options, Walk};
use rekusoyen::entry;

/// What a number holds that no call has written.
pub const UNTOUCHED: u64 = 7;

/// The format, the flags, and offset and start of high memory, which are not 0 if they are not given.
pub fn asked(loader: Loader, options: Options) -> (u32, u32, u64, u64) {
    let format = match loader {
        Loader::Elf => entry::ELF,
        Loader::Bzimage => entry::BZIMAGE,
        Loader::Arm64 => entry::ARM64,
    };
    let offset = u32::from(options.offset.is_some()) * entry::OFFSET_GIVEN;
    let highmem = u32::from(options.highmem.is_some()) * entry::HIGHMEM_GIVEN;
    let number = |option: Option<u64>| option.unwrap_or(5);
    (
        format,
        offset | highmem,
        number(options.offset),
        number(options.highmem),
    )
}

/// PVH by its code, its address, and the offset and size of the descriptor that it was read from: all 0 if there is
/// none.
pub fn pvh(code: u64, address: u64, place: u64, size: u64) -> Pvh {
    if code == entry::PVH_PRESENT {
        return Pvh::At(address, Some(Note { place, size }));
    }
    assert_eq!([address, place, size], [0; 3], "there is no note");
    match code {
        entry::PVH_IGNORED => Pvh::Ignored,
        entry::PVH_NOT_PRESENT => Pvh::None,
        _ => panic!("PVH has three codes, and this is {code}"),
    }
}

/// The answer of a load that returned a number and these values.
pub fn load_answer(
    loader: Loader,
    image: &[u8],
    number: u32,
    kernel: [u64; entry::KERNEL_NUMBERS],
) -> Told {
    let [load, end, code, address, place, size] = kernel;
    let without_pvh = || assert_eq!([code, address, place, size], [0; 4], "only ELF has PVH");
    match loader {
        Loader::Elf => Told::Elf(outcome(number, || ElfLoaded {
            load,
            end,
            pvh: pvh(code, address, place, size),
        })),
        Loader::Bzimage => Told::Bzimage(outcome(number, || {
            without_pvh();
            let mut header = vec![7; entry::SETUP_HEADER_SIZE];
            let answer = call!(rekusoyen_setup_header(in image, load, mut &mut header));
            assert_eq!(answer, 0, "the image was loaded");
            BzimageLoaded { load, end, header }
        })),
        Loader::Arm64 => Told::Arm64(outcome(number, || {
            without_pvh();
            (load, end)
        })),
    }
}

pub fn answer(loader: Loader, load: &Load, map: &[u64]) -> Answer {
    let (format, flags, offset, highmem) = asked(loader, load.options);
    let (mut guest, image) = (load.guest.clone(), &load.image[..]);
    let mut kernel = [UNTOUCHED; entry::KERNEL_NUMBERS];
    let number = call!(rekusoyen_raw_load(
        mut &mut guest, in map, in image, format, flags, offset, highmem, mut &mut kernel
    ));
    match load_answer(loader, image, number, kernel) {
        Told::Elf(outcome) => Answer::Elf { outcome, guest },
        Told::Bzimage(outcome) => Answer::Bzimage { outcome, guest },
        Told::Arm64(outcome) => Answer::Arm64 { outcome, guest },
    }
}

pub fn note(walk: &Walk) -> Answer {
    let mut note = [UNTOUCHED; entry::NOTE_NUMBERS];
    let number =
        call!(rekusoyen_raw_elf_note(in &walk.image, walk.place, walk.size, mut &mut note));
    let [code, address, headers, place, size] = note;
    Answer::Note(outcome(number, || NoteWalked {
        pvh: pvh(code, address, place, size),
        headers: Some(headers),
    }))
}
