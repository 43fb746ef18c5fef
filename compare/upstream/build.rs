//! Makes the images that the published crate's tests read and its package lacks. Each has what the tests expect of it.

// the image builders of rust/tests
mod images;

use std::path::Path;

use images::{note, pvh_note, BzImageFile, ElfImage, LOADABLE, NOTE};

/// The PVH entry that the tests expect.
const PVH_ENTRY: u32 = 0x1e1_fe1f;

fn main() {
    let plain = ElfImage::entered_at(0x400).with(LOADABLE, 0x400, b"kernel");
    let with_notes = |notes: &[u8]| plain.clone().with(NOTE, 0, notes);
    let pvh = with_notes(&[note(b"GNU\0", 3, b"a build"), pvh_note(PVH_ENTRY)].concat());
    let elf = [
        ("test_elf.bin", plain.clone()),
        ("test_elfnote.bin", pvh.clone()),
        (
            "test_elfnote_8byte_align.bin",
            pvh.clone().edited(|header| header.p_align = 8),
        ),
        (
            "test_bad_align.bin",
            pvh.edited(|header| header.p_align = 3),
        ),
        (
            "test_dummy_note.bin",
            with_notes(&note(b"GNU\0", 3, b"a build")),
        ),
        (
            "test_invalid_pvh_note.bin",
            with_notes(&note(b"Xen\0", 18, b"")),
        ),
    ];
    for (name, image) in elf {
        write("elf", name, &image.bytes());
    }

    // put to 200000 hex it is to end at 8B5E40 hex
    let kernel = vec![0x90; 0x8b_5e40 - 0x20_0000];
    let bzimage = BzImageFile::loaded_at(0x10_0000, &kernel);
    write("bzimage", "bzimage", &bzimage.bytes());
    let cut = &bzimage.bytes()[..bzimage.setup_size() - 1];
    write("bzimage", "fuzz_invalid_bzimage.bin", cut);
}

/// Writes an image beside the tests of a module, where they look for it.
fn write(module: &str, name: &str, bytes: &[u8]) {
    let path = Path::new("src/loader").join(module).join(name);
    std::fs::write(&path, bytes).unwrap_or_else(|error| panic!("{}: {error}", path.display()));
}
