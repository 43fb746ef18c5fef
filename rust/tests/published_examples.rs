//! What linux-loader's documentation shows of the modules that are carried over, over slices; `monitor.rs` has it over vm-memory.

mod images;

use images::{pvh_note, BzImageFile, ElfImage, LOADABLE, NOTE};
use rekusoyen::cmdline::Cmdline;
use rekusoyen::loader::{load_cmdline_into, BzImage, Elf, PvhBootCapability};
use rekusoyen::GuestAddress;

const MEMORY: usize = 0x100_0000;

/// The bytes that a line is written as, after some calls on a new one.
fn written(calls: impl FnOnce(&mut Cmdline)) -> Vec<u8> {
    let mut line = Cmdline::new(100).unwrap();
    calls(&mut line);
    line.as_cstring().unwrap().into_bytes_with_nul()
}

#[test]
fn a_line_is_built() {
    assert_eq!(written(|_| ()), b"\0");
    assert_eq!(written(|l| l.insert_str("foobar").unwrap()), b"foobar\0");
    assert_eq!(written(|l| l.insert("foo", "bar").unwrap()), b"foo=bar\0");
    assert_eq!(
        written(|l| l.insert_multiple("foo", &["bar", "baz"]).unwrap()),
        b"foo=bar,baz\0"
    );
    let foo_then_bar = |l: &mut Cmdline| {
        l.insert_str("foo").unwrap();
        l.insert_init_args("bar").unwrap();
    };
    assert_eq!(written(foo_then_bar), b"foo -- bar\0");
    let device = |l: &mut Cmdline| {
        l.add_virtio_mmio_device(1 << 12, GuestAddress(0x1000), 5, Some(42))
            .unwrap();
    };
    assert_eq!(written(device), b"virtio_mmio.device=4K@0x1000:5:42\0");
}

#[test]
fn a_line_is_read_from_a_text() {
    let line = Cmdline::try_from("foo -- bar", 100).unwrap();
    assert_eq!(
        line.as_cstring().unwrap().as_bytes_with_nul(),
        b"foo -- bar\0"
    );
}

#[test]
fn a_line_is_put_into_guest_memory() {
    let mut guest = vec![0; MEMORY];
    let mut line = Cmdline::new(10).unwrap();
    line.insert("foo", "bar").unwrap();
    load_cmdline_into(&mut guest, GuestAddress(0x1000), &line).unwrap();
    assert_eq!(&guest[0x1000..0x1008], b"foo=bar\0");
    assert!(guest[..0x1000]
        .iter()
        .chain(&guest[0x1008..])
        .all(|byte| *byte == 0));
}

#[test]
fn kernels_are_loaded_with_an_offset_and_the_start_of_high_memory() {
    let (offset, highmem) = (Some(GuestAddress(0x20_0000)), Some(GuestAddress(0)));
    let mut guest = vec![0; MEMORY];
    let elf = ElfImage::entered_at(0x400)
        .with(LOADABLE, 0x400, b"elf")
        .bytes();
    let kernel = Elf::load_into(&mut guest, offset, &elf, highmem).unwrap();
    assert_eq!(kernel.kernel_load, GuestAddress(0x20_0400));
    assert_eq!(&guest[0x20_0400..0x20_0403], b"elf");

    let bzimage = BzImageFile::loaded_at(0x10_0000, b"bzimage").bytes();
    let kernel = BzImage::load_into(&mut guest, offset, &bzimage, highmem).unwrap();
    assert_eq!(kernel.kernel_load, GuestAddress(0x20_0000));
    assert_eq!(&guest[0x20_0000..0x20_0007], b"bzimage");
}

#[test]
fn a_kernel_says_where_it_is_entered_by_pvh() {
    let image = ElfImage::entered_at(0x400)
        .with(LOADABLE, 0x400, b"elf")
        .with(NOTE, 0, &pvh_note(0x1e1_fe1f));
    let kernel = Elf::load_into(&mut vec![0; MEMORY], None, &image.bytes(), None).unwrap();
    let entry = PvhBootCapability::PvhEntryPresent(GuestAddress(0x1e1_fe1f));
    assert_eq!(kernel.pvh_boot_cap, entry);
    assert_eq!(
        kernel.pvh_boot_cap.to_string(),
        "PVH entry point present at guest address: 0x1e1fe1f"
    );
}
