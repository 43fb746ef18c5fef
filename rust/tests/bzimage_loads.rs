//! bzImage loads over slices: what is answered, and every byte of guest memory afterwards.

mod images;

use std::mem::offset_of;

use images::{fresh, fresh_with, BzImageFile};
use rekusoyen::loader::bootparam::setup_header;
use rekusoyen::loader::bzimage::{BzImage, Error};
use rekusoyen::loader::{self, KernelLoaderResult, PvhBootCapability};
use rekusoyen::GuestAddress;

const ROOM: usize = 32;

/// An image with the kernel `abc` for address 16.
fn plain() -> BzImageFile {
    BzImageFile::loaded_at(16, b"abc")
}

/// Loads an image into guest memory: the answer, and the memory afterwards.
fn load(
    image: &[u8],
    room: usize,
    offset: Option<u64>,
    highmem: Option<u64>,
) -> (loader::Result<KernelLoaderResult>, Vec<u8>) {
    let mut guest = fresh(room);
    let (offset, highmem) = (offset.map(GuestAddress), highmem.map(GuestAddress));
    let answer = BzImage::load_into(&mut guest, offset, image, highmem);
    (answer, guest)
}

/// The setup header that stands in an image, with another address for the kernel. What the image lacks is zero.
fn header_of(image: &[u8], code32_start: u32) -> setup_header {
    let mut bytes = [0; 123];
    let there = &image[0x1f1..image.len().min(0x1f1 + 123)];
    bytes[..there.len()].copy_from_slice(there);
    setup_header {
        code32_start,
        ..setup_header::from(bytes)
    }
}

#[track_caller]
fn accepted(image: &[u8], offset: Option<u64>, highmem: Option<u64>, at: u64, kernel: &[u8]) {
    let (answer, guest) = load(image, ROOM, offset, highmem);
    let wanted = KernelLoaderResult {
        kernel_load: GuestAddress(at),
        kernel_end: at + kernel.len() as u64,
        setup_header: Some(header_of(image, at as u32)),
        pvh_boot_cap: PvhBootCapability::PvhEntryIgnored,
    };
    assert_eq!(answer, Ok(wanted));
    let written: &[(usize, &[u8])] = if kernel.is_empty() {
        &[]
    } else {
        &[(at as usize, kernel)]
    };
    assert_eq!(guest, fresh_with(ROOM, written));
}

#[track_caller]
fn refused(
    image: &[u8],
    room: usize,
    offset: Option<u64>,
    highmem: Option<u64>,
    error: impl Into<loader::Error>,
) {
    let (answer, guest) = load(image, room, offset, highmem);
    assert_eq!(answer, Err(error.into()));
    assert_eq!(guest, fresh(room));
}

#[test]
fn the_kernel_goes_to_the_offset_or_to_its_own_address() {
    let image = plain().bytes();
    accepted(&image, None, None, 16, b"abc");
    accepted(&image, Some(4), None, 4, b"abc");
    accepted(&image, Some(29), None, 29, b"abc");
    // high memory is compared with its own address in both cases
    accepted(&image, None, Some(16), 16, b"abc");
    accepted(&image, Some(4), Some(16), 4, b"abc");
    let start = loader::Error::InvalidKernelStartAddress;
    refused(&image, ROOM, None, Some(17), start);
    refused(&image, ROOM, Some(24), Some(17), start);
}

#[test]
fn no_sectors_mean_four_and_come_back_as_none() {
    let mut image = plain();
    image.setup_sects = 0;
    assert_eq!(image.setup_size(), 2560);
    accepted(&image.bytes(), None, None, 16, b"abc");
    refused(&image.bytes()[..2559], ROOM, None, None, Error::Underflow);
}

#[test]
fn a_kernel_of_no_bytes_is_accepted_at_any_address() {
    let image = &plain().bytes()[..1024];
    accepted(image, None, None, 16, b"");
    // beyond guest memory, and where 32 bits do not hold the address
    accepted(image, Some(u64::MAX), None, u64::MAX, b"");
}

#[test]
fn an_image_without_a_setup_header_is_refused() {
    let edits: [fn(&mut BzImageFile); 3] = [
        |image| image.magic[0] = b'h',
        |image| image.version = 0x1ff,
        |image| image.loadflags = 0xfe,
    ];
    for edit in edits {
        let mut image = plain();
        edit(&mut image);
        refused(&image.bytes(), ROOM, None, None, Error::InvalidBzImage);
    }
    // what is missing counts as 0: first the flags, then the magic, then all
    for length in [0x211, 0x205, 0x1f1, 0] {
        let image = &plain().bytes()[..length];
        refused(image, ROOM, None, None, Error::InvalidBzImage);
    }
}

#[test]
fn an_image_shorter_than_its_setup_is_refused() {
    let image = plain().bytes();
    for length in [1023, 0x1f1 + 123, 0x218] {
        refused(&image[..length], ROOM, None, None, Error::Underflow);
    }
}

#[test]
fn a_kernel_without_room_is_refused_and_nothing_is_written() {
    let image = plain().bytes();
    let error = Error::ReadBzImageCompressedKernel;
    refused(&image, 18, None, None, error);
    refused(&image, 0, Some(0), None, error);
    refused(&image, ROOM, Some(30), None, error);
    refused(&image, ROOM, Some(u64::MAX), None, error);
}

#[test]
fn the_header_has_the_places_of_the_boot_protocol() {
    let places = [
        (0x1f1, offset_of!(setup_header, setup_sects)),
        (0x202, offset_of!(setup_header, header)),
        (0x206, offset_of!(setup_header, version)),
        (0x211, offset_of!(setup_header, loadflags)),
        (0x214, offset_of!(setup_header, code32_start)),
        (0x228, offset_of!(setup_header, cmd_line_ptr)),
        (0x258, offset_of!(setup_header, pref_address)),
        (0x268, offset_of!(setup_header, kernel_info_offset)),
    ];
    for (in_image, in_header) in places {
        assert_eq!(in_image, 0x1f1 + in_header);
    }
    // its bytes are those that it is made of
    let bytes: [u8; 123] = std::array::from_fn(|place| place as u8);
    assert_eq!(<[u8; 123]>::from(setup_header::from(bytes)), bytes);
}
