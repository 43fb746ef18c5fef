//! The published crate's loader of arm64 Images, `pe`, beside this repository's: where they agree, and where they part. The crate has it on the
//! processors whose kernels it loads alone.
#![cfg(target_arch = "aarch64")]

use linux_loader::loader::{pe, Error as PeError, KernelLoader as _};
use rekusoyen::loader::arm64::{Error, Image};
use rekusoyen::loader::KernelLoader as _;
use std::io::Cursor;
use vm_memory::{Address, Bytes, GuestAddress, GuestMemoryMmap};

/// A real image, whose path this variable has, is loaded by both.
const FILE: &str = "REKUSOYEN_ARM64_IMAGE";

const BASE: u64 = 2 << 20;

fn image(text_offset: u64, image_size: u64, body: usize) -> Vec<u8> {
    let mut image: Vec<u8> = (0..64 + body).map(|place| place as u8 | 1).collect();
    image[8..16].copy_from_slice(&text_offset.to_le_bytes());
    image[16..24].copy_from_slice(&image_size.to_le_bytes());
    image[24..32].copy_from_slice(&10u64.to_le_bytes());
    image[56..60].copy_from_slice(b"ARM\x64");
    image
}

/// The load address and the end, or what was refused; and guest memory after it, of so many bytes.
type Told<E> = (Result<(u64, u64), E>, Vec<u8>);

fn memory(size: usize) -> GuestMemoryMmap {
    GuestMemoryMmap::from_ranges(&[(GuestAddress(0), size)]).expect("a region can be had")
}

fn content(memory: &GuestMemoryMmap, size: usize) -> Vec<u8> {
    let mut bytes = vec![0; size];
    memory.read_slice(&mut bytes, GuestAddress(0)).unwrap();
    bytes
}

fn by_crate(size: usize, base: Option<u64>, image: &[u8]) -> Told<PeError> {
    let memory = memory(size);
    let loaded = pe::PE::load(
        &memory,
        base.map(GuestAddress),
        &mut Cursor::new(image),
        None,
    );
    let told = loaded.map(|kernel| (kernel.kernel_load.raw_value(), kernel.kernel_end));
    (told, content(&memory, size))
}

fn by_ours(size: usize, base: Option<u64>, image: &[u8]) -> Told<rekusoyen::loader::Error> {
    let memory = memory(size);
    let loaded = Image::load(
        &memory,
        base.map(GuestAddress),
        &mut Cursor::new(image),
        None,
    );
    let told = loaded.map(|kernel| (kernel.kernel_load.raw_value(), kernel.kernel_end));
    (told, content(&memory, size))
}

/// Both put the file to the same address, and leave equal memory; the end is the file's there, and that of the kernel's memory here.
fn agree(size: usize, base: Option<u64>, image: &[u8]) {
    let (theirs, their_memory) = by_crate(size, base, image);
    let (ours, our_memory) = by_ours(size, base, image);
    let (theirs, ours) = (theirs.unwrap(), ours.unwrap());
    assert_eq!(theirs.0, ours.0);
    assert_eq!(theirs.1, theirs.0 + image.len() as u64);
    let image_size = u64::from_le_bytes(image[16..24].try_into().unwrap());
    assert_eq!(ours.1, ours.0 + image_size);
    assert!(their_memory == our_memory, "guest memory differs");
}

#[test]
fn the_file_goes_to_the_same_address() {
    for base in [None, Some(0), Some(BASE)] {
        for text_offset in [0, 16, 0x80000] {
            for image_size in [1, 100, 1 << 40] {
                agree(4 << 20, base, &image(text_offset, image_size, 37));
            }
        }
    }
}

/// A real image, where one is named.
#[test]
fn a_real_image_goes_to_the_same_address() {
    let Ok(file) = std::env::var(FILE) else {
        println!("{FILE} names no image");
        return;
    };
    let image = std::fs::read(file).expect("the image can be read");
    for base in [None, Some(BASE)] {
        agree(128 << 20, base, &image);
    }
}

#[test]
fn both_refuse_a_short_image_another_magic_and_an_unaligned_base() {
    let whole = image(0, 100, 0);
    let mut other = whole.clone();
    other[56] = 0;
    let rows = [
        (
            &whole[..63],
            None,
            pe::Error::ReadImageHeader,
            Error::ShortImage,
        ),
        (
            &other[..],
            None,
            pe::Error::InvalidImageMagicNumber,
            Error::BadImageMagic,
        ),
        (
            &whole[..],
            Some(4096),
            pe::Error::InvalidBaseAddrAlignment,
            Error::UnalignedBase,
        ),
    ];
    for (image, base, theirs, ours) in rows {
        assert_eq!(by_crate(4096, base, image).0, Err(theirs.into()));
        assert_eq!(by_ours(4096, base, image).0, Err(ours.into()));
    }
    let wide = image(1 << 63, 100, 0);
    let last = Some(1 << 63);
    assert_eq!(
        by_crate(4096, last, &wide).0,
        Err(pe::Error::InvalidImage.into())
    );
    assert_eq!(
        by_ours(4096, last, &wide).0,
        Err(Error::ImageStartWraps.into())
    );
}

/// A big-endian image is loaded by the crate.
#[test]
fn the_flag_of_big_endian_kernels_parts_them() {
    let mut image = image(16, 100, 0);
    image[24] = 1;
    assert_eq!(by_crate(4096, None, &image).0, Ok((16, 80)));
    assert_eq!(
        by_ours(4096, None, &image).0,
        Err(Error::BigEndianImage.into())
    );
}

/// An image size of 0 means a text offset of 80000 hex there.
#[test]
fn an_image_size_of_0_parts_them() {
    let image = image(16, 0, 0);
    assert_eq!(by_crate(1 << 20, None, &image).0, Ok((0x80000, 0x80040)));
    assert_eq!(
        by_ours(1 << 20, None, &image).0,
        Err(Error::NoImageSize.into())
    );
}

/// The crate has written what fits before it refuses for room; nothing is written here.
#[test]
fn a_copy_that_fails_parts_them() {
    let image = image(4096 - 16, 100, 0);
    let (theirs, their_memory) = by_crate(4096, None, &image);
    assert_eq!(theirs, Err(pe::Error::ReadKernelImage.into()));
    assert_eq!(their_memory[4096 - 16..], image[..16]);
    let (ours, our_memory) = by_ours(4096, None, &image);
    assert_eq!(ours, Err(Error::NoRoomForImage.into()));
    assert_eq!(our_memory, [0; 4096]);
}

/// The image size that passes 2^64 is not looked at there.
#[test]
fn an_end_that_wraps_parts_them() {
    let image = image(16, u64::MAX - 15, 0);
    assert_eq!(by_crate(4096, None, &image).0, Ok((16, 80)));
    assert_eq!(
        by_ours(4096, None, &image).0,
        Err(Error::ImageEndWraps.into())
    );
}
