//! A plain Rust loader, written for this measurement: the library's tests in its order, and `copy_from_slice`. Two things it
//! leaves out, since no image here needs them: the walk over notes, and the limit of 2^40 bytes.

use rekusoyen::loader::{bootparam, KernelLoaderResult};
use rekusoyen::{GuestAddress, Refusal};

type Loaded = Result<KernelLoaderResult, Refusal>;

pub fn load_elf(
    guest: &mut [u8],
    offset: Option<u64>,
    image: &[u8],
    highmem: Option<u64>,
) -> Loaded {
    let header = image.get(..64).ok_or(Refusal::ReadElfHeader)?;
    if header[..4] != *b"\x7fELF" {
        return Err(Refusal::InvalidElfMagicNumber);
    }
    if header[5] != 1 {
        return Err(Refusal::BigEndianElfOnLittle);
    }
    if u16_at(header, 54) != 56 {
        return Err(Refusal::InvalidProgramHeaderSize);
    }
    let table = u64_at(header, 32);
    if table < 64 {
        return Err(Refusal::InvalidProgramHeaderOffset);
    }
    let entry = u64_at(header, 24);
    if entry < highmem.unwrap_or(0) {
        return Err(Refusal::InvalidEntryAddress);
    }
    let shift = offset.unwrap_or(0);
    let load = shift.checked_add(entry).ok_or(Refusal::Overflow)?;
    let headers = match u16_at(header, 56) {
        0 => &[],
        count => part(image, table, 56 * u64::from(count)).ok_or(Refusal::ReadProgramHeader)?,
    };
    let mut end = 0;
    // nothing is written before every header has passed
    let mut copies = Vec::new();
    for header in headers.chunks_exact(56) {
        let (size, memory) = (u64_at(header, 32), u64_at(header, 40));
        if u32_at(header, 0) != 1 || (size == 0 && memory == 0) {
            continue;
        }
        if size > memory {
            return Err(Refusal::InvalidProgramHeaderFileSize);
        }
        let address = shift.checked_add(u64_at(header, 24));
        let address = address.ok_or(Refusal::InvalidProgramHeaderAddress)?;
        if size > 0 {
            let from = part(image, u64_at(header, 8), size).ok_or(Refusal::ReadKernelImage)?;
            part_mut(guest, address, size).ok_or(Refusal::ReadKernelImage)?;
            copies.push((address as usize, from));
        }
        let segment_end = address.checked_add(memory);
        end = end.max(segment_end.ok_or(Refusal::MemoryOverflow)?);
    }
    for (address, from) in copies {
        guest[address..address + from.len()].copy_from_slice(from);
    }
    Ok(KernelLoaderResult {
        kernel_load: GuestAddress(load),
        kernel_end: end,
        ..Default::default()
    })
}

pub fn load_bzimage(
    guest: &mut [u8],
    offset: Option<u64>,
    image: &[u8],
    highmem: Option<u64>,
) -> Loaded {
    // from here on the fields are named by their place in the image, less this
    const FIRST: usize = 0x1f1;
    let mut header = [0; 123];
    let read = image.get(FIRST..).unwrap_or_default();
    let count = read.len().min(header.len());
    header[..count].copy_from_slice(&read[..count]);
    if header[0x202 - FIRST..0x206 - FIRST] != *b"HdrS"
        || u16_at(&header, 0x206 - FIRST) < 0x200
        || header[0x211 - FIRST] & 1 == 0
    {
        return Err(Refusal::InvalidBzImage);
    }
    let sectors = match header[0] {
        0 => 4,
        said => usize::from(said),
    };
    let kernel = image.get((sectors + 1) * 512..).ok_or(Refusal::Underflow)?;
    let start = u64::from(u32_at(&header, 0x214 - FIRST));
    if start < highmem.unwrap_or(0) {
        return Err(Refusal::InvalidKernelStartAddress);
    }
    let load = offset.unwrap_or(start);
    let size = kernel.len() as u64;
    if size > 0 {
        let to = part_mut(guest, load, size).ok_or(Refusal::ReadBzImageCompressedKernel)?;
        to.copy_from_slice(kernel);
    }
    header[0x214 - FIRST..0x218 - FIRST].copy_from_slice(&(load as u32).to_le_bytes());
    Ok(KernelLoaderResult {
        kernel_load: GuestAddress(load),
        kernel_end: load + size,
        setup_header: Some(bootparam::setup_header::from(header)),
        ..Default::default()
    })
}

/// So many bytes from a place on, if all of them are there.
fn part(bytes: &[u8], place: u64, count: u64) -> Option<&[u8]> {
    bytes.get(place as usize..place.checked_add(count)? as usize)
}

fn part_mut(bytes: &mut [u8], place: u64, count: u64) -> Option<&mut [u8]> {
    bytes.get_mut(place as usize..place.checked_add(count)? as usize)
}

fn u16_at(bytes: &[u8], place: usize) -> u16 {
    u16::from_le_bytes([bytes[place], bytes[place + 1]])
}

fn u32_at(bytes: &[u8], place: usize) -> u32 {
    u32::from_le_bytes(bytes[place..place + 4].try_into().expect("4 bytes"))
}

fn u64_at(bytes: &[u8], place: usize) -> u64 {
    u64::from_le_bytes(bytes[place..place + 8].try_into().expect("8 bytes"))
}

#[cfg(test)]
mod tests {
    use super::*;
    use crate::images;
    use rekusoyen::loader::{BzImage, Elf, Error, Result};

    type Plain = fn(&mut [u8], Option<u64>, &[u8], Option<u64>) -> Loaded;
    type Library = fn(
        &mut [u8],
        Option<GuestAddress>,
        &[u8],
        Option<GuestAddress>,
    ) -> Result<KernelLoaderResult>;

    /// Both load the image into the same memory: the same answer or refusal, and the same bytes.
    fn check(plain: Plain, library: Library, image: &[u8], offset: Option<u64>) {
        let highmem = Some(images::START);
        let mut by_plain = vec![7; 2 << 20];
        let mut by_library = by_plain.clone();
        let wanted = library(
            &mut by_library,
            offset.map(GuestAddress),
            image,
            highmem.map(GuestAddress),
        );
        let wanted = wanted.map_err(|error: Error| error.refusal().expect("bytes lead to it"));
        assert_eq!(plain(&mut by_plain, offset, image, highmem), wanted);
        assert!(by_plain == by_library, "guest memory");
    }

    /// A good image: each byte of its headers changed, its end cut, moved by offsets. None of this makes a note header.
    fn check_all(
        plain: Plain,
        library: Library,
        image: &mut [u8],
        headers: std::ops::Range<usize>,
    ) {
        for place in headers.clone() {
            let before = image[place];
            for changed in [0, 1, before ^ 2, 255] {
                image[place] = changed;
                check(plain, library, image, None);
            }
            image[place] = before;
        }
        for length in [0, 63, 64, headers.end, image.len() - 1, image.len()] {
            check(plain, library, &image[..length], None);
        }
        for offset in [0, 5, 1 << 20, (1 << 20) + 1, u64::MAX - 2, u64::MAX] {
            check(plain, library, image, Some(offset));
        }
    }

    #[test]
    fn elf_loads_are_the_librarys() {
        let mut image = images::elf(2, 100);
        check_all(load_elf, Elf::load_into, &mut image, 0..64 + 2 * 56);
    }

    #[test]
    fn bzimage_loads_are_the_librarys() {
        let mut image = images::bzimage(8 * 512 + 100);
        check_all(load_bzimage, BzImage::load_into, &mut image, 0x1f1..0x26c);
    }
}
