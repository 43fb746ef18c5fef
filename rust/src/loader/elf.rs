// Copyright © 2020, Oracle and/or its affiliates.
// Copyright (c) 2019 Intel Corporation. All rights reserved.
// Copyright 2018 Amazon.com, Inc. or its affiliates. All Rights Reserved.
// Copyright 2017 The Chromium OS Authors. All rights reserved.
// Use of this source code is governed by a BSD-style license that can be
// found in the NOTICE file.
// SPDX-License-Identifier: Apache-2.0 AND BSD-3-Clause

//! ELF images, with the PVH entry that their notes give.
//!
//! # Time
//!
//! A load's time grows with the bytes that it copies, with the program headers, and with the note headers that it looks at. These can be
//! many more than the image has: every program header of type 4 is walked, and all of them may be over the same notes. One walk looks at
//! `(p_filesz + 11) / 12` note headers at the most, a load at 65,535 times as many; an image of 4 MiB can make it look at 2,863 million,
//! which can take half a minute (`docs/SPEED.md`). A monitor that takes images from strangers can set itself a limit before the load. A Linux
//! kernel has one header of type 4, of some hundred bytes.
//!
//! ```
//! use rekusoyen::loader::elf::segments;
//!
//! /// The bytes of notes that a load walks over.
//! fn note_bytes(image: &[u8]) -> u64 {
//!     let notes = segments(image).filter(|segment| segment.p_type == 4);
//!     notes.fold(0, |sum, segment| segment.p_filesz.saturating_add(sum))
//! }
//!
//! // two headers over the same 20 bytes of notes
//! let mut image = [0u8; 196];
//! for (place, value) in [(32, 64), (54, 56), (56, 2), (64, 4), (72, 176), (96, 20), (120, 4), (128, 176), (152, 20)] {
//!     image[place] = value;
//! }
//! assert_eq!(note_bytes(&image), 40);
//! ```

use std::fmt;
use std::ops::Range;

use super::format::{Format, Options};
use super::{errors, KernelLoaderResult, Result};
use crate::entry;
use crate::ffi::call;
use crate::refusal::answered;
use crate::GuestAddress;

pub mod start_info;

/// Why an ELF image was not loaded.
#[derive(Clone, Copy, Debug, PartialEq, Eq)]
pub enum Error {
    /// Guest memory of vm-memory's regions has more than 16 ranges apart from each other. linux-loader never gives it.
    Align,
    /// Loaded big endian binary on a little endian platform.
    BigEndianElfOnLittle,
    /// Invalid ELF magic number.
    InvalidElfMagicNumber,
    /// Invalid program header size.
    InvalidProgramHeaderSize,
    /// Invalid program header offset.
    InvalidProgramHeaderOffset,
    /// Invalid program header address.
    InvalidProgramHeaderAddress,
    /// Invalid entry address.
    InvalidEntryAddress,
    /// Overflow occurred during an arithmetic operation.
    Overflow,
    /// Unable to read ELF header.
    ReadElfHeader,
    /// Unable to read kernel image.
    ReadKernelImage,
    /// Unable to read program header.
    ReadProgramHeader,
    /// Unable to seek to kernel start: the image or a slice of guest memory has more than 2^40 bytes, or a reader fails.
    SeekKernelStart,
    /// Unable to seek to ELF start or end: a reader fails.
    SeekElfStart,
    /// Unable to seek to program header: one says that a segment has more bytes in the file than in memory, or a reader fails.
    SeekProgramHeader,
    /// Unable to seek to note header: a reader fails.
    SeekNoteHeader,
    /// Unable to read note header.
    ReadNoteHeader,
    /// Invalid PVH note.
    InvalidPvhNote,
}

impl fmt::Display for Error {
    fn fmt(&self, f: &mut fmt::Formatter<'_>) -> fmt::Result {
        let desc = match self {
            Error::Align => "Guest memory has more than 16 ranges apart from each other",
            Error::BigEndianElfOnLittle => {
                "Trying to load big-endian binary on little-endian machine"
            }
            Error::InvalidElfMagicNumber => "Invalid Elf magic number",
            Error::InvalidProgramHeaderSize => "Invalid program header size",
            Error::InvalidProgramHeaderOffset => "Invalid program header offset",
            Error::InvalidProgramHeaderAddress => "Invalid Program Header Address",
            Error::InvalidEntryAddress => "Invalid entry address",
            Error::Overflow => "Overflow occurred during an arithmetic operation",
            Error::ReadElfHeader => "Unable to read elf header",
            Error::ReadKernelImage => "Unable to read kernel image",
            Error::ReadProgramHeader => "Unable to read program header",
            Error::SeekKernelStart => "Unable to seek to kernel start",
            Error::SeekElfStart => "Unable to seek to elf start",
            Error::SeekProgramHeader => "Unable to seek to program header",
            Error::SeekNoteHeader => "Unable to seek to note header",
            Error::ReadNoteHeader => "Unable to read note header",
            Error::InvalidPvhNote => "Invalid PVH note header",
        };

        write!(f, "Kernel Loader: {desc}")
    }
}

impl std::error::Error for Error {}

/// Whether the kernel says where a monitor enters it by the PVH boot protocol.
#[derive(Clone, Default, Copy, Debug, PartialEq, Eq)]
pub enum PvhBootCapability {
    /// PVH entry point is present
    PvhEntryPresent(GuestAddress),
    /// PVH entry point is not present
    PvhEntryNotPresent,
    /// PVH entry point is ignored, even if available
    #[default]
    PvhEntryIgnored,
}

impl fmt::Display for PvhBootCapability {
    fn fmt(&self, f: &mut fmt::Formatter) -> fmt::Result {
        use self::PvhBootCapability::*;
        match self {
            PvhEntryPresent(address) => {
                write!(
                    f,
                    "PVH entry point present at guest address: {:#x}",
                    address.0
                )
            }
            PvhEntryNotPresent => write!(f, "PVH entry point not present"),
            PvhEntryIgnored => write!(f, "PVH entry point ignored"),
        }
    }
}

/// PVH as the library encodes it: a code, and an address that means something for one of them.
pub(super) fn pvh(code: u64, address: u64) -> PvhBootCapability {
    match code {
        entry::PVH_IGNORED => PvhBootCapability::PvhEntryIgnored,
        entry::PVH_NOT_PRESENT => PvhBootCapability::PvhEntryNotPresent,
        entry::PVH_PRESENT => PvhBootCapability::PvhEntryPresent(GuestAddress(address)),
        _ => unreachable!("PVH has three codes, and the library returned {code}"),
    }
}

/// The note that the PVH entry was read from.
#[derive(Clone, Copy, Debug, PartialEq, Eq)]
pub struct PvhNote {
    /// Where its descriptor begins in the image.
    pub place: u64,
    /// How many bytes the descriptor has, as the note's header says.
    pub size: u64,
}

/// The note, if there is an entry.
pub(super) fn pvh_note(code: u64, place: u64, size: u64) -> Option<PvhNote> {
    (code == entry::PVH_PRESENT).then(|| PvhNote { place, size })
}

/// Raw ELF (a.k.a. vmlinux) kernel image support.
#[derive(Clone, Copy, Debug, PartialEq, Eq)]
pub struct Elf;

impl Elf {
    /// Loads an image into guest memory, which begins at guest address 0. Each segment goes to its address, moved by the offset
    /// if one is given; with an offset the PVH entry is ignored, and without the first PVH note found gives it. A refusal changes nothing.
    ///
    /// ```
    /// use rekusoyen::loader::elf::{Elf, Error, PvhBootCapability};
    /// use rekusoyen::GuestAddress;
    ///
    /// // one segment: the 3 bytes at 120 go to address 16, where the kernel is entered, and have 8 bytes of memory
    /// let mut image = [0u8; 123];
    /// image[..6].copy_from_slice(b"\x7fELF\x02\x01");
    /// for (place, value) in [(24, 16), (32, 64), (54, 56), (56, 1), (64, 1), (72, 120), (88, 16), (96, 3), (104, 8)] {
    ///     image[place] = value;
    /// }
    /// image[120..].copy_from_slice(b"abc");
    ///
    /// let mut guest = [0u8; 32];
    /// let kernel = Elf::load_into(&mut guest, None, &image, None)?;
    /// assert_eq!((kernel.kernel_load, kernel.kernel_end), (GuestAddress(16), 24));
    /// assert_eq!(kernel.pvh_boot_cap, PvhBootCapability::PvhEntryIgnored);
    /// assert_eq!(&guest[16..19], b"abc");
    ///
    /// // too little memory for the segment
    /// let refused = Elf::load_into(&mut guest[..18], None, &image, None);
    /// assert_eq!(refused, Err(Error::ReadKernelImage.into()));
    /// # Ok::<(), rekusoyen::loader::Error>(())
    /// ```
    pub fn load_into(
        guest: &mut [u8],
        kernel_offset: Option<GuestAddress>,
        kernel_image: &[u8],
        highmem_start_address: Option<GuestAddress>,
    ) -> Result<KernelLoaderResult> {
        let loaded =
            Elf::load_into_with_note(guest, kernel_offset, kernel_image, highmem_start_address);
        loaded.map(|(kernel, _)| kernel)
    }

    /// Loads an image as [`load_into`](Elf::load_into) does, and says which note the PVH entry was read from, if there is one: it is the
    /// first PVH note of the first note segment that has any.
    ///
    /// ```
    /// use rekusoyen::loader::elf::{Elf, PvhBootCapability, PvhNote};
    /// use rekusoyen::GuestAddress;
    ///
    /// // one segment of notes: the 20 bytes at 120
    /// let mut image = [0u8; 120].to_vec();
    /// image[..6].copy_from_slice(b"\x7fELF\x02\x01");
    /// for (place, value) in [(32, 64), (54, 56), (56, 1), (64, 4), (72, 120), (96, 20)] {
    ///     image[place] = value;
    /// }
    /// image.extend(*b"\x04\0\0\0\x04\0\0\0\x12\0\0\0Xen\0\0\0\x10\0");
    ///
    /// let (kernel, note) = Elf::load_into_with_note(&mut [], None, &image, None)?;
    /// assert_eq!(kernel.pvh_boot_cap, PvhBootCapability::PvhEntryPresent(GuestAddress(0x100000)));
    /// assert_eq!(note, Some(PvhNote { place: 136, size: 4 }));
    /// # Ok::<(), rekusoyen::loader::Error>(())
    /// ```
    pub fn load_into_with_note(
        guest: &mut [u8],
        kernel_offset: Option<GuestAddress>,
        kernel_image: &[u8],
        highmem_start_address: Option<GuestAddress>,
    ) -> Result<(KernelLoaderResult, Option<PvhNote>)> {
        let options = Options::new(kernel_offset, highmem_start_address);
        Format::Elf.load_into(guest, kernel_image, options)
    }
}

/// What a walk over notes finds.
#[derive(Clone, Copy, Debug, PartialEq, Eq)]
pub struct Notes {
    /// The PVH entry that they give.
    pub pvh_boot_cap: PvhBootCapability,
    /// The note that gives it.
    pub pvh_note: Option<PvhNote>,
    /// How many note headers were read.
    pub headers: u64,
}

/// Walks the notes of `p_filesz` bytes at `p_offset` of an image, as a load does for a note segment.
///
/// ```
/// use rekusoyen::loader::elf::{notes, PvhBootCapability, PvhNote};
/// use rekusoyen::GuestAddress;
///
/// // sizes of name and descriptor, type, name, descriptor
/// let image = *b"\x04\0\0\0\x04\0\0\0\x12\0\0\0Xen\0\0\0\x10\0";
/// let found = notes(&image, 0, 20)?;
/// assert_eq!(found.pvh_boot_cap, PvhBootCapability::PvhEntryPresent(GuestAddress(0x100000)));
/// assert_eq!(found.pvh_note, Some(PvhNote { place: 16, size: 4 }));
/// assert_eq!(found.headers, 1);
/// # Ok::<(), rekusoyen::loader::Error>(())
/// ```
pub fn notes(image: &[u8], p_offset: u64, p_filesz: u64) -> Result<Notes> {
    let mut note = [0; entry::NOTE_NUMBERS];
    answered(call!(rekusoyen_raw_elf_note(in image, p_offset, p_filesz, mut &mut note)))
        .map_err(|refusal| errors::of(Format::Elf, refusal))?;
    let [code, address, headers, place, size] = note;
    Ok(Notes {
        pvh_boot_cap: pvh(code, address),
        pvh_note: pvh_note(code, place, size),
        headers,
    })
}

/// A program header, as it stands in an image.
#[derive(Clone, Copy, Debug, PartialEq, Eq)]
pub struct Segment {
    /// What it describes.
    pub p_type: u32,
    /// Where its bytes begin in the image.
    pub p_offset: u64,
    /// Where they belong in memory.
    pub p_paddr: u64,
    /// How many there are.
    pub p_filesz: u64,
    /// How much memory they begin.
    pub p_memsz: u64,
}

impl Segment {
    /// Its bytes are put into memory.
    pub fn is_loadable(&self) -> bool {
        self.p_type == 1
    }

    /// Its bytes are notes.
    pub fn is_note(&self) -> bool {
        self.p_type == 4
    }
}

/// The program headers that an image has, in file order, up to the first that passes its end. Nothing is tested: this is for
/// showing what an image says, and a load takes its own way.
///
/// ```
/// use rekusoyen::loader::elf::segments;
///
/// let mut image = [0u8; 120];
/// for (place, value) in [(32, 64), (56, 2), (64, 4), (72, 100), (96, 20)] {
///     image[place] = value;
/// }
/// let found: Vec<_> = segments(&image).collect();
/// assert_eq!(found.len(), 1); // the second passes the end
/// assert!(found[0].is_note());
/// assert_eq!((found[0].p_offset, found[0].p_filesz), (100, 20));
/// ```
pub fn segments(image: &[u8]) -> impl Iterator<Item = Segment> + '_ {
    let Range { start, end } = table(image);
    let bytes = usize::try_from(start)
        .ok()
        .and_then(|start| image.get(start..));
    let count = (end - start) / PROGRAM_HEADER;
    let headers = bytes
        .unwrap_or_default()
        .chunks_exact(PROGRAM_HEADER as usize)
        .take(count as usize);
    headers.map_while(|header| {
        Some(Segment {
            p_type: number_at(header, 0)? as u32,
            p_offset: number_at(header, 8)?,
            p_paddr: number_at(header, 24)?,
            p_filesz: number_at(header, 32)?,
            p_memsz: number_at(header, 40)?,
        })
    })
}

/// How many bytes a program header has.
const PROGRAM_HEADER: u64 = 56;

/// Where an image says that its program headers stand; none where it says no such place, or one so far that they pass 64 bits.
pub(super) fn table(image: &[u8]) -> Range<u64> {
    let count = image
        .get(56..58)
        .map_or(0, |bytes| u16::from_le_bytes([bytes[0], bytes[1]]));
    let start = number_at(image, 32).unwrap_or(0);
    let end = start.checked_add(PROGRAM_HEADER * u64::from(count));
    end.map_or(0..0, |end| start..end)
}

/// The number of 8 bytes at a place, if they are there.
fn number_at(bytes: &[u8], place: usize) -> Option<u64> {
    bytes
        .get(place..place + 8)?
        .try_into()
        .ok()
        .map(u64::from_le_bytes)
}
