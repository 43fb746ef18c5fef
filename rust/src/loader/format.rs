//! The formats of images, and what a load of any of them returns.

use super::{bootparam, elf, errors, KernelLoaderResult, MapError, PvhNote};
use crate::entry::{self, KERNEL_NUMBERS, SETUP_HEADER_SIZE};
use crate::ffi::call;
use crate::refusal::answered;
use crate::{GuestAddress, Map, Refusal};

/// A format of kernel images.
#[derive(Clone, Copy, Debug, PartialEq, Eq)]
#[repr(u32)]
pub enum Format {
    /// ELF.
    Elf = entry::ELF,
    /// bzImage.
    BzImage = entry::BZIMAGE,
    /// arm64 Image.
    Arm64 = entry::ARM64,
}

/// Where a load is to put the kernel, and where high memory starts, if the caller says.
#[derive(Clone, Copy)]
pub struct Options {
    pub(crate) flags: u32,
    pub(crate) offset: u64,
    pub(crate) highmem: u64,
}

impl Options {
    pub(crate) fn new(offset: Option<GuestAddress>, highmem: Option<GuestAddress>) -> Options {
        let flag = |given: bool, flag| if given { flag } else { 0 };
        let number = |address: Option<GuestAddress>| address.map_or(0, |address| address.0);
        Options {
            flags: flag(offset.is_some(), entry::OFFSET_GIVEN)
                | flag(highmem.is_some(), entry::HIGHMEM_GIVEN),
            offset: number(offset),
            highmem: number(highmem),
        }
    }
}

/// What an accepted load returns: the result, and the note that the PVH entry of an ELF image was read from.
pub(crate) type Loaded = (KernelLoaderResult, Option<PvhNote>);

impl Format {
    /// The format of an image by its magic number: that of ELF, else of a bzImage, else of an arm64 Image. Nothing
    /// else is checked.
    ///
    /// ```
    /// use rekusoyen::loader::Format;
    ///
    /// let mut image = vec![0; 0x206];
    /// assert_eq!(Format::of(&image), None);
    /// image[56..60].copy_from_slice(b"ARM\x64");
    /// assert_eq!(Format::of(&image), Some(Format::Arm64));
    /// image[0x202..].copy_from_slice(b"HdrS");
    /// assert_eq!(Format::of(&image), Some(Format::BzImage));
    /// image[..4].copy_from_slice(b"\x7fELF");
    /// assert_eq!(Format::of(&image), Some(Format::Elf));
    /// ```
    pub fn of(image: &[u8]) -> Option<Format> {
        match call!(rekusoyen_kind(in image)) {
            entry::ELF => Some(Format::Elf),
            entry::BZIMAGE => Some(Format::BzImage),
            entry::ARM64 => Some(Format::Arm64),
            _ => None,
        }
    }

    /// Loads an image into guest memory without holes.
    pub(super) fn load_into(
        self,
        guest: &mut [u8],
        image: &[u8],
        options: Options,
    ) -> super::Result<Loaded> {
        let map = Map::whole(guest.len());
        let loaded = self.load(guest, &map, image, options);
        loaded.map_err(|refusal| errors::of(self, refusal))
    }

    /// Loads an image into guest memory that has a map.
    pub(super) fn load_into_map(
        self,
        guest: &mut [u8],
        map: &Map,
        image: &[u8],
        options: Options,
    ) -> Result<Loaded, MapError> {
        let loaded = self.load(guest, map, image, options);
        loaded.map_err(|refusal| MapError::of(self, refusal))
    }

    fn load(
        self,
        guest: &mut [u8],
        map: &Map,
        image: &[u8],
        options: Options,
    ) -> Result<Loaded, Refusal> {
        let mut kernel = [0; KERNEL_NUMBERS];
        let Options {
            flags,
            offset,
            highmem,
        } = options;
        answered(call!(rekusoyen_raw_load(
            mut guest, in map.numbers(), in image, self as u32, flags, offset, highmem, mut &mut kernel
        )))?;
        Ok(self.loaded(image, kernel))
    }

    /// What the numbers of an accepted load of this image say.
    pub(crate) fn loaded(self, image: &[u8], kernel: [u64; KERNEL_NUMBERS]) -> Loaded {
        let [load, end, pvh, entry, offset, size] = kernel;
        let kernel = KernelLoaderResult {
            kernel_load: GuestAddress(load),
            kernel_end: end,
            setup_header: (self == Format::BzImage).then(|| setup_header(image, load)),
            pvh_boot_cap: elf::pvh(pvh, entry),
        };
        (kernel, elf::pvh_note(pvh, offset, size))
    }
}

/// The setup header of a bzImage that was put to an address.
fn setup_header(image: &[u8], load: u64) -> bootparam::setup_header {
    let mut header = [0; SETUP_HEADER_SIZE];
    let answer = call!(rekusoyen_setup_header(in image, load, mut &mut header));
    debug_assert_eq!(
        answer, 0,
        "the image was loaded, and the header has its size"
    );
    header.into()
}
