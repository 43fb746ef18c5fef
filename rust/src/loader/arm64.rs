//! arm64 Images of Linux: the whole file, with its header, is loaded from a base address on.

use std::fmt;

use super::format::{Format, Options};
use super::{KernelLoaderResult, Result};
use crate::GuestAddress;

/// Why an arm64 Image was not loaded.
#[derive(Clone, Copy, Debug, PartialEq, Eq)]
pub enum Error {
    /// The image is shorter than its header of 64 bytes.
    ShortImage,
    /// The image has not the magic number of an arm64 Image.
    BadImageMagic,
    /// The image is big-endian.
    BigEndianImage,
    /// The image says no size.
    NoImageSize,
    /// The base address is not a multiple of 2 MiB.
    UnalignedBase,
    /// Base and text offset do not fit into 64 bits.
    ImageStartWraps,
    /// The file has no room in guest memory.
    NoRoomForImage,
    /// The end of the kernel's memory does not fit into 64 bits.
    ImageEndWraps,
    /// The image or a slice of guest memory has more than 2^40 bytes.
    SliceTooLong,
    /// Guest memory of vm-memory's regions has more than 16 ranges apart from each other.
    TooManyRanges,
    /// A reader cannot go to a place of the image. Never given for bytes.
    SeekImage,
    /// A reader cannot be read. Never given for bytes.
    ReadImage,
}

impl fmt::Display for Error {
    fn fmt(&self, f: &mut fmt::Formatter<'_>) -> fmt::Result {
        let desc = match self {
            Error::ShortImage => "the image is shorter than its header",
            Error::BadImageMagic => "the image has not the magic number of an arm64 Image",
            Error::BigEndianImage => "the image is big-endian",
            Error::NoImageSize => "the image says no size",
            Error::UnalignedBase => "the base address is not a multiple of 2 MiB",
            Error::ImageStartWraps => "the address of the image does not fit into 64 bits",
            Error::NoRoomForImage => "the image has no room in guest memory",
            Error::ImageEndWraps => "the end of the kernel's memory does not fit into 64 bits",
            Error::SliceTooLong => "the image or guest memory has more than 2^40 bytes",
            Error::TooManyRanges => "guest memory has more than 16 ranges apart from each other",
            Error::SeekImage => "unable to seek in the image",
            Error::ReadImage => "unable to read the image",
        };
        write!(f, "Kernel Loader: {desc}")
    }
}

impl std::error::Error for Error {}

/// arm64 Image support.
#[derive(Clone, Copy, Debug, PartialEq, Eq)]
pub struct Image;

impl Image {
    /// Loads an arm64 Image into guest memory, which begins at guest address 0. The whole file goes to the base and the text offset of its
    /// header; the kernel's end is that address and the image size, which may lie past guest memory. A refusal changes nothing.
    ///
    /// ```
    /// use rekusoyen::loader::arm64::{Error, Image};
    /// use rekusoyen::GuestAddress;
    ///
    /// // a header, and the kernel's 3 bytes
    /// let mut image = vec![0u8; 64 + 3];
    /// image[8] = 16; // text offset
    /// image[16] = 200; // image size
    /// image[56..60].copy_from_slice(b"ARM\x64");
    /// image[64..].copy_from_slice(b"abc");
    ///
    /// let mut guest = [0u8; 96];
    /// let kernel = Image::load_into(&mut guest, GuestAddress(0), &image)?;
    /// assert_eq!((kernel.kernel_load, kernel.kernel_end), (GuestAddress(16), 216));
    /// assert_eq!(guest[16..83], image);
    ///
    /// let refused = Image::load_into(&mut guest, GuestAddress(4096), &image);
    /// assert_eq!(refused, Err(Error::UnalignedBase.into()));
    /// # Ok::<(), rekusoyen::loader::Error>(())
    /// ```
    pub fn load_into(
        guest: &mut [u8],
        base: GuestAddress,
        kernel_image: &[u8],
    ) -> Result<KernelLoaderResult> {
        let options = Options::new(Some(base), None);
        let loaded = Format::Arm64.load_into(guest, kernel_image, options);
        loaded.map(|(kernel, _)| kernel)
    }
}
