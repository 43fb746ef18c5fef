//! Loads into guest memory that has a map.

use std::fmt;

use super::format::{Format, Options};
use super::{arm64, errors, put_line, BzImage, Cmdline, Elf, Error, KernelLoaderResult, PvhNote};
use crate::{GuestAddress, Map, Refusal};

/// Why a kernel or a line was not put into guest memory that has a map.
#[derive(Clone, Copy, Debug, PartialEq, Eq)]
pub enum MapError {
    /// The map is not good over this slice: see [`Map`]. Nothing else was looked at but that no slice has more than 2^40 bytes.
    BadMap,
    /// As without a map. What lies within no range has no room.
    Load(Error),
}

impl MapError {
    /// The error of a refused load.
    pub(super) fn of(format: Format, refusal: Refusal) -> MapError {
        MapError::by(refusal, |refusal| errors::of(format, refusal))
    }

    fn by(refusal: Refusal, error: impl FnOnce(Refusal) -> Error) -> MapError {
        match refusal {
            Refusal::BadMap => MapError::BadMap,
            refusal => MapError::Load(error(refusal)),
        }
    }

    /// The refusal that this error stands for.
    pub fn refusal(&self) -> Option<Refusal> {
        match self {
            MapError::BadMap => Some(Refusal::BadMap),
            MapError::Load(error) => error.refusal(),
        }
    }

    /// The number of that refusal, which is 77 for a map that is not good.
    pub fn number(&self) -> Option<u32> {
        self.refusal().map(Refusal::number)
    }
}

impl From<Error> for MapError {
    fn from(error: Error) -> Self {
        MapError::Load(error)
    }
}

impl fmt::Display for MapError {
    fn fmt(&self, f: &mut fmt::Formatter<'_>) -> fmt::Result {
        match self {
            MapError::BadMap => write!(f, "Kernel Loader: the map of guest memory is not good"),
            MapError::Load(error) => error.fmt(f),
        }
    }
}

impl std::error::Error for MapError {
    fn source(&self) -> Option<&(dyn std::error::Error + 'static)> {
        match self {
            MapError::BadMap => None,
            MapError::Load(error) => error.source(),
        }
    }
}

type Result<T> = std::result::Result<T, MapError>;

impl Elf {
    /// Loads an image as [`load_into`](Elf::load_into) does, into guest memory that has a map. Each segment lies within one range, or the
    /// image is refused. No byte outside the ranges changes.
    ///
    /// ```
    /// use rekusoyen::loader::elf::{Elf, Error};
    /// use rekusoyen::loader::MapError;
    /// use rekusoyen::{GuestAddress, Map};
    ///
    /// # let mut image = [0u8; 123];
    /// # image[..6].copy_from_slice(b"\x7fELF\x02\x01");
    /// # for (place, value) in [(24, 16), (32, 64), (54, 56), (56, 1), (64, 1), (72, 120), (88, 16), (96, 3), (104, 8)] {
    /// #     image[place] = value;
    /// # }
    /// # image[120..].copy_from_slice(b"abc");
    /// // an image of one segment: 3 bytes for address 16
    /// let mut guest = [0u8; 32];
    /// let mut load = |map: &Map| Elf::load_into_map(&mut guest, map, None, &image, None);
    /// let range = |start, size| (GuestAddress(start), size);
    /// assert_eq!(load(&Map::from_ranges(&[range(0, 8), range(16, 3)]))?.kernel_end, 24);
    ///
    /// // a hole at address 17; and ranges that touch
    /// let refused = load(&Map::from_ranges(&[range(0, 17), range(18, 14)]));
    /// assert_eq!(refused, Err(MapError::Load(Error::ReadKernelImage.into())));
    /// let refused = load(&Map::from_ranges(&[range(0, 17), range(17, 15)]));
    /// assert_eq!(refused, Err(MapError::BadMap));
    /// # Ok::<(), MapError>(())
    /// ```
    pub fn load_into_map(
        guest: &mut [u8],
        map: &Map,
        kernel_offset: Option<GuestAddress>,
        kernel_image: &[u8],
        highmem_start_address: Option<GuestAddress>,
    ) -> Result<KernelLoaderResult> {
        let loaded = Elf::load_into_map_with_note(
            guest,
            map,
            kernel_offset,
            kernel_image,
            highmem_start_address,
        );
        loaded.map(|(kernel, _)| kernel)
    }

    /// Loads an image as [`load_into_map`](Elf::load_into_map) does, and says which note the PVH entry was read from, if there is one.
    pub fn load_into_map_with_note(
        guest: &mut [u8],
        map: &Map,
        kernel_offset: Option<GuestAddress>,
        kernel_image: &[u8],
        highmem_start_address: Option<GuestAddress>,
    ) -> Result<(KernelLoaderResult, Option<PvhNote>)> {
        let options = Options::new(kernel_offset, highmem_start_address);
        Format::Elf.load_into_map(guest, map, kernel_image, options)
    }
}

impl BzImage {
    /// Loads a bzImage as [`load_into`](BzImage::load_into) does, into guest memory that has a map. The kernel lies within one range, or
    /// the image is refused; a kernel of no bytes is accepted anywhere. No byte outside the ranges changes.
    pub fn load_into_map(
        guest: &mut [u8],
        map: &Map,
        kernel_offset: Option<GuestAddress>,
        kernel_image: &[u8],
        highmem_start_address: Option<GuestAddress>,
    ) -> Result<KernelLoaderResult> {
        let options = Options::new(kernel_offset, highmem_start_address);
        let loaded = Format::BzImage.load_into_map(guest, map, kernel_image, options);
        loaded.map(|(kernel, _)| kernel)
    }
}

impl arm64::Image {
    /// Loads an arm64 Image as [`load_into`](arm64::Image::load_into) does, into guest memory that has a map. The file lies within one range,
    /// or the image is refused. No byte outside the ranges changes.
    pub fn load_into_map(
        guest: &mut [u8],
        map: &Map,
        base: GuestAddress,
        kernel_image: &[u8],
    ) -> Result<KernelLoaderResult> {
        let options = Options::new(Some(base), None);
        let loaded = Format::Arm64.load_into_map(guest, map, kernel_image, options);
        loaded.map(|(kernel, _)| kernel)
    }
}

/// Writes a line and its closing zero as [`load_cmdline_into`](super::load_cmdline_into) does, into guest memory that has a map. Both lie
/// within one range, or the line is refused. No byte outside the ranges changes.
///
/// ```
/// use rekusoyen::loader::{load_cmdline_into_map, Cmdline, Error, MapError};
/// use rekusoyen::{GuestAddress, Map};
///
/// let mut guest = [0xffu8; 16];
/// let map = Map::from_ranges(&[(GuestAddress(0), 9), (GuestAddress(10), 6)]);
/// let line = Cmdline::try_from("quiet", 100)?;
/// load_cmdline_into_map(&mut guest, &map, GuestAddress(10), &line)?;
/// assert_eq!(&guest[10..], b"quiet\0");
///
/// // address 9 is a hole
/// let refused = load_cmdline_into_map(&mut guest, &map, GuestAddress(4), &line);
/// assert_eq!(refused, Err(MapError::Load(Error::CommandLineOverflow)));
/// # Ok::<(), Box<dyn std::error::Error>>(())
/// ```
pub fn load_cmdline_into_map(
    guest: &mut [u8],
    map: &Map,
    guest_addr: GuestAddress,
    cmdline: &Cmdline,
) -> Result<()> {
    let answer = put_line(guest, map, guest_addr, cmdline);
    answer.map_err(|refusal| MapError::by(refusal, errors::of_line))
}
