//! What a load would do, without guest memory: its answer, and which bytes of the image go to which addresses. A caller whose guest memory is
//! no slice, or whose image is not in memory, copies them by its own means.

use super::format::{Format, Options};
use super::{arm64, BzImage, Elf, KernelLoaderResult, MapError, PvhNote};
use crate::entry::{PART_NUMBERS, PLAN_NUMBERS};
use crate::ffi::call;
use crate::refusal::answered;
use crate::{GuestAddress, Map, Refusal};

/// Bytes of an image that a load copies: they lie within the image, and within one range of the map.
#[derive(Clone, Copy, Debug, PartialEq, Eq)]
pub struct Part {
    /// Where they go in guest memory.
    pub address: GuestAddress,
    /// Where they begin in the image.
    pub place: u64,
    /// How many there are; never 0.
    pub size: u64,
}

/// What an accepted load would do. Guest memory after the load is guest memory after its parts were copied in their order.
#[derive(Clone, Debug, PartialEq)]
pub struct Plan {
    /// The load's answer.
    pub kernel: KernelLoaderResult,
    /// The note that the PVH entry of an ELF image was read from.
    pub pvh_note: Option<PvhNote>,
    /// What it copies. Parts of an ELF image may overlap, and a later one then overwrites.
    pub parts: Vec<Part>,
}

impl Format {
    /// The plan of a load. Guest memory ends with the last range of the map.
    pub(crate) fn plan(self, map: &Map, image: &[u8], options: Options) -> Result<Plan, Refusal> {
        let (size, ranges) = (map.end(), map.numbers());
        let Options {
            flags,
            offset,
            highmem,
        } = options;
        let mut plan = [0; PLAN_NUMBERS];
        answered(call!(rekusoyen_raw_plan(
            size, in ranges, in image, self as u32, flags, offset, highmem, mut &mut plan
        )))?;
        let [numbers @ .., count] = plan;
        let (kernel, pvh_note) = self.loaded(image, numbers);
        let mut parts = Vec::new();
        for index in 0..count {
            let mut part = [0; PART_NUMBERS];
            answered(call!(rekusoyen_raw_part(
                size, in ranges, in image, self as u32, flags, offset, index, mut &mut part
            )))?;
            let [address, place, size] = part;
            let address = GuestAddress(address);
            if size > 0 {
                parts.push(Part {
                    address,
                    place,
                    size,
                });
            }
        }
        Ok(Plan {
            kernel,
            pvh_note,
            parts,
        })
    }
}

impl Elf {
    /// What [`load_into_map`](Elf::load_into_map) would do over guest memory that ends with the last range of the map. Of the image only the
    /// ELF header, the program headers and, without an offset, the notes are looked at: all other bytes may be anything.
    ///
    /// ```
    /// use rekusoyen::loader::elf::Elf;
    /// use rekusoyen::loader::Part;
    /// use rekusoyen::{GuestAddress, Map};
    ///
    /// # let mut image = [0u8; 123];
    /// # image[..6].copy_from_slice(b"\x7fELF\x02\x01");
    /// # for (place, value) in [(24, 16), (32, 64), (54, 56), (56, 1), (64, 1), (72, 120), (88, 16), (96, 3), (104, 8)] {
    /// #     image[place] = value;
    /// # }
    /// # image[120..].copy_from_slice(b"abc");
    /// // an image of one segment: the 3 bytes at 120 go to address 16
    /// let map = Map::from_ranges(&[(GuestAddress(8), 16)]);
    /// let plan = Elf::plan(&map, None, &image, None)?;
    /// assert_eq!(plan.kernel.kernel_end, 24);
    /// assert_eq!(plan.parts, [Part { address: GuestAddress(16), place: 120, size: 3 }]);
    ///
    /// // guest memory as the monitor has it, here the 16 bytes from address 8 on
    /// let mut memory = [0u8; 16];
    /// for part in plan.parts {
    ///     let (to, from) = (part.address.0 as usize - 8, part.place as usize);
    ///     let size = part.size as usize;
    ///     memory[to..to + size].copy_from_slice(&image[from..from + size]);
    /// }
    /// assert_eq!(&memory[8..11], b"abc");
    /// # Ok::<(), rekusoyen::loader::MapError>(())
    /// ```
    pub fn plan(
        map: &Map,
        kernel_offset: Option<GuestAddress>,
        kernel_image: &[u8],
        highmem_start_address: Option<GuestAddress>,
    ) -> Result<Plan, MapError> {
        let options = Options::new(kernel_offset, highmem_start_address);
        let plan = Format::Elf.plan(map, kernel_image, options);
        plan.map_err(|refusal| MapError::of(Format::Elf, refusal))
    }
}

impl BzImage {
    /// What [`load_into_map`](BzImage::load_into_map) would do, as [`Elf::plan`] says it. Of the image only the setup header is looked at.
    pub fn plan(
        map: &Map,
        kernel_offset: Option<GuestAddress>,
        kernel_image: &[u8],
        highmem_start_address: Option<GuestAddress>,
    ) -> Result<Plan, MapError> {
        let options = Options::new(kernel_offset, highmem_start_address);
        let plan = Format::BzImage.plan(map, kernel_image, options);
        plan.map_err(|refusal| MapError::of(Format::BzImage, refusal))
    }
}

impl arm64::Image {
    /// What [`load_into_map`](arm64::Image::load_into_map) would do, as [`Elf::plan`] says it. Of the image only its header is looked at.
    pub fn plan(map: &Map, base: GuestAddress, kernel_image: &[u8]) -> Result<Plan, MapError> {
        let plan = Format::Arm64.plan(map, kernel_image, Options::new(Some(base), None));
        plan.map_err(|refusal| MapError::of(Format::Arm64, refusal))
    }
}
