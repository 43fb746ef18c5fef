//! Loads over the guest memory of the crate vm-memory, with linux-loader's signatures. Guest memory is all its regions: those that touch are
//! one range, and what lies between them are holes.
//!
//! A load reads what its plan looks at, asks the library for the plan, and has vm-memory copy each part from the image into guest memory,
//! which also marks its bitmap.

use std::io::{Read, Seek, SeekFrom};

use vm_memory::{Bytes, GuestMemoryBackend, ReadVolatile};

use super::footprint::Footprint;
use super::format::{Format, Options};
use super::regions::{end_of, map_of, range_with};
use super::{
    arm64, bzimage, elf, errors, Cmdline, Error, InSteps, KernelLoaderResult, Plan, Result,
};
use crate::ffi::call;
use crate::refusal::answered;
use crate::GuestAddress;

/// How a kernel of some format is put into guest memory.
pub trait KernelLoader {
    /// Loads a kernel from `kernel_image`, whatever its position, into guest memory, which has at most 16 ranges apart from each other.
    ///
    /// Everything that can be refused is refused before anything is written. Of the image nothing is read but its headers, its notes and
    /// the bytes that go into guest memory.
    ///
    /// A reader that fails gives linux-loader's error for the seek or read that failed. Where that was the copy of a segment or kernel, the segments
    /// before it are in guest memory, and as much of this one as vm-memory copied. The same holds of an image that gets shorter during the
    /// load, and of a region that cannot be written. Of an image that changes during the load, headers and notes count as they were when they were
    /// read, and each byte of the kernel as it is when it is copied.
    fn load<F, M: GuestMemoryBackend>(
        guest_mem: &M,
        kernel_offset: Option<GuestAddress>,
        kernel_image: &mut F,
        highmem_start_address: Option<GuestAddress>,
    ) -> Result<KernelLoaderResult>
    where
        F: Read + ReadVolatile + Seek;
}

/// [`Elf`](super::Elf), [`BzImage`](super::BzImage) and [`arm64::Image`]. The offset of an arm64 Image is its base,
/// and 0 if none is given; the start of high memory has no meaning for it.
impl<L: InSteps> KernelLoader for L {
    fn load<F, M: GuestMemoryBackend>(
        guest_mem: &M,
        kernel_offset: Option<GuestAddress>,
        kernel_image: &mut F,
        highmem_start_address: Option<GuestAddress>,
    ) -> Result<KernelLoaderResult>
    where
        F: Read + ReadVolatile + Seek,
    {
        let options = Options::new(kernel_offset, highmem_start_address);
        let footprint = Footprint::of(L::FORMAT, kernel_image, kernel_offset.is_none())?;
        let plan = L::FORMAT.plan(&map_of(guest_mem), footprint.bytes(), options);
        drop(footprint);
        let plan = plan.map_err(|refusal| errors::of(L::FORMAT, refusal))?;
        copied(guest_mem, kernel_image, plan, copy_errors(L::FORMAT))
    }
}

/// The errors of a seek and of a copy that fail.
fn copy_errors(format: Format) -> [Error; 2] {
    use bzimage::Error::{ReadBzImageCompressedKernel, SeekBzImageCompressedKernel};
    match format {
        Format::Elf => [elf::Error::SeekKernelStart, elf::Error::ReadKernelImage].map(Error::Elf),
        Format::BzImage => {
            [SeekBzImageCompressedKernel, ReadBzImageCompressedKernel].map(Error::Bzimage)
        }
        Format::Arm64 => [arm64::Error::SeekImage, arm64::Error::ReadImage].map(Error::Arm64),
    }
}

/// Copies the parts of a plan from the image into guest memory. The errors are those of a seek and of a copy that fail.
fn copied<F: ReadVolatile + Seek, M: GuestMemoryBackend>(
    guest_mem: &M,
    image: &mut F,
    plan: Plan,
    [seek, read]: [Error; 2],
) -> Result<KernelLoaderResult> {
    for part in plan.parts {
        let place = SeekFrom::Start(part.place);
        image.seek(place).map_err(|_| seek)?;
        // a part has at most 2^40 bytes
        guest_mem
            .read_exact_volatile_from(part.address, image, part.size as usize)
            .map_err(|_| read)?;
    }
    Ok(plan.kernel)
}

/// Writes a line and its closing zero into guest memory. A refusal changes nothing.
///
/// ```
/// use rekusoyen::loader::{load_cmdline, Cmdline};
/// use vm_memory::{Bytes, GuestAddress, GuestMemoryMmap};
///
/// let memory = GuestMemoryMmap::<()>::from_ranges(&[(GuestAddress(0), 0x10000)])?;
/// let mut line = Cmdline::new(20)?;
/// line.insert("loglevel", "3")?;
/// load_cmdline(&memory, GuestAddress(0x1000), &line)?;
///
/// let mut written = [0u8; 11];
/// memory.read_slice(&mut written, GuestAddress(0x1000))?;
/// assert_eq!(&written, b"loglevel=3\0");
/// # Ok::<(), Box<dyn std::error::Error>>(())
/// ```
pub fn load_cmdline<M: GuestMemoryBackend>(
    guest_mem: &M,
    guest_addr: GuestAddress,
    cmdline: &Cmdline,
) -> Result<()> {
    let text = cmdline
        .as_cstring()
        .map_err(|_| Error::InvalidCommandLine)?;
    let text = text.as_bytes_with_nul();
    // a line lies within one range, or is refused: the others do not matter, nor how many there are
    let range = range_with(&map_of(guest_mem), guest_addr);
    let (ranges, line) = (range.numbers(), cmdline.bytes());
    let answer = call!(rekusoyen_line_plan(range.end(), in ranges, guest_addr.0, in line));
    answered(answer).map_err(|refusal| {
        let last = guest_addr.0.checked_add(text.len() as u64 - 1);
        match errors::of_line(refusal) {
            // at a hole linux-loader has another error than at the end
            Error::CommandLineOverflow if last.is_some_and(|last| last < end_of(guest_mem)) => {
                Error::CommandLineCopy
            }
            error => error,
        }
    })?;
    guest_mem
        .write_slice(text, guest_addr)
        .map_err(|_| Error::CommandLineCopy)
}
