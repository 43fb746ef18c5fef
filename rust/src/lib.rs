//! A kernel loader that is proved, in the shape of the crate linux-loader 0.14.0: ELF images with their PVH note, bzImages, and
//! the kernel command line.
//!
//! The work is done by a library written in Rattle, every function of which is proved to meet its contract on every input; the
//! repository around this crate has the code, the definitions and the proofs. This crate gives it linux-loader's module paths,
//! names and error types, and tests what a C function cannot know.
//!
//! Guest memory is a slice that begins at guest address 0:
//!
//! ```
//! use rekusoyen::loader::{load_cmdline_into, BzImage, Cmdline};
//! use rekusoyen::GuestAddress;
//!
//! # let mut image = vec![0u8; 1024 + 3];
//! # image[0x1f1] = 1; // one setup sector besides the first
//! # image[0x202..0x206].copy_from_slice(b"HdrS");
//! # image[0x206..0x208].copy_from_slice(&0x200u16.to_le_bytes());
//! # image[0x211] = 1; // loaded high
//! # image[1024..].copy_from_slice(b"abc"); // the kernel
//! let mut guest = vec![0u8; 0x1000];
//! let kernel = BzImage::load_into(&mut guest, Some(GuestAddress(0x100)), &image, None)?;
//! assert_eq!(kernel.kernel_end, 0x103);
//! assert_eq!(&guest[0x100..0x103], b"abc");
//!
//! let mut line = Cmdline::new(64)?;
//! line.insert("console", "ttyS0")?;
//! load_cmdline_into(&mut guest, GuestAddress(0x200), &line)?;
//! assert_eq!(&guest[0x200..0x20e], b"console=ttyS0\0");
//! # Ok::<(), Box<dyn std::error::Error>>(())
//! ```
//!
//! Guest memory may have holes: a [`Map`] names the ranges in which there is memory, and `load_into_map` of each loader and
//! [`load_cmdline_into_map`](loader::load_cmdline_into_map) take one. Without a map the slice has no hole.
//! [`boot_page`] builds and reads the zero page of a bzImage, [`start_info`] writes, checks and reads the PVH start block.
//! [`boot`] puts kernel, line, ramdisk and boot data into guest memory by one call, and checks first that no two of them
//! share a byte.
//!
//! With the feature `vm-memory`, `loader` has the trait `KernelLoader` and the function `load_cmdline` of linux-loader, with its
//! signatures: a monitor writes `use rekusoyen::..` for `use linux_loader::..`. Guest memory is then all its regions, and of an image
//! nothing is read but what is needed. `plan` of each loader says which bytes of an image go to which addresses, without guest memory.
//!
//! # Where the answers differ from linux-loader's
//!
//! `docs/DIFFERENCES.md` of the repository has every difference. Most to be noticed: a command line's capacity is at most 16,384, an image has
//! at most 2^40 bytes, and guest memory at most 16 ranges apart from each other.

#![warn(missing_docs)]
// `rekusoyen_library` is set by the build script; older compilers do not know this lint
#![allow(unknown_lints, unexpected_cfgs)]

mod address;
mod assembly;
pub mod boot;
pub mod boot_page;
pub mod cmdline;
#[cfg(feature = "vm-memory")]
pub mod configurator;
pub mod entry;
mod ffi;
pub mod loader;
mod map;
mod refusal;
pub mod start_info;
pub mod words;

pub use address::{GuestAddress, GuestUsize};
pub use loader::bootparam;
pub use map::Map;
pub use refusal::Refusal;

#[cfg(doctest)]
#[doc = include_str!("../README.md")]
struct ReadmeExamples;
