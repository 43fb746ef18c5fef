// Copyright © 2020, Oracle and/or its affiliates.
// Copyright (c) 2019 Intel Corporation. All rights reserved.
// Copyright 2018 Amazon.com, Inc. or its affiliates. All Rights Reserved.
// Copyright 2017 The Chromium OS Authors. All rights reserved.
// Use of this source code is governed by a BSD-style license that can be
// found in the NOTICE file.
// SPDX-License-Identifier: Apache-2.0 AND BSD-3-Clause

//! Kernels put into guest memory: [`Elf`], [`BzImage`], and a command line beside them.

use std::fmt;

use crate::ffi::call;
use crate::refusal::answered;
use crate::{GuestAddress, GuestUsize, Map, Refusal};

pub use crate::cmdline::Cmdline;

pub mod arm64;
pub mod bootparam;
pub mod bzimage;
pub mod elf;
mod errors;
#[cfg(feature = "vm-memory")]
mod footprint;
mod format;
#[cfg(feature = "vm-memory")]
mod guest_memory;
mod over_map;
mod plan;
mod portions;
#[cfg(feature = "vm-memory")]
pub(crate) mod regions;

pub use bzimage::*;
pub use elf::*;
pub use format::Format;
pub(crate) use format::Options;
#[cfg(feature = "vm-memory")]
pub use guest_memory::{load_cmdline, KernelLoader};
pub use over_map::{load_cmdline_into_map, MapError};
pub use plan::{Part, Plan};
pub use portions::{Arm64Steps, BzImageSteps, ElfSteps, InSteps, Portions, Step, StepError, Steps};

/// Why a kernel or a line was not put into guest memory.
#[derive(Clone, Copy, Debug, PartialEq, Eq)]
pub enum Error {
    /// Failed to load bzimage.
    Bzimage(bzimage::Error),
    /// Failed to load elf image.
    Elf(elf::Error),
    /// Invalid command line.
    InvalidCommandLine,
    /// Failed writing command line to guest memory: it meets a hole between two of vm-memory's regions, or a region cannot be written.
    CommandLineCopy,
    /// Command line overflowed guest memory, or meets a hole of a map.
    CommandLineOverflow,
    /// Invalid kernel start address.
    InvalidKernelStartAddress,
    /// The end of a segment does not fit into 64 bits.
    MemoryOverflow,
    /// Failed to load an arm64 Image.
    Arm64(arm64::Error),
}

/// A specialized [`Result`](std::result::Result) type for the kernel loader.
pub type Result<T> = std::result::Result<T, Error>;

impl fmt::Display for Error {
    fn fmt(&self, f: &mut fmt::Formatter<'_>) -> fmt::Result {
        write!(f, "Kernel Loader: ")?;
        match self {
            Error::Bzimage(e) => write!(f, "failed to load bzImage kernel image: {e}"),
            Error::Elf(e) => write!(f, "failed to load ELF kernel image: {e}"),
            Error::InvalidCommandLine => write!(f, "invalid command line provided"),
            Error::CommandLineCopy => write!(f, "failed writing command line to guest memory"),
            Error::CommandLineOverflow => write!(f, "command line overflowed guest memory"),
            Error::InvalidKernelStartAddress => write!(f, "invalid kernel start address"),
            Error::MemoryOverflow => write!(f, "memory to load kernel image is not enough"),
            Error::Arm64(e) => write!(f, "failed to load arm64 kernel image: {e}"),
        }
    }
}

impl std::error::Error for Error {
    fn source(&self) -> Option<&(dyn std::error::Error + 'static)> {
        match self {
            Error::Bzimage(e) => Some(e),
            Error::Elf(e) => Some(e),
            Error::Arm64(e) => Some(e),
            _ => None,
        }
    }
}

impl From<elf::Error> for Error {
    fn from(err: elf::Error) -> Self {
        Error::Elf(err)
    }
}

impl From<bzimage::Error> for Error {
    fn from(err: bzimage::Error) -> Self {
        Error::Bzimage(err)
    }
}

impl From<arm64::Error> for Error {
    fn from(err: arm64::Error) -> Self {
        Error::Arm64(err)
    }
}

/// Where a kernel was put, and what a monitor needs to start it.
#[derive(Clone, Copy, Debug, Default, PartialEq)]
pub struct KernelLoaderResult {
    /// Where the kernel is entered: for an ELF image its entry address, moved by the offset; for a bzImage and an arm64 Image where its bytes begin.
    pub kernel_load: GuestAddress,
    /// The first address after the kernel.
    pub kernel_end: GuestUsize,
    /// The setup header of a bzImage, which a monitor puts into the zero page.
    pub setup_header: Option<bootparam::setup_header>,
    /// The PVH entry point of an ELF image.
    pub pvh_boot_cap: elf::PvhBootCapability,
}

/// Writes a line and its closing zero into guest memory, which begins at guest address 0. A refusal changes nothing.
///
/// ```
/// use rekusoyen::loader::{load_cmdline_into, Cmdline, Error};
/// use rekusoyen::GuestAddress;
///
/// let mut guest = [0xffu8; 16];
/// let line = Cmdline::try_from("quiet", 100)?;
/// load_cmdline_into(&mut guest, GuestAddress(10), &line)?;
/// assert_eq!(&guest[10..], b"quiet\0");
///
/// // one byte further on its zero has no room
/// let refused = load_cmdline_into(&mut guest, GuestAddress(11), &line);
/// assert_eq!(refused, Err(Error::CommandLineOverflow));
/// assert_eq!(Error::CommandLineOverflow.number(), Some(32));
/// # Ok::<(), Box<dyn std::error::Error>>(())
/// ```
pub fn load_cmdline_into(
    guest: &mut [u8],
    guest_addr: GuestAddress,
    cmdline: &Cmdline,
) -> Result<()> {
    let map = Map::whole(guest.len());
    put_line(guest, &map, guest_addr, cmdline).map_err(errors::of_line)
}

fn put_line(
    guest: &mut [u8],
    map: &Map,
    guest_addr: GuestAddress,
    cmdline: &Cmdline,
) -> std::result::Result<(), Refusal> {
    let (map, line) = (map.numbers(), cmdline.bytes());
    answered(call!(rekusoyen_line_load(mut guest, in map, guest_addr.0, in line)))
}
