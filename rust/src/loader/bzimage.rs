// Copyright (c) 2019 Intel Corporation. All rights reserved.
// Copyright 2018 Amazon.com, Inc. or its affiliates. All Rights Reserved.
// Copyright 2017 The Chromium OS Authors. All rights reserved.
// Use of this source code is governed by a BSD-style license that can be
// found in the NOTICE file.
// SPDX-License-Identifier: Apache-2.0 AND BSD-3-Clause

//! bzImages: the kernel behind the setup sectors, and its setup header.

use std::fmt;

use super::format::{Format, Options};
use super::{KernelLoaderResult, Result};
use crate::GuestAddress;

/// Why a bzImage was not loaded.
#[derive(Clone, Copy, Debug, PartialEq, Eq)]
pub enum Error {
    /// Invalid bzImage binary.
    InvalidBzImage,
    /// Guest memory of vm-memory's regions has more than 16 ranges apart from each other. linux-loader never gives it.
    Overflow,
    /// Unable to read bzImage header: a reader fails.
    ReadBzImageHeader,
    /// Unable to read bzImage compressed image.
    ReadBzImageCompressedKernel,
    /// Unable to seek to bzImage end: a reader fails.
    SeekBzImageEnd,
    /// Unable to seek to bzImage header: a reader fails.
    SeekBzImageHeader,
    /// Unable to seek to bzImage compressed kernel: the image or a slice of guest memory has more than 2^40 bytes, or a reader fails.
    SeekBzImageCompressedKernel,
    /// Underflow occurred during an arithmetic operation.
    Underflow,
}

impl fmt::Display for Error {
    fn fmt(&self, f: &mut fmt::Formatter<'_>) -> fmt::Result {
        let desc = match self {
            Error::InvalidBzImage => "Invalid bzImage",
            Error::Overflow => "Guest memory has more than 16 ranges apart from each other",
            Error::ReadBzImageHeader => "Unable to read bzImage header",
            Error::ReadBzImageCompressedKernel => "Unable to read bzImage compressed kernel",
            Error::SeekBzImageEnd => "Unable to seek bzImage end",
            Error::SeekBzImageHeader => "Unable to seek bzImage header",
            Error::SeekBzImageCompressedKernel => "Unable to seek bzImage compressed kernel",
            Error::Underflow => "Underflow occurred during an arithmetic operation",
        };

        write!(f, "Kernel Loader: {desc}")
    }
}

impl std::error::Error for Error {}

/// Big zImage (bzImage) kernel image support.
#[derive(Clone, Copy, Debug, PartialEq, Eq)]
pub struct BzImage;

impl BzImage {
    /// Loads the kernel of a bzImage into guest memory, which begins at guest address 0. It goes to the offset if one is given,
    /// else to the address that its setup header names. The header that is returned names the address where it went. A refusal
    /// changes nothing.
    ///
    /// ```
    /// use rekusoyen::loader::bzimage::{BzImage, Error};
    /// use rekusoyen::GuestAddress;
    ///
    /// // two sectors of setup, then the kernel's 3 bytes
    /// let mut image = vec![0u8; 1024 + 3];
    /// image[0x1f1] = 1;
    /// image[0x202..0x206].copy_from_slice(b"HdrS");
    /// image[0x207] = 2;
    /// image[0x211] = 1;
    /// image[1024..].copy_from_slice(b"abc");
    ///
    /// let mut guest = [0u8; 32];
    /// let kernel = BzImage::load_into(&mut guest, Some(GuestAddress(8)), &image, None)?;
    /// assert_eq!((kernel.kernel_load, kernel.kernel_end), (GuestAddress(8), 11));
    /// assert_eq!({ kernel.setup_header.unwrap().code32_start }, 8);
    /// assert_eq!(&guest[8..11], b"abc");
    ///
    /// // an image that ends before its setup does
    /// let refused = BzImage::load_into(&mut guest, None, &image[..1023], None);
    /// assert_eq!(refused, Err(Error::Underflow.into()));
    /// # Ok::<(), rekusoyen::loader::Error>(())
    /// ```
    pub fn load_into(
        guest: &mut [u8],
        kernel_offset: Option<GuestAddress>,
        kernel_image: &[u8],
        highmem_start_address: Option<GuestAddress>,
    ) -> Result<KernelLoaderResult> {
        let options = Options::new(kernel_offset, highmem_start_address);
        let loaded = Format::BzImage.load_into(guest, kernel_image, options);
        loaded.map(|(kernel, _)| kernel)
    }
}
