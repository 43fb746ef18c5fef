// Copyright © 2020, Oracle and/or its affiliates.
// Copyright (c) 2019 Intel Corporation. All rights reserved.
// Copyright 2018 Amazon.com, Inc. or its affiliates. All Rights Reserved.
// Copyright 2017 The Chromium OS Authors. All rights reserved.
// Use of this source code is governed by a BSD-style license that can be
// found in the NOTICE file.
// SPDX-License-Identifier: Apache-2.0 AND BSD-3-Clause

//! The zero page of the Linux boot protocol, written into guest memory.

use std::fmt;

use vm_memory::{Bytes, GuestMemoryBackend};

use super::{BootConfigurator, BootParams, Error as BootConfiguratorError, Result};
use crate::boot_page;
use crate::entry::PAGE_SIZE;
use crate::Refusal;

/// Boot configurator for the Linux boot protocol.
pub struct LinuxBootConfigurator {}

/// Errors specific to the Linux boot protocol configuration.
#[derive(Debug, PartialEq, Eq)]
pub enum Error {
    /// The zero page extends past the end of guest memory.
    ZeroPagePastRamEnd,
    /// Error writing to the zero page of guest memory: it cannot be written, it has not 4,096 bytes, or its memory map has more than
    /// 128 rows or a bad one.
    ZeroPageSetup,
}

impl fmt::Display for Error {
    fn fmt(&self, f: &mut fmt::Formatter<'_>) -> fmt::Result {
        let desc = match self {
            Error::ZeroPagePastRamEnd => "the zero page extends past the end of guest memory.",
            Error::ZeroPageSetup => "error writing to the zero page of guest memory.",
        };
        write!(f, "Linux Boot Configurator: {desc}")
    }
}

impl std::error::Error for Error {}

impl From<Error> for BootConfiguratorError {
    fn from(err: Error) -> Self {
        BootConfiguratorError::Linux(err)
    }
}

impl BootConfigurator for LinuxBootConfigurator {
    /// Writes the zero page, the `boot_params` of the header section, into guest memory. Sections and modules are not used.
    ///
    /// The proved library reads the page and builds it anew, which tests its memory map; what the library does not set stays as the
    /// monitor gave it, the loader type too. A refusal writes nothing.
    ///
    /// ```
    /// use rekusoyen::configurator::linux::LinuxBootConfigurator;
    /// use rekusoyen::configurator::{BootConfigurator, BootParams};
    /// use rekusoyen::loader::bootparam::boot_params;
    /// use vm_memory::{Bytes, GuestAddress, GuestMemoryMmap};
    ///
    /// let memory = GuestMemoryMmap::<()>::from_ranges(&[(GuestAddress(0), 0x10000)])?;
    /// let mut params = boot_params::default();
    /// params.hdr.header = 0x5372_6448;
    /// params.hdr.type_of_loader = 0xff;
    /// params.acpi_rsdp_addr = 0xe0000;
    /// let at = BootParams::new(&params, GuestAddress(0x7000));
    /// LinuxBootConfigurator::write_bootparams(&at, &memory)?;
    /// assert_eq!(memory.read_obj::<boot_params>(GuestAddress(0x7000))?, params);
    /// # Ok::<(), Box<dyn std::error::Error>>(())
    /// ```
    fn write_bootparams<M>(params: &BootParams, guest_memory: &M) -> Result<()>
    where
        M: GuestMemoryBackend,
    {
        guest_memory
            .checked_offset(params.header_start, params.header.len())
            .ok_or(Error::ZeroPagePastRamEnd)?;
        let page = rebuilt(&params.header).map_err(|_| Error::ZeroPageSetup)?;
        guest_memory
            .write_slice(&page, params.header_start)
            .map_err(|_| Error::ZeroPageSetup)?;
        Ok(())
    }
}

/// The page that the library builds of what it reads in one, with all that it does not set as it was.
fn rebuilt(given: &[u8]) -> std::result::Result<[u8; PAGE_SIZE], Refusal> {
    let found = boot_page::read(given)?;
    let mut page = [0; PAGE_SIZE];
    boot_page::build(&mut page, found.setup_header, found.addresses, &found.rows)?;
    for part in not_set(found.rows.len()) {
        page[part.clone()].copy_from_slice(&given[part]);
    }
    Ok(page)
}

/// The places of the page that the library sets to zero, and that of the loader type, which it sets to FF hex.
fn not_set(rows: usize) -> [std::ops::Range<usize>; 5] {
    [
        0..0x1e8,
        0x1e9..0x1f1,
        0x210..0x211,
        0x26c..0x2d0,
        0x2d0 + 20 * rows..PAGE_SIZE,
    ]
}
