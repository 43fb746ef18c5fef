// Copyright © 2020, Oracle and/or its affiliates.
//
// Copyright (c) 2019 Intel Corporation. All rights reserved.
// Copyright 2018 Amazon.com, Inc. or its affiliates. All Rights Reserved.
//
// Copyright 2017 The Chromium OS Authors. All rights reserved.
// Use of this source code is governed by a BSD-style license that can be
// found in the NOTICE file.
//
// SPDX-License-Identifier: Apache-2.0 AND BSD-3-Clause

//! The start block of the PVH boot protocol and its lists, written into guest memory.

use std::fmt;

use vm_memory::{Bytes, GuestMemoryBackend};

use super::{BootConfigurator, BootParams, Error as BootConfiguratorError, Result};
use crate::loader::elf::start_info::XEN_HVM_START_MAGIC_VALUE;
use crate::start_info::{self, Start};
use crate::{GuestAddress, Map, Refusal};

/// Boot configurator for the PVH boot protocol.
pub struct PvhBootConfigurator {}

/// Errors specific to the PVH boot protocol configuration.
#[derive(Debug, PartialEq, Eq)]
pub enum Error {
    /// The starting address for the memory map wasn't passed to the boot configurator.
    MemmapTableAddressMissing,
    /// No memory map wasn't passed to the boot configurator.
    MemmapTableMissing,
    /// The memory map table extends past the end of guest memory.
    MemmapTablePastRamEnd,
    /// Error writing memory map table to guest memory: it has no room, is not made of whole rows, or a reserved field is not 0.
    MemmapTableSetup,
    /// The hvm_start_info structure extends past the end of guest memory.
    StartInfoPastRamEnd,
    /// Error writing hvm_start_info to guest memory: it has no room, another size, magic number or version, or a reserved field that is
    /// not 0, or two of block, modules and memory map overlap.
    StartInfoSetup,
    /// The starting address for the modules descriptions wasn't passed to the boot configurator.
    ModulesAddressMissing,
    /// Error writing module descriptions to guest memory: as of a memory map.
    ModulesSetup,
}

impl fmt::Display for Error {
    fn fmt(&self, f: &mut fmt::Formatter<'_>) -> fmt::Result {
        use Error::*;
        let desc = match self {
            MemmapTableAddressMissing => {
                "the starting address for the memory map wasn't passed to the boot configurator."
            }
            MemmapTableMissing => "no memory map was passed to the boot configurator.",
            MemmapTablePastRamEnd => "the memory map table extends past the end of guest memory.",
            MemmapTableSetup => "error writing memory map table to guest memory.",
            StartInfoPastRamEnd => {
                "the hvm_start_info structure extends past the end of guest memory."
            }
            StartInfoSetup => "error writing hvm_start_info to guest memory.",
            ModulesAddressMissing => "the starting address for the modules descriptions wasn't passed to the boot configurator.",
            ModulesSetup => "error writing module descriptions to guest memory.",
        };
        write!(f, "PVH Boot Configurator: {desc}")
    }
}

impl std::error::Error for Error {}

impl From<Error> for BootConfiguratorError {
    fn from(err: Error) -> Self {
        BootConfiguratorError::Pvh(err)
    }
}

impl BootConfigurator for PvhBootConfigurator {
    /// Writes the start block of the header section, the memory map of the sections, and the modules, if there are any, into guest memory.
    ///
    /// The proved library writes block and lists, which tests them: magic number, version and reserved fields, that the lists are whole rows, and
    /// that no two parts overlap. The counts and addresses that the block says stay as the monitor gave them. A refusal writes nothing.
    ///
    /// ```
    /// use rekusoyen::configurator::pvh::PvhBootConfigurator;
    /// use rekusoyen::configurator::{BootConfigurator, BootParams};
    /// use rekusoyen::loader::elf::start_info::{hvm_memmap_table_entry, hvm_start_info};
    /// use vm_memory::{Bytes, GuestAddress, GuestMemoryMmap};
    ///
    /// let memory = GuestMemoryMmap::<()>::from_ranges(&[(GuestAddress(0), 0x10000)])?;
    /// let info = hvm_start_info {
    ///     magic: 0x336ec578,
    ///     version: 1,
    ///     memmap_paddr: 0x7000,
    ///     memmap_entries: 1,
    ///     ..Default::default()
    /// };
    /// let ram = hvm_memmap_table_entry { addr: 0, size: 0x10000, type_: 1, reserved: 0 };
    /// let mut params = BootParams::new(&info, GuestAddress(0x6000));
    /// params.set_sections(&[ram], GuestAddress(0x7000));
    /// PvhBootConfigurator::write_bootparams(&params, &memory)?;
    /// assert_eq!(memory.read_obj::<hvm_start_info>(GuestAddress(0x6000))?, info);
    /// # Ok::<(), Box<dyn std::error::Error>>(())
    /// ```
    fn write_bootparams<M>(params: &BootParams, guest_memory: &M) -> Result<()>
    where
        M: GuestMemoryBackend,
    {
        let memmap = params.sections.as_ref().ok_or(Error::MemmapTableMissing)?;
        let memmap_addr = params
            .sections_start
            .ok_or(Error::MemmapTableAddressMissing)?;
        guest_memory
            .checked_offset(memmap_addr, memmap.len())
            .ok_or(Error::MemmapTablePastRamEnd)?;
        guest_memory
            .checked_offset(params.header_start, params.header.len())
            .ok_or(Error::StartInfoPastRamEnd)?;
        let no_modules = vec![];
        let (modules, modules_addr) = match &params.modules {
            Some(modules) => {
                let address = params.modules_start.ok_or(Error::ModulesAddressMissing)?;
                (modules, address)
            }
            None => (&no_modules, params.header_start),
        };
        let lists = Lists {
            modules: numbers_of(start_info::module_numbers, modules, 32)
                .ok_or(Error::ModulesSetup)?,
            ranges: numbers_of(start_info::range_numbers, memmap, 24)
                .ok_or(Error::MemmapTableSetup)?,
        };
        let parts = [
            (params.header_start, &params.header, Error::StartInfoSetup),
            (modules_addr, modules, Error::ModulesSetup),
            (memmap_addr, memmap, Error::MemmapTableSetup),
        ];
        for (address, bytes, error) in parts {
            // no rows lie anywhere
            if !bytes.is_empty() && !guest_memory.check_range(address, bytes.len()) {
                return Err(error.into());
            }
        }
        let places = [
            (params.header_start, params.header.len()),
            (modules_addr, modules.len()),
            (memmap_addr, memmap.len()),
        ];
        let written = written(&params.header, &lists, apart_as(places))?;
        let [block, modules, memmap] = written;
        for (address, bytes, error) in [
            (params.header_start, block, Error::StartInfoSetup),
            (modules_addr, modules, Error::ModulesSetup),
            (memmap_addr, memmap, Error::MemmapTableSetup),
        ] {
            guest_memory
                .write_slice(&bytes, address)
                .map_err(|_| error)?;
        }
        Ok(())
    }
}

/// The numbers of both lists, four for each row.
struct Lists {
    modules: Vec<u64>,
    ranges: Vec<u64>,
}

/// The numbers of rows of `size` bytes, if they are whole rows, as the library reads them.
fn numbers_of(
    read: fn(&[u8], u64, usize) -> Vec<u64>,
    bytes: &[u8],
    size: usize,
) -> Option<Vec<u64>> {
    (bytes.len() % size == 0).then(|| read(bytes, 0, bytes.len() / size))
}

/// Addresses near 0 at which parts of these sizes overlap exactly where they do at their own: each begins as far behind the one before as there, but
/// no further than its end. A part of no bytes overlaps nothing.
fn apart_as(places: [(GuestAddress, usize); 3]) -> [u64; 3] {
    let mut order: Vec<usize> = (0..3).filter(|part| places[*part].1 > 0).collect();
    order.sort_by_key(|part| places[*part].0);
    let mut moved = [0; 3];
    for (last, next) in order.iter().zip(order.iter().skip(1)) {
        let (address, size) = places[*last];
        let distance = places[*next].0 .0 - address.0;
        moved[*next] = moved[*last] + distance.min(size as u64);
    }
    moved
}

/// The bytes of block, modules and memory map, as the library writes them; of the block the counts and the addresses of the lists as they were given.
fn written(
    header: &[u8],
    lists: &Lists,
    places: [u64; 3],
) -> std::result::Result<[Vec<u8>; 3], Error> {
    let given = start_info::block_numbers(header, 0);
    let [magic, version, flags, _, _, command_line, rsdp, _, _, reserved] = given;
    let right = (u64::from(XEN_HVM_START_MAGIC_VALUE), 1, 0);
    if header.len() != BLOCK_SIZE || (magic, version, reserved) != right {
        return Err(Error::StartInfoSetup);
    }
    let sizes = [BLOCK_SIZE, 8 * lists.modules.len(), 6 * lists.ranges.len()];
    let length: usize = sizes.iter().sum();
    let mut bytes = vec![0; length];
    let start = Start {
        block: GuestAddress(places[0]),
        modules: GuestAddress(places[1]),
        memory_map: GuestAddress(places[2]),
        flags: flags as u32,
        command_line: GuestAddress(command_line),
        rsdp: GuestAddress(rsdp),
    };
    let map = Map::whole(length);
    start_info::write_numbers(&mut bytes, &map, start, &lists.modules, &lists.ranges)
        .map_err(|refusal| error(refusal, lists))?;
    let mut part = 0;
    let mut parts = places.map(|place| {
        let size = sizes[part];
        part += 1;
        bytes[place as usize..][..size].to_vec()
    });
    for kept in [12..16, 16..24, 40..48, 48..52] {
        parts[0][kept.clone()].copy_from_slice(&header[kept]);
    }
    Ok(parts)
}

const BLOCK_SIZE: usize = 56;

/// What a refusal of the library is called here: a list of whole rows is refused for a reserved field that is not 0 alone.
fn error(refusal: Refusal, lists: &Lists) -> Error {
    let spoilt = |rows: &[u64]| rows.chunks_exact(4).any(|row| row[3] != 0);
    match refusal {
        Refusal::BadList if spoilt(&lists.modules) => Error::ModulesSetup,
        Refusal::BadList => Error::MemmapTableSetup,
        _ => Error::StartInfoSetup,
    }
}
