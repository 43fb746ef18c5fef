// Copyright (c) 2019 Intel Corporation. All rights reserved.
// Copyright 2018 Amazon.com, Inc. or its affiliates. All Rights Reserved.
// Copyright 2017 The Chromium OS Authors. All rights reserved.
// Use of this source code is governed by a BSD-style license that can be
// found in the NOTICE file.
// SPDX-License-Identifier: Apache-2.0 AND BSD-3-Clause

//! The PVH start block and the rows of its lists as structs, with linux-loader's names and layout. The proved library writes and checks them as bytes
//! ([`start_info`](crate::start_info)); the structs are what a monitor fills and hands on.

// the fields' own documents are Xen's header of the start block
#![allow(missing_docs, non_camel_case_types)]

/// The magic number of the start block.
pub const XEN_HVM_START_MAGIC_VALUE: u32 = 0x336e_c578;

/// Memory that a guest may use.
pub const XEN_HVM_MEMMAP_TYPE_RAM: u32 = 1;
pub const XEN_HVM_MEMMAP_TYPE_RESERVED: u32 = 2;
pub const XEN_HVM_MEMMAP_TYPE_ACPI: u32 = 3;
pub const XEN_HVM_MEMMAP_TYPE_NVS: u32 = 4;
pub const XEN_HVM_MEMMAP_TYPE_UNUSABLE: u32 = 5;
pub const XEN_HVM_MEMMAP_TYPE_DISABLED: u32 = 6;
pub const XEN_HVM_MEMMAP_TYPE_PMEM: u32 = 7;

/// The start block, from xen/include/public/arch-x86/hvm/start_info.h
#[repr(C)]
#[derive(Debug, Default, Copy, Clone, PartialEq)]
pub struct hvm_start_info {
    pub magic: u32,
    pub version: u32,
    pub flags: u32,
    pub nr_modules: u32,
    pub modlist_paddr: u64,
    pub cmdline_paddr: u64,
    pub rsdp_paddr: u64,
    pub memmap_paddr: u64,
    pub memmap_entries: u32,
    pub reserved: u32,
}

/// A module, as the initial ramdisk is one.
#[repr(C)]
#[derive(Debug, Default, Copy, Clone, PartialEq)]
pub struct hvm_modlist_entry {
    pub paddr: u64,
    pub size: u64,
    pub cmdline_paddr: u64,
    pub reserved: u64,
}

/// A range of the memory map.
#[repr(C)]
#[derive(Debug, Default, Copy, Clone, PartialEq)]
pub struct hvm_memmap_table_entry {
    pub addr: u64,
    pub size: u64,
    pub type_: u32,
    pub reserved: u32,
}

impl hvm_modlist_entry {
    /// Its fields, as the library takes them.
    pub(crate) fn numbers(&self) -> [u64; 4] {
        [self.paddr, self.size, self.cmdline_paddr, self.reserved]
    }

    pub(crate) fn from_numbers(numbers: &[u64]) -> Self {
        hvm_modlist_entry {
            paddr: numbers[0],
            size: numbers[1],
            cmdline_paddr: numbers[2],
            reserved: numbers[3],
        }
    }
}

impl hvm_memmap_table_entry {
    /// Its fields, as the library takes them.
    pub(crate) fn numbers(&self) -> [u64; 4] {
        [
            self.addr,
            self.size,
            self.type_.into(),
            self.reserved.into(),
        ]
    }

    /// The last two numbers were read from fields of four bytes.
    pub(crate) fn from_numbers(numbers: &[u64]) -> Self {
        hvm_memmap_table_entry {
            addr: numbers[0],
            size: numbers[1],
            type_: numbers[2] as u32,
            reserved: numbers[3] as u32,
        }
    }
}

impl hvm_start_info {
    /// The numbers of its fields, in their order; those of four bytes were read from such fields.
    pub(crate) fn from_numbers(numbers: [u64; 10]) -> Self {
        let [magic, version, flags, nr_modules, modlist, cmdline, rsdp, memmap, entries, reserved] =
            numbers;
        hvm_start_info {
            magic: magic as u32,
            version: version as u32,
            flags: flags as u32,
            nr_modules: nr_modules as u32,
            modlist_paddr: modlist,
            cmdline_paddr: cmdline,
            rsdp_paddr: rsdp,
            memmap_paddr: memmap,
            memmap_entries: entries as u32,
            reserved: reserved as u32,
        }
    }
}

// SAFETY: the struct is made of numbers and has no padding, so that any bytes are such a struct.
#[cfg(feature = "vm-memory")]
unsafe impl vm_memory::ByteValued for hvm_start_info {}

// SAFETY: as above.
#[cfg(feature = "vm-memory")]
unsafe impl vm_memory::ByteValued for hvm_modlist_entry {}

// SAFETY: as above.
#[cfg(feature = "vm-memory")]
unsafe impl vm_memory::ByteValued for hvm_memmap_table_entry {}
