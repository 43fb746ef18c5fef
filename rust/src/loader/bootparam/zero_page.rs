// Copyright (c) 2019 Intel Corporation. All rights reserved.
// Copyright 2018 Amazon.com, Inc. or its affiliates. All Rights Reserved.
// Copyright 2017 The Chromium OS Authors. All rights reserved.
// Use of this source code is governed by a BSD-style license that can be
// found in the NOTICE file.
// SPDX-License-Identifier: Apache-2.0 AND BSD-3-Clause

//! The zero page as a struct, with linux-loader's names and layout. The proved library builds and reads it as bytes
//! ([`boot_page`](crate::boot_page)); the struct is what a monitor fills and hands on.

// the fields' own documents are the headers of Linux that each struct names
#![allow(missing_docs, non_camel_case_types, non_snake_case)]

use super::setup_header;
use crate::entry::PAGE_SIZE;

/// How many signatures of disks the zero page has room for.
pub const EDD_MBR_SIG_MAX: usize = 16;

/// The most rows of the memory map.
pub const E820_MAX_ENTRIES_ZEROPAGE: usize = 128;

/// How many disks the zero page tells of.
pub const EDDMAXNR: usize = 6;

/// From include/uapi/linux/screen_info.h
#[repr(C, packed)]
#[derive(Debug, Default, Copy, Clone, PartialEq)]
pub struct screen_info {
    pub orig_x: u8,
    pub orig_y: u8,
    pub ext_mem_k: u16,
    pub orig_video_page: u16,
    pub orig_video_mode: u8,
    pub orig_video_cols: u8,
    pub flags: u8,
    pub unused2: u8,
    pub orig_video_ega_bx: u16,
    pub unused3: u16,
    pub orig_video_lines: u8,
    pub orig_video_isVGA: u8,
    pub orig_video_points: u16,
    pub lfb_width: u16,
    pub lfb_height: u16,
    pub lfb_depth: u16,
    pub lfb_base: u32,
    pub lfb_size: u32,
    pub cl_magic: u16,
    pub cl_offset: u16,
    pub lfb_linelength: u16,
    pub red_size: u8,
    pub red_pos: u8,
    pub green_size: u8,
    pub green_pos: u8,
    pub blue_size: u8,
    pub blue_pos: u8,
    pub rsvd_size: u8,
    pub rsvd_pos: u8,
    pub vesapm_seg: u16,
    pub vesapm_off: u16,
    pub pages: u16,
    pub vesa_attributes: u16,
    pub capabilities: u32,
    pub ext_lfb_base: u32,
    pub _reserved: [u8; 2],
}

/// From include/uapi/linux/apm_bios.h
#[repr(C, packed)]
#[derive(Debug, Default, Copy, Clone, PartialEq)]
pub struct apm_bios_info {
    pub version: u16,
    pub cseg: u16,
    pub offset: u32,
    pub cseg_16: u16,
    pub dseg: u16,
    pub flags: u16,
    pub cseg_len: u16,
    pub cseg_16_len: u16,
    pub dseg_len: u16,
}

/// From arch/x86/include/uapi/asm/ist.h
#[repr(C, packed)]
#[derive(Debug, Default, Copy, Clone, PartialEq)]
pub struct ist_info {
    pub signature: u32,
    pub command: u32,
    pub event: u32,
    pub perf_level: u32,
}

/// From include/uapi/video/edid.h
#[repr(C, packed)]
#[derive(Debug, Copy, Clone, PartialEq)]
pub struct edid_info {
    pub dummy: [u8; 128],
}

impl Default for edid_info {
    fn default() -> Self {
        edid_info { dummy: [0; 128] }
    }
}

/// From arch/x86/include/uapi/asm/setup_data.h
#[repr(C, packed)]
#[derive(Debug, Default, Copy, Clone, PartialEq)]
pub struct boot_e820_entry {
    pub addr: u64,
    pub size: u64,
    pub r#type: u32,
}

/// From include/uapi/linux/edd.h
///
/// The `interface_path` and `device_path` fields are unions in C. They are
/// represented here as fixed-size byte arrays (8 and 16 bytes respectively)
/// for simplicity. Transmute or use `ptr::read_unaligned` to access a
/// specific variant.
#[repr(C, packed)]
#[derive(Debug, Default, Copy, Clone, PartialEq)]
pub struct edd_device_params {
    pub length: u16,
    pub info_flags: u16,
    pub num_default_cylinders: u32,
    pub num_default_heads: u32,
    pub sectors_per_track: u32,
    pub number_of_sectors: u64,
    pub bytes_per_sector: u16,
    pub dpte_ptr: u32,
    pub key: u16,
    pub device_path_info_length: u8,
    pub reserved2: u8,
    pub reserved3: u16,
    pub host_bus_type: [u8; 4],
    pub interface_type: [u8; 8],
    pub interface_path: [u8; 8],
    pub device_path: [u8; 16],
    pub reserved4: u8,
    pub checksum: u8,
}

/// From include/uapi/linux/edd.h
#[repr(C, packed)]
#[derive(Debug, Default, Copy, Clone, PartialEq)]
pub struct edd_info {
    pub device: u8,
    pub version: u8,
    pub interface_support: u16,
    pub legacy_max_cylinder: u16,
    pub legacy_max_head: u8,
    pub legacy_sectors_per_track: u8,
    pub params: edd_device_params,
}

/// From arch/x86/include/uapi/asm/bootparam.h
#[repr(C, packed)]
#[derive(Debug, Default, Copy, Clone, PartialEq)]
pub struct sys_desc_table {
    pub length: u16,
    pub table: [u8; 14],
}

/// From arch/x86/include/asm/olpc_ofw.h
#[repr(C, packed)]
#[derive(Debug, Default, Copy, Clone, PartialEq)]
pub struct olpc_ofw_header {
    pub ofw_magic: u32,
    pub ofw_version: u32,
    pub cif_handler: u32,
    pub irq_desc_table: u32,
}

/// From arch/x86/include/uapi/asm/bootparam.h
#[repr(C, packed)]
#[derive(Debug, Default, Copy, Clone, PartialEq)]
pub struct efi_info {
    pub efi_loader_signature: u32,
    pub efi_systab: u32,
    pub efi_memdesc_size: u32,
    pub efi_memdesc_version: u32,
    pub efi_memmap: u32,
    pub efi_memmap_size: u32,
    pub efi_systab_hi: u32,
    pub efi_memmap_hi: u32,
}

/// The x86 "zeropage" — exactly 4096 bytes.
///
/// `_pad7` size is `0x290 - 0x1f1 - sizeof(setup_header)` = 36 bytes.
#[repr(C, packed)]
#[derive(Debug, Copy, Clone, PartialEq)]
pub struct boot_params {
    pub screen_info: screen_info,                                 // 0x000
    pub apm_bios_info: apm_bios_info,                             // 0x040
    pub _pad2: [u8; 4],                                           // 0x054
    pub tboot_addr: u64,                                          // 0x058
    pub ist_info: ist_info,                                       // 0x060
    pub acpi_rsdp_addr: u64,                                      // 0x070
    pub _pad3: [u8; 8],                                           // 0x078
    pub hd0_info: [u8; 16],                                       // 0x080
    pub hd1_info: [u8; 16],                                       // 0x090
    pub sys_desc_table: sys_desc_table,                           // 0x0a0
    pub olpc_ofw_header: olpc_ofw_header,                         // 0x0b0
    pub ext_ramdisk_image: u32,                                   // 0x0c0
    pub ext_ramdisk_size: u32,                                    // 0x0c4
    pub ext_cmd_line_ptr: u32,                                    // 0x0c8
    pub _pad4: [u8; 112],                                         // 0x0cc
    pub cc_blob_address: u32,                                     // 0x13c
    pub edid_info: edid_info,                                     // 0x140
    pub efi_info: efi_info,                                       // 0x1c0
    pub alt_mem_k: u32,                                           // 0x1e0
    pub scratch: u32,                                             // 0x1e4
    pub e820_entries: u8,                                         // 0x1e8
    pub eddbuf_entries: u8,                                       // 0x1e9
    pub edd_mbr_sig_buf_entries: u8,                              // 0x1ea
    pub kbd_status: u8,                                           // 0x1eb
    pub secure_boot: u8,                                          // 0x1ec
    pub _pad5: [u8; 2],                                           // 0x1ed
    pub sentinel: u8,                                             // 0x1ef
    pub _pad6: [u8; 1],                                           // 0x1f0
    pub hdr: setup_header,                                        // 0x1f1
    pub _pad7: [u8; 36],                                          // 0x26c
    pub edd_mbr_sig_buffer: [u32; EDD_MBR_SIG_MAX],               // 0x290
    pub e820_table: [boot_e820_entry; E820_MAX_ENTRIES_ZEROPAGE], // 0x2d0
    pub _pad8: [u8; 48],                                          // 0xcd0
    pub eddbuf: [edd_info; EDDMAXNR],                             // 0xd00
    pub _pad9: [u8; 276],                                         // 0xeec
}

impl Default for boot_params {
    fn default() -> Self {
        boot_params::from([0; PAGE_SIZE])
    }
}

impl From<[u8; PAGE_SIZE]> for boot_params {
    fn from(bytes: [u8; PAGE_SIZE]) -> Self {
        // SAFETY: the struct is packed, so it has no padding; it has as many bytes as the array, which the compiler tests; every
        // field is a number or an array of them, so all bytes are good ones.
        unsafe { std::mem::transmute(bytes) }
    }
}

impl From<boot_params> for [u8; PAGE_SIZE] {
    fn from(params: boot_params) -> Self {
        // SAFETY: the struct is packed and has as many bytes as the array, and any byte is a good u8.
        unsafe { std::mem::transmute(params) }
    }
}

// SAFETY: the struct is packed and made of numbers, so that any bytes are such a struct, and it has no padding.
#[cfg(feature = "vm-memory")]
unsafe impl vm_memory::ByteValued for boot_params {}
