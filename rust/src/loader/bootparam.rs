//! The setup header of a bzImage and the zero page, as `arch/x86/include/uapi/asm/bootparam.h` of Linux lays them out.

use crate::entry::SETUP_HEADER_SIZE;

mod zero_page;

pub use zero_page::*;

/// The header that stands at 1F1 hex of the image. Its fields may lie at odd places: copy one out to look at it.
#[repr(C, packed)]
#[derive(Debug, Default, Copy, Clone, PartialEq)]
#[allow(non_camel_case_types)]
pub struct setup_header {
    /// How many sectors of 512 bytes the setup has beside the first; 0 means 4.
    pub setup_sects: u8,
    /// Not 0 where the root is mounted read-only.
    pub root_flags: u16,
    /// The size of the protected-mode code, in units of 16 bytes.
    pub syssize: u32,
    /// Not used.
    pub ram_size: u16,
    /// The video mode.
    pub vid_mode: u16,
    /// The default root device number.
    pub root_dev: u16,
    /// AA55 hex.
    pub boot_flag: u16,
    /// A jump instruction.
    pub jump: u16,
    /// The magic number `HdrS`.
    pub header: u32,
    /// The version of the boot protocol: the major number in its high byte.
    pub version: u16,
    /// The boot loader's hook before protected mode.
    pub realmode_swtch: u32,
    /// The load-low segment; obsolete.
    pub start_sys_seg: u16,
    /// Where the text of the kernel's version stands.
    pub kernel_version: u16,
    /// Which boot loader loaded the kernel.
    pub type_of_loader: u8,
    /// Flags of the boot protocol; bit 0: the kernel is loaded high.
    pub loadflags: u8,
    /// How much of the setup moves to high memory; used by old loaders.
    pub setup_move_size: u16,
    /// Where the kernel's 32-bit code is entered; after a load, the low 32 bits of the address where it was put.
    pub code32_start: u32,
    /// The address of the initial ramdisk.
    pub ramdisk_image: u32,
    /// The size of the initial ramdisk.
    pub ramdisk_size: u32,
    /// Obsolete.
    pub bootsect_kludge: u32,
    /// The end of the setup's heap.
    pub heap_end_ptr: u16,
    /// More of the boot loader's version.
    pub ext_loader_ver: u8,
    /// More of the boot loader's number.
    pub ext_loader_type: u8,
    /// The address of the command line.
    pub cmd_line_ptr: u32,
    /// The highest address of the initial ramdisk.
    pub initrd_addr_max: u32,
    /// The alignment that the kernel asks for.
    pub kernel_alignment: u32,
    /// Not 0 where the kernel can be loaded anywhere.
    pub relocatable_kernel: u8,
    /// The least alignment, as a power of two.
    pub min_alignment: u8,
    /// More flags of the boot protocol.
    pub xloadflags: u16,
    /// The greatest length of a command line, its zero not counted.
    pub cmdline_size: u32,
    /// The kind of hardware environment.
    pub hardware_subarch: u32,
    /// Data of that kind.
    pub hardware_subarch_data: u64,
    /// Where the packed kernel begins, from the protected-mode code on.
    pub payload_offset: u32,
    /// Its length.
    pub payload_length: u32,
    /// The address of a list of further data.
    pub setup_data: u64,
    /// The address that the kernel prefers.
    pub pref_address: u64,
    /// How much memory from its start on the kernel needs until it has looked at the memory map.
    pub init_size: u32,
    /// Where the EFI handover entry stands.
    pub handover_offset: u32,
    /// Where `kernel_info` stands, from the protected-mode code on.
    pub kernel_info_offset: u32,
}

impl From<[u8; SETUP_HEADER_SIZE]> for setup_header {
    fn from(bytes: [u8; SETUP_HEADER_SIZE]) -> Self {
        // SAFETY: the struct is packed, so it has no padding; it has as many bytes as the array, which the compiler tests; every
        // field is a number, so all bytes are good ones. Numbers are little-endian on both sides.
        unsafe { std::mem::transmute(bytes) }
    }
}

impl From<setup_header> for [u8; SETUP_HEADER_SIZE] {
    fn from(header: setup_header) -> Self {
        // SAFETY: the struct is packed and has as many bytes as the array, and any byte is a good u8.
        unsafe { std::mem::transmute(header) }
    }
}

// SAFETY: the struct is packed and made of numbers, so that any bytes are a header, and it has no padding.
#[cfg(feature = "vm-memory")]
unsafe impl vm_memory::ByteValued for setup_header {}
