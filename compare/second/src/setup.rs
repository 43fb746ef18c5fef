//! What a bzImage's setup header says to a boot loader.

use crate::bzimage::{HEADER_PLACE, HEADER_SIZE};
use crate::fields::{u16_at, u32_at, u64_at};
use std::ops::Range;

// where the fields are in the image
const VERSION: usize = 0x206;
const RAMDISK_MAX: usize = 0x22c;
const ALIGNMENT: usize = 0x230;
const IS_RELOCATABLE: usize = 0x234;
const LOAD_FLAGS: usize = 0x236;
const LINE_SIZE: usize = 0x238;
const PREFERRED: usize = 0x258;
const INIT_SIZE: usize = 0x260;

// the first protocol versions that have a field
const HAS_RAMDISK_MAX: u16 = 0x0203;
const HAS_LINE_SIZE: u16 = 0x0206;
const HAS_INIT_SIZE: u16 = 0x020a;
const HAS_LOAD_FLAGS: u16 = 0x020c;

const ENTRY_OF_64_BITS: u16 = 1;
const OLD_RAMDISK_MAX: u64 = 0x37ff_ffff;
const OLD_LINE_MAX: u64 = 255;

/// A setup header.
#[derive(Clone, Copy, Debug, PartialEq, Eq)]
pub struct Setup(pub [u8; HEADER_SIZE]);

impl Setup {
    /// The header's bytes from a field on.
    fn from(&self, field: usize) -> &[u8] {
        &self.0[field - HEADER_PLACE..]
    }

    fn version(&self) -> u16 {
        u16_at(self.from(VERSION), 0)
    }

    /// Whether the kernel can be entered in 64-bit mode.
    pub fn has_64_bit_entry(&self) -> bool {
        self.version() >= HAS_LOAD_FLAGS && u16_at(self.from(LOAD_FLAGS), 0) & ENTRY_OF_64_BITS != 0
    }

    /// The last address that a byte of the ramdisk may have.
    pub fn ramdisk_max(&self) -> u64 {
        if self.version() < HAS_RAMDISK_MAX {
            return OLD_RAMDISK_MAX;
        }
        u64::from(u32_at(self.from(RAMDISK_MAX), 0))
    }

    /// How many bytes a line may have, its zero not counted.
    pub fn line_max(&self) -> u64 {
        if self.version() < HAS_LINE_SIZE {
            return OLD_LINE_MAX;
        }
        u64::from(u32_at(self.from(LINE_SIZE), 0))
    }

    /// The memory that a kernel loaded at an address takes when it unpacks itself; empty if the header does not say it.
    pub fn taken(&self, load: u64) -> Range<u128> {
        if self.version() < HAS_INIT_SIZE {
            return 0..0;
        }
        let start = self.runtime_start(load);
        start..start + u128::from(u32_at(self.from(INIT_SIZE), 0))
    }

    fn runtime_start(&self, load: u64) -> u128 {
        let preferred = u64_at(self.from(PREFERRED), 0);
        if self.from(IS_RELOCATABLE)[0] == 0 {
            return u128::from(preferred);
        }
        let alignment = u128::from(u32_at(self.from(ALIGNMENT), 0).max(1));
        u128::from(load.max(preferred)).div_ceil(alignment) * alignment
    }
}

#[cfg(test)]
mod tests {
    use super::*;

    /// A header of this version, all of whose other fields are 0 but for these.
    fn setup(version: u16, fields: &[(usize, &[u8])]) -> Setup {
        let mut header = [0; HEADER_SIZE];
        for (field, bytes) in [&[(VERSION, &version.to_le_bytes()[..])], fields].concat() {
            header[field - HEADER_PLACE..][..bytes.len()].copy_from_slice(bytes);
        }
        Setup(header)
    }

    #[test]
    fn a_64_bit_entry_is_bit_0_from_2_12_on() {
        for (version, flags, has) in [
            (0x20c, 1u16, true),
            (0x20f, 0xffff, true),
            (0x300, 1, true),
            (0x20b, 1, false),
            (0x20c, 0xfffe, false),
        ] {
            let setup = setup(version, &[(LOAD_FLAGS, &flags.to_le_bytes())]);
            assert_eq!(setup.has_64_bit_entry(), has, "{version:x} {flags:x}");
        }
    }

    #[test]
    fn limits_that_a_version_does_not_have_are_the_old_ones() {
        let fields: [(usize, &[u8]); 2] = [
            (RAMDISK_MAX, &[1, 2, 3, 4]),
            (LINE_SIZE, &[0xff, 0xff, 0xff, 0xff]),
        ];
        for (version, ramdisk, line) in [
            (0x202, 0x37ff_ffff, 255),
            (0x203, 0x0403_0201, 255),
            (0x205, 0x0403_0201, 255),
            (0x206, 0x0403_0201, 0xffff_ffff),
        ] {
            let setup = setup(version, &fields);
            assert_eq!(setup.ramdisk_max(), ramdisk, "{version:x}");
            assert_eq!(setup.line_max(), line, "{version:x}");
        }
    }

    fn taken(load: u64, preferred: u64, relocatable: u8, alignment: u32) -> Range<u128> {
        let fields: [(usize, &[u8]); 4] = [
            (PREFERRED, &preferred.to_le_bytes()),
            (IS_RELOCATABLE, &[relocatable]),
            (ALIGNMENT, &alignment.to_le_bytes()),
            (INIT_SIZE, &10u32.to_le_bytes()),
        ];
        assert_eq!(setup(0x209, &fields).taken(load), 0..0);
        setup(0x20a, &fields).taken(load)
    }

    #[test]
    fn a_kernel_that_cannot_be_moved_takes_its_own_address() {
        assert_eq!(taken(100, 33, 0, 16), 33..43);
        assert_eq!(taken(0, u64::MAX, 0, 16), (1 << 64) - 1..(1 << 64) + 9);
    }

    #[test]
    fn another_takes_the_greater_address_rounded_up() {
        assert_eq!(taken(100, 33, 1, 1), 100..110);
        assert_eq!(taken(100, 33, 255, 0), 100..110);
        assert_eq!(taken(33, 100, 1, 16), 112..122);
        assert_eq!(taken(112, 33, 1, 16), 112..122);
        // what is no power of two rounds as another number does, and a sum may pass 64 bits
        assert_eq!(taken(100, 33, 1, 7), 105..115);
        assert_eq!(taken(0, 0, 1, u32::MAX), 0..10);
        assert_eq!(taken(u64::MAX, 0, 1, 2), 1 << 64..(1 << 64) + 10);
    }
}
