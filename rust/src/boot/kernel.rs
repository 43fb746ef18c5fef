//! What an image says of the memory that its kernel uses and of the limits of a boot. It serves to place pieces and to
//! say why a boot was refused: the library reads all of it for itself.

use super::Span;
use crate::entry::SETUP_HEADER_SIZE;
use crate::loader::bootparam::setup_header;
use crate::loader::elf::segments;
use crate::loader::{Format, KernelLoaderResult};
use crate::GuestAddress;

/// The first protocol versions that have a field.
const HAS_INITRD_ADDR_MAX: u16 = 0x203;
const HAS_CMDLINE_SIZE: u16 = 0x206;
const HAS_INIT_SIZE: u16 = 0x20a;

/// What older ones have in its place.
const OLD_INITRD_ADDR_MAX: u64 = 0x37ff_ffff;
const OLD_CMDLINE_SIZE: u64 = 255;

/// The most bytes of a line if nobody says it: those of Linux.
const LINUX_LINE: u64 = 2047;

/// The setup header of an image; bytes past its end are 0.
fn setup_of(image: &[u8]) -> setup_header {
    let mut bytes = [0; SETUP_HEADER_SIZE];
    for (byte, from) in bytes.iter_mut().zip(image.iter().skip(0x1f1)) {
        *byte = *from;
    }
    bytes.into()
}

/// The last address that a byte of the ramdisk may have in a boot by zero page.
pub(super) fn ramdisk_max(format: Format, image: &[u8]) -> u64 {
    let header = setup_of(image);
    match format {
        Format::BzImage if header.version < HAS_INITRD_ADDR_MAX => OLD_INITRD_ADDR_MAX,
        Format::BzImage => header.initrd_addr_max.into(),
        Format::Elf | Format::Arm64 => u32::MAX.into(),
    }
}

/// The most bytes of a line, its zero not counted.
pub(super) fn line_max(format: Format, image: &[u8], limit: Option<u32>) -> u64 {
    let header = setup_of(image);
    match format {
        Format::BzImage if header.version < HAS_CMDLINE_SIZE => OLD_CMDLINE_SIZE,
        Format::BzImage => header.cmdline_size.into(),
        Format::Elf | Format::Arm64 => limit.map_or(LINUX_LINE, u64::from),
    }
}

/// All memory that a kernel uses which was loaded.
pub(super) fn memory(
    format: Format,
    image: &[u8],
    offset: Option<GuestAddress>,
    kernel: &KernelLoaderResult,
) -> Vec<Span> {
    let (load, end) = (kernel.kernel_load, kernel.kernel_end);
    let spans = match format {
        Format::Elf => {
            let loadable = segments(image).filter(|segment| segment.is_loadable());
            let moved = offset.map_or(0, |offset| offset.0);
            loadable
                .map(|segment| {
                    let address = segment.p_paddr.saturating_add(moved);
                    Span::new(GuestAddress(address), segment.p_memsz)
                })
                .collect()
        }
        Format::BzImage => vec![
            Span::new(load, end - load.0),
            runtime_memory(setup_of(image), load.0),
        ],
        Format::Arm64 => {
            let size = (end - load.0).max(image.len() as u64);
            vec![Span::new(load, size)]
        }
    };
    spans.into_iter().filter(|span| span.size > 0).collect()
}

/// The memory that a bzImage takes when it unpacks itself; none if its header does not say it.
fn runtime_memory(header: setup_header, load: u64) -> Span {
    if header.version < HAS_INIT_SIZE {
        return Span::default();
    }
    let preferred = header.pref_address;
    let start = if header.relocatable_kernel == 0 {
        preferred
    } else {
        let alignment = u64::from(header.kernel_alignment).max(1);
        let start = load.max(preferred);
        let over = start % alignment;
        let up = if over == 0 { 0 } else { alignment - over };
        start.saturating_add(up)
    };
    Span::new(GuestAddress(start), header.init_size.into())
}

#[cfg(test)]
mod tests {
    use super::*;

    fn image(version: u16, fields: &[(usize, &[u8])]) -> Vec<u8> {
        let mut image = vec![0; 0x26c];
        for (place, bytes) in [&[(0x206, &version.to_le_bytes()[..])], fields].concat() {
            image[place..place + bytes.len()].copy_from_slice(bytes);
        }
        image
    }

    #[test]
    fn limits_that_a_version_does_not_have_are_the_old_ones() {
        let fields: [(usize, &[u8]); 2] = [(0x22c, &[1, 2, 3, 4]), (0x238, &[5, 0, 0, 1])];
        for (version, ramdisk, line) in [
            (0x202, 0x37ff_ffff, 255),
            (0x203, 0x0403_0201, 255),
            (0x205, 0x0403_0201, 255),
            (0x206, 0x0403_0201, 0x0100_0005),
        ] {
            let image = image(version, &fields);
            assert_eq!(ramdisk_max(Format::BzImage, &image), ramdisk);
            assert_eq!(line_max(Format::BzImage, &image, Some(7)), line);
        }
        assert_eq!(ramdisk_max(Format::BzImage, &[]), 0x37ff_ffff);
        assert_eq!(ramdisk_max(Format::Elf, &[]), 0xffff_ffff);
        assert_eq!(line_max(Format::Arm64, &[], None), 2047);
        assert_eq!(line_max(Format::Elf, &[], Some(7)), 7);
    }

    #[test]
    fn a_bzimage_unpacks_itself_at_its_runtime_start() {
        for (load, preferred, relocatable, alignment, start) in [
            (100, 33u64, 0, 16u32, 33),
            (100, 33, 1, 1, 100),
            (100, 33, 255, 0, 100),
            (33, 100, 1, 16, 112),
            (112, 33, 1, 16, 112),
            (100, 33, 1, 7, 105),
            (u64::MAX, 0, 1, 2, u64::MAX),
        ] {
            let fields: [(usize, &[u8]); 4] = [
                (0x230, &alignment.to_le_bytes()),
                (0x234, &[relocatable]),
                (0x258, &preferred.to_le_bytes()),
                (0x260, &10u32.to_le_bytes()),
            ];
            let taken = |version| runtime_memory(setup_of(&image(version, &fields)), load);
            assert_eq!(taken(0x209).size, 0);
            assert_eq!(taken(0x20a), Span::new(GuestAddress(start), 10));
        }
    }
}
