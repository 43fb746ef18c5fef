//! The calls of the library that a boot makes.

use std::borrow::Cow;

use super::layout::Layout;
use super::{kernel, tree, Boot, Booted, Entry, Error, Piece, Pvh, Span, Texts, Tree, ZeroPage};
use crate::entry::{BOOTED_NUMBERS, ENTRY_64_BIT, KERNEL_NUMBERS, LIMIT_GIVEN, PAGE_SIZE, UNKNOWN};
use crate::ffi::call;
use crate::loader::{Format, Options};
use crate::refusal::answered;
use crate::{GuestAddress, Map, Refusal};

/// How many bytes a start block has, and a row of its lists.
const BLOCK_SIZE: u64 = 56;
const MODULE_SIZE: u64 = 32;
const RANGE_SIZE: u64 = 24;

/// A boot with what its calls need.
pub(super) struct Prepared<'a> {
    pub(super) boot: &'a Boot<'a>,
    /// `None` if the image has no magic number of a format, and none is given.
    pub(super) format: Option<Format>,
    pub(super) entry: Entry<'a>,
    pub(super) options: Options,
    pub(super) text: Cow<'a, [u8]>,
    pub(super) init: &'a [u8],
    /// The numbers of the rows, three or four each.
    pub(super) rows: Vec<u64>,
}

/// What an accepted call returns.
pub(super) type Numbers = [u64; BOOTED_NUMBERS];

impl<'a> Prepared<'a> {
    pub(super) fn of(boot: &'a Boot<'a>) -> Prepared<'a> {
        let format = boot.format.or_else(|| Format::of(boot.image));
        let entry = boot.entry.unwrap_or(match format {
            Some(Format::Elf) => Entry::Pvh(Pvh::default()),
            Some(Format::Arm64) => Entry::Tree(Tree::default()),
            _ => Entry::ZeroPage(ZeroPage::default()),
        });
        let Texts { boot: text, init } = boot.line;
        let empty: &[u8] = &[];
        let (text, init) = match entry {
            // the tree has the whole line
            Entry::Tree(_) if !init.is_empty() && !text.is_empty() => {
                (Cow::from([text, b" -- ", init].concat()), empty)
            }
            // init text alone cannot be written, and the library refuses it as it does a zero byte
            Entry::Tree(_) if !init.is_empty() => (Cow::from(&b"\0"[..]), empty),
            _ => (Cow::from(text), init),
        };
        Prepared {
            boot,
            format,
            entry,
            options: Options::new(boot.offset, boot.highmem_start),
            text,
            init,
            rows: row_numbers(&boot.rows, matches!(entry, Entry::Pvh(_))),
        }
    }

    /// The size of the line with its zero.
    pub(super) fn line_size(&self) -> u64 {
        let between = if self.init.is_empty() { 0 } else { 4 };
        (self.text.len() + between + self.init.len() + 1) as u64
    }

    /// Which boot data there is, and how many bytes it has.
    pub(super) fn boot_data(&self) -> (Piece, u64) {
        match self.entry {
            Entry::ZeroPage(_) => (Piece::ZeroPage, PAGE_SIZE as u64),
            Entry::Pvh(_) => {
                let modules = if self.boot.ramdisk.is_empty() {
                    0
                } else {
                    MODULE_SIZE
                };
                let rows = RANGE_SIZE * self.boot.rows.len() as u64;
                (Piece::StartBlock, BLOCK_SIZE + modules + rows)
            }
            Entry::Tree(tree) => (Piece::Tree, tree.blob.len() as u64),
        }
    }

    /// The offset of the line in the tree; one past every tree if it is not there, which the library refuses.
    pub(super) fn line_offset(&self, tree: &Tree) -> u64 {
        let found = || tree::offset_of(tree.blob, &self.text);
        tree.line_offset.or_else(found).unwrap_or(u64::MAX)
    }

    fn flags(&self) -> u32 {
        let limit = self.boot.limit.map_or(0, |_| LIMIT_GIVEN);
        let mode = match self.entry {
            Entry::ZeroPage(page) if page.is_64_bit => ENTRY_64_BIT,
            _ => 0,
        };
        self.options.flags | limit | mode
    }

    pub(super) fn load(
        &self,
        guest: &mut [u8],
        map: &Map,
        to: &Layout,
    ) -> Result<Numbers, Refusal> {
        let (image, map) = (self.boot.image, map.numbers());
        let format = self.format.map_or(UNKNOWN, |format| format as u32);
        let (flags, limit) = (self.flags(), self.boot.limit.unwrap_or(0));
        let Options {
            offset, highmem, ..
        } = self.options;
        let (text, init, ramdisk, rows) = (&*self.text, self.init, self.boot.ramdisk, &*self.rows);
        let mut booted = [0; BOOTED_NUMBERS];
        let number = match self.entry {
            Entry::ZeroPage(_) => {
                let [line, ramdisk_at, page] = below_4_gib([to.line, to.ramdisk, to.data])?;
                call!(rekusoyen_raw_boot_zero_page(
                    mut guest, in map, in image, format, flags, offset, highmem, limit, in text, in init,
                    in ramdisk, in rows, line, ramdisk_at, page, mut &mut booted
                ))
            }
            Entry::Pvh(pvh) => {
                let [block] = below_4_gib([to.data])?;
                call!(rekusoyen_raw_boot_pvh(
                    mut guest, in map, in image, format, flags, offset, highmem, limit, in text, in init,
                    in ramdisk, in rows, to.line, to.ramdisk, block, pvh.rsdp.0, mut &mut booted
                ))
            }
            Entry::Tree(tree) => {
                call!(rekusoyen_raw_boot_tree(
                    mut guest, in map, in image, format, flags, offset, highmem, limit, in text, in ramdisk,
                    in tree.blob, self.line_offset(&tree), to.ramdisk, to.data, mut &mut booted
                ))
            }
        };
        answered(number).map(|()| booted)
    }

    pub(super) fn plan(&self, map: &Map, to: &Layout) -> Result<Numbers, Refusal> {
        let (image, size, map) = (self.boot.image, map.end(), map.numbers());
        let format = self.format.map_or(UNKNOWN, |format| format as u32);
        let (flags, limit) = (self.flags(), self.boot.limit.unwrap_or(0));
        let Options {
            offset, highmem, ..
        } = self.options;
        let (text, init, rows) = (&*self.text, self.init, &*self.rows);
        let ramdisk_len = self.boot.ramdisk.len() as u64;
        let mut booted = [0; BOOTED_NUMBERS];
        let number = match self.entry {
            Entry::ZeroPage(_) => {
                let [line, ramdisk_at, page] = below_4_gib([to.line, to.ramdisk, to.data])?;
                call!(rekusoyen_raw_boot_zero_page_plan(
                    size, in map, in image, format, flags, offset, highmem, limit, in text, in init,
                    ramdisk_len, in rows, line, ramdisk_at, page, mut &mut booted
                ))
            }
            Entry::Pvh(pvh) => {
                let [block] = below_4_gib([to.data])?;
                call!(rekusoyen_raw_boot_pvh_plan(
                    size, in map, in image, format, flags, offset, highmem, limit, in text, in init,
                    ramdisk_len, in rows, to.line, to.ramdisk, block, pvh.rsdp.0, mut &mut booted
                ))
            }
            Entry::Tree(tree) => {
                call!(rekusoyen_raw_boot_tree_plan(
                    size, in map, in image, format, flags, offset, highmem, limit, in text, ramdisk_len,
                    in tree.blob, self.line_offset(&tree), to.ramdisk, to.data, mut &mut booted
                ))
            }
        };
        answered(number).map(|()| booted)
    }

    /// What a call answered, in words.
    pub(super) fn answer(
        &self,
        answer: Result<Numbers, Refusal>,
        to: &Layout,
    ) -> Result<Booted, Error> {
        match (answer, self.format) {
            (Ok(numbers), Some(format)) => Ok(self.booted(format, numbers, to)),
            (Ok(_), None) => unreachable!("an image of no format is refused"),
            (Err(refusal), _) => Err(Error::of(refusal, self, to)),
        }
    }

    fn booted(&self, format: Format, numbers: Numbers, to: &Layout) -> Booted {
        let mut kernel = [0; KERNEL_NUMBERS];
        kernel.copy_from_slice(&numbers[..KERNEL_NUMBERS]);
        let (kernel, pvh_note) = format.loaded(self.boot.image, kernel);
        let (boot_data_is, size) = self.boot_data();
        Booted {
            kernel,
            pvh_note,
            kernel_memory: kernel::memory(format, self.boot.image, self.boot.offset, &kernel),
            line: self.line_at(to),
            ramdisk: Span::new(GuestAddress(to.ramdisk), self.boot.ramdisk.len() as u64),
            boot_data_is,
            boot_data: Span::new(GuestAddress(to.data), size),
            entry: GuestAddress(numbers[KERNEL_NUMBERS]),
        }
    }

    /// Where the line is.
    pub(super) fn line_at(&self, to: &Layout) -> Span {
        let address = match self.entry {
            Entry::Tree(tree) => to.data.saturating_add(self.line_offset(&tree)),
            _ => to.line,
        };
        Span::new(GuestAddress(address), self.line_size())
    }
}

/// The numbers of rows; those of a start block end with a 0.
fn row_numbers(rows: &[(GuestAddress, u64, u32)], is_pvh: bool) -> Vec<u64> {
    let width = if is_pvh { 4 } else { 3 };
    rows.iter()
        .flat_map(|(address, size, kind)| {
            let row = [address.0, *size, u64::from(*kind), 0];
            row.into_iter().take(width)
        })
        .collect()
}

/// Addresses for fields of 32 bits.
fn below_4_gib<const N: usize>(addresses: [u64; N]) -> Result<[u32; N], Refusal> {
    if addresses.iter().any(|address| *address > u32::MAX.into()) {
        return Err(Refusal::BadList);
    }
    Ok(addresses.map(|address| address as u32))
}

#[cfg(test)]
mod tests {
    use super::*;

    #[test]
    fn rows_of_a_start_block_end_with_a_0() {
        let rows = [(GuestAddress(1), 2, 3), (GuestAddress(4), 5, 6)];
        assert_eq!(row_numbers(&rows, false), [1, 2, 3, 4, 5, 6]);
        assert_eq!(row_numbers(&rows, true), [1, 2, 3, 0, 4, 5, 6, 0]);
    }

    #[test]
    fn sizes_of_line_and_boot_data() {
        let rows = [(GuestAddress(0), 9, 1)];
        let boot = Boot::new(&[]).text(b"quiet").rows(&rows);
        assert_eq!(Prepared::of(&boot).line_size(), 6);
        assert_eq!(Prepared::of(&boot).boot_data(), (Piece::ZeroPage, 4096));
        let boot = boot.pvh(Pvh::default());
        assert_eq!(Prepared::of(&boot).boot_data(), (Piece::StartBlock, 80));
        let boot = boot.ramdisk(b"d");
        assert_eq!(Prepared::of(&boot).boot_data(), (Piece::StartBlock, 112));
    }

    #[test]
    fn addresses_of_32_bits() {
        assert_eq!(below_4_gib([0, 0xffff_ffff]), Ok([0, 0xffff_ffff]));
        assert_eq!(below_4_gib([0x1_0000_0000]), Err(Refusal::BadList));
    }
}
