//! Where the pieces of a boot go.

use std::ops::Range;

use super::calls::Prepared;
use super::{kernel, place, place_high, Entry, Error, Piece, Span};
use crate::loader::{Format, Plan};
use crate::{GuestAddress, Map};

/// The lowest address that is placed at: the first page of memory is left alone, as BIOSes and kernels use it.
const LOWEST: u64 = 0x1000;
const BELOW_4_GIB: u64 = 1 << 32;
const PAGE: u64 = 4096;
const WORD: u64 = 8;

/// The window in which an arm64 kernel and its ramdisk lie: it begins at a multiple of 1 GiB and has 32.
const WINDOW_START: u64 = 1 << 30;
const WINDOW: u64 = 32 << 30;

/// The addresses of the pieces. The line of a device tree is in the tree, and has none.
#[derive(Clone, Debug, Default)]
pub(super) struct Layout {
    pub(super) line: u64,
    pub(super) ramdisk: u64,
    pub(super) data: u64,
    /// What the load of the kernel would do, if it is accepted.
    pub(super) kernel: Option<Plan>,
}

/// The search for addresses.
struct Search<'a> {
    map: &'a Map,
    /// Where pieces may lie: the rows of type 1, or everywhere.
    rows: Vec<Range<u64>>,
    placed: Vec<Span>,
}

impl Search<'_> {
    /// The lowest address of a row, or the highest, at which a piece fits. It is placed there.
    fn find(
        &mut self,
        place: fn(&Map, &[Span], Range<u64>, u64, u64) -> Option<GuestAddress>,
        is_better: fn(&GuestAddress, &GuestAddress) -> bool,
        below: u64,
        align: u64,
        size: u64,
    ) -> Option<u64> {
        let bounds = self
            .rows
            .iter()
            .map(|row| row.start.max(LOWEST)..row.end.min(below));
        let found = bounds.filter_map(|bounds| place(self.map, &self.placed, bounds, align, size));
        let best = found.reduce(|a, b| if is_better(&b, &a) { b } else { a })?;
        self.placed.push(Span::new(best, size));
        Some(best.0)
    }

    fn low(&mut self, align: u64, size: u64) -> Option<u64> {
        self.find(place, |a, b| a < b, BELOW_4_GIB, align, size)
    }

    fn high(&mut self, below: u64, size: u64) -> Option<u64> {
        self.find(place_high, |a, b| a > b, below, PAGE, size)
    }
}

impl Prepared<'_> {
    /// The addresses that are given, and for each that is not one that is placed. A kernel whose load is refused has no
    /// range: then nothing is placed, and the boot answers what the load does.
    pub(super) fn lay_out(&self, map: &Map) -> Result<Layout, Error> {
        let (line, ramdisk, data) = match self.entry {
            Entry::ZeroPage(page) => (page.line, page.ramdisk, page.page),
            Entry::Pvh(pvh) => (pvh.line, pvh.ramdisk, pvh.block),
            // the line of a tree needs no address
            Entry::Tree(tree) => (Some(GuestAddress(0)), tree.ramdisk, tree.address),
        };
        let given = |address: Option<GuestAddress>| address.map_or(0, |address| address.0);
        let mut layout = Layout {
            line: given(line),
            ramdisk: given(ramdisk),
            data: given(data),
            kernel: None,
        };
        let (format, plan) = match self.format {
            Some(format) => (format, format.plan(map, self.boot.image, self.options)),
            None => return Ok(layout),
        };
        let plan = match plan {
            Ok(plan) => plan,
            Err(_) => return Ok(layout),
        };
        let memory = kernel::memory(format, self.boot.image, self.boot.offset, &plan.kernel);
        let load = plan.kernel.kernel_load.0;
        layout.kernel = Some(plan);

        let ramdisk_len = self.boot.ramdisk.len() as u64;
        let (data_is, data_size) = self.boot_data();
        let mut search = Search {
            map,
            rows: self.usable_rows(),
            placed: self.boot.taken.clone(),
        };
        search.placed.extend(hull(&memory));
        let is_tree = data_is == Piece::Tree;
        for (address, size) in [
            (data, data_size),
            (if is_tree { None } else { line }, self.line_size()),
            (ramdisk, ramdisk_len),
        ] {
            search.placed.extend(address.map(|at| Span::new(at, size)));
        }

        let within = match is_tree {
            true => "guest memory",
            false => "rows of type 1 of the memory map",
        };
        let no_room = |piece, size| move || Error::no_room(piece, size, within);
        if data.is_none() {
            let align = if data_is == Piece::ZeroPage {
                PAGE
            } else {
                WORD
            };
            let found = search.low(align, data_size);
            layout.data = found.ok_or_else(no_room(data_is, data_size))?;
        }
        if line.is_none() {
            let size = self.line_size();
            let found = search.low(WORD, size);
            layout.line = found.ok_or_else(no_room(Piece::Line, size))?;
        }
        if ramdisk.is_none() && ramdisk_len > 0 {
            let found = search.high(self.ramdisk_end(format, load), ramdisk_len);
            layout.ramdisk = found.ok_or_else(no_room(Piece::Ramdisk, ramdisk_len))?;
        }
        Ok(layout)
    }

    /// The rows that pieces may lie in; with a device tree the guest is given none here.
    fn usable_rows(&self) -> Vec<Range<u64>> {
        if let Entry::Tree(_) = self.entry {
            return vec![0..u64::MAX];
        }
        let usable = self.boot.rows.iter().filter(|(_, _, kind)| *kind == 1);
        usable
            .map(|(address, size, _)| address.0..address.0.saturating_add(*size))
            .collect()
    }

    /// The first address past the highest that a ramdisk may have. A start block has 64 bits for it, and Linux takes
    /// 32.
    fn ramdisk_end(&self, format: Format, load: u64) -> u64 {
        match self.entry {
            Entry::ZeroPage(_) => kernel::ramdisk_max(format, self.boot.image) + 1,
            Entry::Pvh(_) => BELOW_4_GIB,
            Entry::Tree(_) => (load / WINDOW_START * WINDOW_START).saturating_add(WINDOW),
        }
    }
}

/// The range from the lowest to the highest byte of these; none of no bytes.
fn hull(spans: &[Span]) -> Option<Span> {
    let start = spans.iter().map(|span| span.address).min()?;
    let end = spans.iter().map(Span::end).max()?;
    let size = (end - u128::from(start.0)).min(u64::MAX.into());
    Some(Span::new(start, size as u64))
}

#[cfg(test)]
mod tests {
    use super::*;

    #[test]
    fn a_hull_has_all_bytes() {
        let span = |start, size| Span::new(GuestAddress(start), size);
        assert_eq!(hull(&[]), None);
        assert_eq!(hull(&[span(5, 2)]), Some(span(5, 2)));
        assert_eq!(
            hull(&[span(5, 2), span(1, 3), span(6, 9)]),
            Some(span(1, 14))
        );
        let last = span(u64::MAX, u64::MAX);
        assert_eq!(hull(&[span(0, 1), last]), Some(span(0, u64::MAX)));
    }
}
