//! Why a boot was refused: which pieces, and which rule.

use std::fmt;

use super::calls::Prepared;
use super::layout::Layout;
use super::{kernel, Entry, Piece, Span};
use crate::loader::Format;
use crate::{GuestAddress, Refusal};

/// Why a boot was not done. Its text says which pieces and which rule.
#[derive(Clone, Debug, PartialEq, Eq)]
pub struct Error {
    refusal: Option<Refusal>,
    pieces: Vec<Piece>,
    text: String,
}

impl Error {
    /// The refusal that this error stands for; none if vm-memory could not write a piece.
    pub fn refusal(&self) -> Option<Refusal> {
        self.refusal
    }

    /// The number of that refusal.
    pub fn number(&self) -> Option<u32> {
        self.refusal().map(Refusal::number)
    }

    /// The pieces that it is about.
    pub fn pieces(&self) -> &[Piece] {
        &self.pieces
    }

    /// A piece that fits nowhere in what it may lie in.
    pub(super) fn no_room(piece: Piece, size: u64, within: &str) -> Error {
        Error {
            refusal: Some(Refusal::NoRoom),
            pieces: vec![piece],
            text: format!("{piece} of {size} bytes fits nowhere in {within} beside the others"),
        }
    }

    /// A piece that could not be written after everything was accepted.
    #[cfg(feature = "vm-memory")]
    pub(super) fn not_written(piece: Piece, span: Span) -> Error {
        Error {
            refusal: None,
            pieces: vec![piece],
            text: format!("guest memory cannot be written, for {piece} at {span}"),
        }
    }

    /// The error of a refused boot.
    pub(super) fn of(refusal: Refusal, boot: &Prepared, to: &Layout) -> Error {
        let about = About { boot, to };
        let (pieces, text) = about.rule(refusal);
        Error {
            refusal: Some(refusal),
            pieces,
            text: text.unwrap_or_else(|| in_a_clause(refusal.sentence())),
        }
    }
}

impl fmt::Display for Error {
    fn fmt(&self, f: &mut fmt::Formatter<'_>) -> fmt::Result {
        write!(f, "Boot: {}", self.text)
    }
}

impl std::error::Error for Error {}

/// A sentence with a small first letter and without its full stop.
fn in_a_clause(sentence: &str) -> String {
    let sentence = sentence.trim_end_matches('.');
    let mut letters = sentence.chars();
    letters.next().map_or(String::new(), |first| {
        first.to_lowercase().chain(letters).collect()
    })
}

/// What a refusal is about.
struct About<'a> {
    boot: &'a Prepared<'a>,
    to: &'a Layout,
}

impl About<'_> {
    /// The pieces of a refusal, and what is said of them; nothing if the refusal's own sentence says it.
    fn rule(&self, refusal: Refusal) -> (Vec<Piece>, Option<String>) {
        use Refusal::*;
        let data = self.boot.boot_data().0;
        let (kernel, line, ramdisk) = (Piece::Kernel, Piece::Line, Piece::Ramdisk);
        let of = |piece, text| (vec![piece], Some(text));
        match refusal {
            LineTooLong => of(line, self.too_long()),
            WrongEntry => of(kernel, self.wrong_entry()),
            No64BitEntry | NoPvhEntry => (vec![kernel], None),
            LineNotInTree => (vec![line, data], None),
            RamdiskTooHigh => of(ramdisk, self.too_high()),
            CommandLineOverflow => of(line, self.outside(line)),
            KernelOutside => of(kernel, self.outside(kernel)),
            RamdiskOutside => of(ramdisk, self.outside(ramdisk)),
            BootDataOutside | BadPart => of(data, self.outside(data)),
            KernelMeetsLine => self.meet(kernel, line),
            KernelMeetsRamdisk => self.meet(kernel, ramdisk),
            KernelMeetsBootData => self.meet(kernel, data),
            LineMeetsRamdisk => self.meet(line, ramdisk),
            LineMeetsBootData => self.meet(line, data),
            RamdiskMeetsBootData => self.meet(ramdisk, data),
            KernelNotInRows => of(kernel, self.not_in_rows(kernel)),
            LineNotInRows => of(line, self.not_in_rows(line)),
            RamdiskNotInRows => of(ramdisk, self.not_in_rows(ramdisk)),
            InvalidCommandLine => (vec![line], None),
            BadList if self.boot.format.is_none() => of(
                kernel,
                "the image is neither an ELF image nor a bzImage nor an arm64 Image".to_string(),
            ),
            BadList => of(data, self.above_4_gib()),
            TooManyRows | BadRow => (vec![data], None),
            _ => (vec![kernel], None),
        }
    }

    /// Where a piece is: of the kernel all its ranges.
    fn spans(&self, piece: Piece) -> Vec<Span> {
        let (boot, to) = (self.boot.boot, self.to);
        let span = match piece {
            Piece::Kernel => {
                let (format, plan) = match (self.boot.format, &to.kernel) {
                    (Some(format), Some(plan)) => (format, plan),
                    _ => return Vec::new(),
                };
                return kernel::memory(format, boot.image, boot.offset, &plan.kernel);
            }
            Piece::Line => self.boot.line_at(to),
            Piece::Ramdisk => Span::new(GuestAddress(to.ramdisk), boot.ramdisk.len() as u64),
            _ => Span::new(GuestAddress(to.data), self.boot.boot_data().1),
        };
        vec![span]
    }

    /// A piece with where it is.
    fn named(&self, piece: Piece) -> String {
        let spans = self.spans(piece);
        let spans: Vec<String> = spans.iter().map(Span::to_string).collect();
        match spans.is_empty() {
            true => piece.to_string(),
            false => format!("{piece} at {}", spans.join(" and ")),
        }
    }

    fn meet(&self, a: Piece, b: Piece) -> (Vec<Piece>, Option<String>) {
        let others = self.spans(b);
        let mut spans = self.spans(a);
        spans.retain(|span| others.iter().any(|other| span.meets(other)));
        let first = spans
            .first()
            .map_or(a.to_string(), |span| format!("{a} at {span}"));
        let text = format!("{first} and {} share a byte", self.named(b));
        (vec![a, b], Some(text))
    }

    fn outside(&self, piece: Piece) -> String {
        format!("{} is not in one range of guest memory", self.named(piece))
    }

    fn not_in_rows(&self, piece: Piece) -> String {
        let rows = "rows of type 1 of the memory map that the guest is given";
        format!("{} is not in one of the {rows}", self.named(piece))
    }

    fn too_long(&self) -> String {
        let size = self.boot.line_size() - 1;
        let (image, limit) = (self.boot.boot.image, self.boot.boot.limit);
        let max = self
            .boot
            .format
            .map_or(0, |format| kernel::line_max(format, image, limit));
        format!("the line has {size} bytes, and the kernel takes {max}")
    }

    fn too_high(&self) -> String {
        let image = self.boot.boot.image;
        let max = self
            .boot
            .format
            .map_or(0, |format| kernel::ramdisk_max(format, image));
        let ramdisk = self.named(Piece::Ramdisk);
        format!("{ramdisk} ends above {max:#x}, the last address that the kernel takes for it")
    }

    fn wrong_entry(&self) -> String {
        let image = match self.boot.format {
            Some(Format::BzImage) => "a bzImage",
            Some(Format::Arm64) => "an arm64 Image",
            _ => "an ELF image",
        };
        let entry = match self.boot.entry {
            Entry::ZeroPage(page) if page.is_64_bit => "by zero page in 64-bit mode",
            Entry::ZeroPage(_) => "by zero page in 32-bit mode",
            Entry::Pvh(_) => "by PVH",
            Entry::Tree(_) => "with a device tree",
        };
        let load = self
            .to
            .kernel
            .as_ref()
            .map_or(0, |plan| plan.kernel.kernel_load.0);
        match (self.boot.format, self.boot.entry) {
            (Some(Format::BzImage), Entry::ZeroPage(_)) => {
                format!("{image} at {load:#x}, which is 4 GiB or above, is not entered {entry}")
            }
            _ => format!("{image} is not entered {entry}"),
        }
    }

    fn above_4_gib(&self) -> String {
        let what = match self.boot.entry {
            Entry::ZeroPage(_) => "line, ramdisk and zero page",
            _ => "the start block",
        };
        format!("{what} must be at an address below 4 GiB")
    }
}

#[cfg(test)]
mod tests {
    use super::*;

    #[test]
    fn a_sentence_becomes_a_clause() {
        let clause = in_a_clause(Refusal::No64BitEntry.sentence());
        assert_eq!(clause, "the bzImage has no 64-bit entry");
    }

    #[test]
    fn a_piece_without_a_place_is_named() {
        let error = Error::no_room(Piece::Ramdisk, 7, "guest memory");
        assert_eq!(error.number(), Some(62));
        assert_eq!(error.pieces(), [Piece::Ramdisk]);
        assert_eq!(
            error.to_string(),
            "Boot: the ramdisk of 7 bytes fits nowhere in guest memory beside the others"
        );
    }
}
