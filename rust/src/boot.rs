//! A boot in which nothing is lost: the kernel, the command line, a ramdisk and the boot data that names them, put into
//! guest memory by one call of the proved library. Every rule is checked before anything is written. After an accepted
//! boot each piece is there, whole, at the same time, and every other byte is as it was; after a refused one nothing
//! has changed (`docs/BOOT.md` of the repository has the rules in their order).
//!
//! ```
//! use rekusoyen::boot::{Boot, ZeroPage};
//! use rekusoyen::loader::Cmdline;
//! use rekusoyen::{GuestAddress, Map};
//!
//! # let mut image = vec![0u8; 1024 + 3];
//! # image[0x1f1] = 1; // one setup sector besides the first
//! # image[0x202..0x206].copy_from_slice(b"HdrS");
//! # image[0x206..0x208].copy_from_slice(&0x20fu16.to_le_bytes());
//! # image[0x211] = 1; // loaded high
//! # image[0x214..0x218].copy_from_slice(&0x4000u32.to_le_bytes()); // code32_start
//! # image[0x22c..0x230].fill(0xff); // initrd_addr_max
//! # image[0x238..0x23c].copy_from_slice(&2047u32.to_le_bytes()); // cmdline_size
//! # image[1024..].copy_from_slice(b"abc"); // the kernel
//! let mut guest = vec![0u8; 0x10000];
//! let map = Map::whole(guest.len());
//! let line = Cmdline::try_from("console=ttyS0 root=/dev/vda", 2048)?;
//!
//! // no address is given: the kernel goes where it wants to be, and the rest is placed
//! let boot = Boot::new(&image)
//!     .line(&line)
//!     .ramdisk(b"a ramdisk")
//!     .rows(&[(GuestAddress(0), 0x10000, 1)]);
//! let booted = boot.load(&mut guest, &map)?;
//! assert_eq!(booted.entry, GuestAddress(0x4000));
//! assert_eq!(booted.boot_data.address, GuestAddress(0x1000));
//! assert_eq!(booted.line.address, GuestAddress(0x2000));
//! assert_eq!(booted.ramdisk.address, GuestAddress(0xf000));
//! assert_eq!(&guest[0x2000..0x201c], b"console=ttyS0 root=/dev/vda\0");
//!
//! // a line that would lie over the kernel is refused, and nothing is written
//! let over = ZeroPage { line: Some(GuestAddress(0x3ff0)), ..ZeroPage::default() };
//! let error = boot.zero_page(over).load(&mut guest, &map).unwrap_err();
//! assert_eq!(error.number(), Some(100));
//! assert_eq!(
//!     error.to_string(),
//!     "Boot: the kernel at 0x4000 to 0x4003 and the line at 0x3ff0 to 0x400c share a byte"
//! );
//! # Ok::<(), Box<dyn std::error::Error>>(())
//! ```

use std::fmt;

use crate::cmdline::Cmdline;
use crate::loader::{Format, KernelLoaderResult, PvhNote};
use crate::{GuestAddress, Map};

mod calls;
mod error;
mod kernel;
mod layout;
mod pieces;
#[cfg(feature = "vm-memory")]
mod regions;
mod tree;

pub use error::Error;
pub use pieces::{has_room, line_check, place, place_high, put};

use calls::Prepared;

/// Bytes of guest memory.
#[derive(Clone, Copy, Debug, Default, PartialEq, Eq)]
pub struct Span {
    /// Where they begin.
    pub address: GuestAddress,
    /// How many there are.
    pub size: u64,
}

impl Span {
    /// So many bytes at an address.
    pub fn new(address: GuestAddress, size: u64) -> Span {
        Span { address, size }
    }

    /// The first address after them, which may be 2^64 or more.
    pub fn end(&self) -> u128 {
        u128::from(self.address.0) + u128::from(self.size)
    }

    /// Whether they share a byte with others.
    pub fn meets(&self, other: &Span) -> bool {
        let [a, b] = [self, other].map(|span| u128::from(span.address.0));
        a.max(b) < self.end().min(other.end())
    }
}

/// As `0x1000 to 0x1080`, of which the second is the first address after them.
impl fmt::Display for Span {
    fn fmt(&self, f: &mut fmt::Formatter<'_>) -> fmt::Result {
        write!(f, "{:#x} to {:#x}", self.address.0, self.end())
    }
}

/// A piece of a boot.
#[derive(Clone, Copy, Debug, PartialEq, Eq)]
pub enum Piece {
    /// The kernel: what its load writes, and the memory that it takes.
    Kernel,
    /// The line with its zero.
    Line,
    /// The ramdisk.
    Ramdisk,
    /// The zero page.
    ZeroPage,
    /// The PVH start block with its list of modules and its memory map.
    StartBlock,
    /// The device tree.
    Tree,
}

impl fmt::Display for Piece {
    fn fmt(&self, f: &mut fmt::Formatter<'_>) -> fmt::Result {
        f.write_str(match self {
            Piece::Kernel => "the kernel",
            Piece::Line => "the line",
            Piece::Ramdisk => "the ramdisk",
            Piece::ZeroPage => "the zero page",
            Piece::StartBlock => "the start block",
            Piece::Tree => "the device tree",
        })
    }
}

/// A kernel that is entered by the zero page of the Linux boot protocol: a bzImage, or in 64-bit mode an ELF image,
/// too. All addresses are below 4 GiB; one that is not given is placed.
#[derive(Clone, Copy, Debug, Default, PartialEq, Eq)]
pub struct ZeroPage {
    /// Whether the kernel is entered in 64-bit mode, and not in 32-bit mode.
    pub is_64_bit: bool,
    /// The address of the page.
    pub page: Option<GuestAddress>,
    /// The address of the line.
    pub line: Option<GuestAddress>,
    /// The address of the ramdisk.
    pub ramdisk: Option<GuestAddress>,
}

/// An ELF image that is entered by PVH. An address that is not given is placed below 4 GiB.
#[derive(Clone, Copy, Debug, Default, PartialEq, Eq)]
pub struct Pvh {
    /// The address of the start block, below 4 GiB. Its list of modules and its memory map follow it.
    pub block: Option<GuestAddress>,
    /// The address of the line.
    pub line: Option<GuestAddress>,
    /// The address of the ramdisk.
    pub ramdisk: Option<GuestAddress>,
    /// The address of the RSDP, and 0 without one.
    pub rsdp: GuestAddress,
}

/// An arm64 Image that is entered with the address of a device tree. The tree is the caller's: it has the line, with
/// its zero, and names the ramdisk. An address that is not given is placed; [`Boot::plan`] says where, so that the
/// address of the ramdisk can be written into the tree before the boot.
#[derive(Clone, Copy, Debug, Default, PartialEq, Eq)]
pub struct Tree<'a> {
    /// The tree's bytes.
    pub blob: &'a [u8],
    /// Its address.
    pub address: Option<GuestAddress>,
    /// The address of the ramdisk.
    pub ramdisk: Option<GuestAddress>,
    /// The offset of the line in the blob. If it is not given it is searched: in a flattened device tree the value of a
    /// property `bootargs` that is the line and its zero, in any other blob the first bytes that are.
    pub line_offset: Option<u64>,
}

/// How a kernel is entered.
#[derive(Clone, Copy, Debug)]
enum Entry<'a> {
    ZeroPage(ZeroPage),
    Pvh(Pvh),
    Tree(Tree<'a>),
}

/// The two texts of a line, without a zero.
#[derive(Clone, Copy, Debug, Default, PartialEq, Eq)]
pub struct Texts<'a> {
    /// The boot text.
    pub boot: &'a [u8],
    /// The init text, which follows ` -- `; empty without one.
    pub init: &'a [u8],
}

impl<'a> From<&'a Cmdline> for Texts<'a> {
    fn from(line: &'a Cmdline) -> Self {
        let (boot, init) = line.texts();
        Texts { boot, init }
    }
}

/// A whole line as one text.
impl<'a> From<&'a [u8]> for Texts<'a> {
    fn from(boot: &'a [u8]) -> Self {
        let init = &[];
        Texts { boot, init }
    }
}

/// A boot: an image, and what it is started with. What is not set is left out or has its usual value.
///
/// An address that is not given is placed: the kernel is where its load puts it, boot data and line go as low as they
/// can from 1000 hex on, the ramdisk as high as it may lie. By zero page and PVH all of them go into rows of type 1 of
/// the guest's memory map.
#[derive(Clone, Debug)]
pub struct Boot<'a> {
    image: &'a [u8],
    format: Option<Format>,
    offset: Option<GuestAddress>,
    highmem_start: Option<GuestAddress>,
    line: Texts<'a>,
    ramdisk: &'a [u8],
    rows: Vec<(GuestAddress, u64, u32)>,
    limit: Option<u32>,
    taken: Vec<Span>,
    entry: Option<Entry<'a>>,
}

impl<'a> Boot<'a> {
    /// A boot of an image with an empty line. Its format is known by its magic number. A bzImage is entered by zero
    /// page in 32-bit mode, an ELF image by PVH, and an arm64 Image with a device tree, which has to be given.
    pub fn new(image: &'a [u8]) -> Boot<'a> {
        Boot {
            image,
            format: None,
            offset: None,
            highmem_start: None,
            line: Texts::default(),
            ramdisk: &[],
            rows: Vec::new(),
            limit: None,
            taken: Vec::new(),
            entry: None,
        }
    }

    /// The format of the image, whatever its magic number is.
    #[must_use]
    pub fn format(mut self, format: Format) -> Self {
        self.format = Some(format);
        self
    }

    /// Where the kernel goes: the offset of a load, which for an arm64 Image is its base.
    #[must_use]
    pub fn offset(mut self, offset: GuestAddress) -> Self {
        self.offset = Some(offset);
        self
    }

    /// The start of high memory, below which a kernel is refused.
    #[must_use]
    pub fn highmem_start(mut self, address: GuestAddress) -> Self {
        self.highmem_start = Some(address);
        self
    }

    /// The command line.
    #[must_use]
    pub fn line(mut self, line: &'a Cmdline) -> Self {
        self.line = line.into();
        self
    }

    /// The command line as one text, without a zero.
    #[must_use]
    pub fn text(mut self, text: &'a [u8]) -> Self {
        self.line = text.into();
        self
    }

    /// The ramdisk, which may be empty.
    #[must_use]
    pub fn ramdisk(mut self, ramdisk: &'a [u8]) -> Self {
        self.ramdisk = ramdisk;
        self
    }

    /// The rows of the memory map that the guest is given by zero page or start block: address, size and type, of which
    /// 1 is memory that it may use. With a device tree they are in the tree, and these are not looked at.
    #[must_use]
    pub fn rows(mut self, rows: &[(GuestAddress, u64, u32)]) -> Self {
        self.rows = rows.to_vec();
        self
    }

    /// The most bytes that the line of an ELF or arm64 kernel may have, its zero not counted: 2,047 if this is not
    /// said. A bzImage says it itself.
    #[must_use]
    pub fn limit(mut self, limit: u32) -> Self {
        self.limit = Some(limit);
        self
    }

    /// What is in guest memory besides the boot: pieces that are placed keep away from it. Pieces whose address is
    /// given are not checked against it.
    #[must_use]
    pub fn taken(mut self, taken: &[Span]) -> Self {
        self.taken = taken.to_vec();
        self
    }

    /// The kernel is entered by zero page.
    #[must_use]
    pub fn zero_page(mut self, entry: ZeroPage) -> Self {
        self.entry = Some(Entry::ZeroPage(entry));
        self
    }

    /// The kernel is entered by PVH.
    #[must_use]
    pub fn pvh(mut self, entry: Pvh) -> Self {
        self.entry = Some(Entry::Pvh(entry));
        self
    }

    /// The kernel is entered with a device tree.
    #[must_use]
    pub fn tree(mut self, entry: Tree<'a>) -> Self {
        self.entry = Some(Entry::Tree(entry));
        self
    }

    /// Puts all pieces into guest memory, which begins at guest address 0 and has a map. A refusal changes nothing.
    pub fn load(&self, guest: &mut [u8], map: &Map) -> Result<Booted, Error> {
        let prepared = Prepared::of(self);
        let layout = prepared.lay_out(map)?;
        let answer = prepared.load(guest, map, &layout);
        prepared.answer(answer, &layout)
    }

    /// What [`load`](Boot::load) would answer over guest memory that ends with the last range of the map.
    pub fn plan(&self, map: &Map) -> Result<Booted, Error> {
        let prepared = Prepared::of(self);
        let layout = prepared.lay_out(map)?;
        let answer = prepared.plan(map, &layout);
        prepared.answer(answer, &layout)
    }
}

/// An accepted boot: where each piece is, and where the kernel is entered.
#[derive(Clone, Debug, PartialEq)]
pub struct Booted {
    /// What the load of the kernel returned.
    pub kernel: KernelLoaderResult,
    /// The note that the PVH entry of an ELF image was read from.
    pub pvh_note: Option<PvhNote>,
    /// All memory that the kernel uses: what was written, and what it takes. Ranges may overlap.
    pub kernel_memory: Vec<Span>,
    /// The line with its zero; with a device tree it is within the tree.
    pub line: Span,
    /// The ramdisk, which may have no bytes.
    pub ramdisk: Span,
    /// Which boot data there is: [`Piece::ZeroPage`], [`Piece::StartBlock`] or [`Piece::Tree`].
    pub boot_data_is: Piece,
    /// Where it is.
    pub boot_data: Span,
    /// The address at which the kernel is entered.
    pub entry: GuestAddress,
}
