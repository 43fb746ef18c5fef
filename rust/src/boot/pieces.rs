//! Calls for single pieces of a boot, for a monitor that lays them out by itself.

use std::ops::Range;

use super::{Span, Texts};
use crate::entry::LIMIT_GIVEN;
use crate::ffi::call;
use crate::loader::Format;
use crate::refusal::answered;
use crate::{GuestAddress, Map, Refusal};

/// Is a line no longer than the kernel takes? [`LineTooLong`](Refusal::LineTooLong) if it has more bytes, its zero not
/// counted, than `cmdline_size` of a bzImage of protocol 2.06 or later, 255 for an older one, or the limit for ELF and
/// arm64, which is 2,047 if none is given.
///
/// ```
/// use rekusoyen::boot::line_check;
/// use rekusoyen::loader::{Cmdline, Format};
/// use rekusoyen::Refusal;
///
/// let image = []; // of an ELF image nothing is looked at
/// let text = vec![b'x'; 2047];
/// assert_eq!(line_check(Format::Elf, &image, None, &text[..]), Ok(()));
/// assert_eq!(line_check(Format::Elf, &image, Some(2046), &text[..]), Err(Refusal::LineTooLong));
/// let line = Cmdline::try_from("quiet -- single", 100)?;
/// assert_eq!(line_check(Format::Elf, &image, Some(15), &line), Ok(()));
/// # Ok::<(), rekusoyen::cmdline::Error>(())
/// ```
pub fn line_check<'a>(
    format: Format,
    image: &[u8],
    limit: Option<u32>,
    line: impl Into<Texts<'a>>,
) -> Result<(), Refusal> {
    let Texts { boot, init } = line.into();
    let flags = limit.map_or(0, |_| LIMIT_GIVEN);
    answered(call!(rekusoyen_line_check(
        in image, format as u32, flags, limit.unwrap_or(0), in boot, in init
    )))
}

/// Have so many bytes room at an address: all of them within one range of the map? None have room everywhere.
///
/// ```
/// use rekusoyen::boot::has_room;
/// use rekusoyen::{GuestAddress, Map};
///
/// let map = Map::from_ranges(&[(GuestAddress(0), 16), (GuestAddress(32), 16)]);
/// assert!(has_room(&map, GuestAddress(40), 8));
/// assert!(!has_room(&map, GuestAddress(8), 9));
/// assert!(has_room(&map, GuestAddress(20), 0));
/// ```
pub fn has_room(map: &Map, address: GuestAddress, size: u64) -> bool {
    call!(rekusoyen_has_room(map.end(), in map.numbers(), address.0, size)) != 0
}

/// Writes bytes, such as a ramdisk or a device tree, into guest memory that has a map. A refusal changes nothing:
/// [`SliceTooLong`](Refusal::SliceTooLong) for guest memory of more than 2^40 bytes, [`BadMap`](Refusal::BadMap), and
/// [`NoRoom`](Refusal::NoRoom) if they are not all within one range.
///
/// ```
/// use rekusoyen::boot::put;
/// use rekusoyen::{GuestAddress, Map, Refusal};
///
/// let mut guest = [0u8; 16];
/// let map = Map::whole(16);
/// put(&mut guest, &map, GuestAddress(12), b"disk")?;
/// assert_eq!(&guest[12..], b"disk");
/// assert_eq!(put(&mut guest, &map, GuestAddress(13), b"disk"), Err(Refusal::NoRoom));
/// # Ok::<(), Refusal>(())
/// ```
pub fn put(
    guest: &mut [u8],
    map: &Map,
    address: GuestAddress,
    bytes: &[u8],
) -> Result<(), Refusal> {
    answered(call!(rekusoyen_put(mut guest, in map.numbers(), address.0, in bytes)))
}

/// First fit: the lowest multiple of `align` within the bounds from which on so many bytes are within one range of the
/// map, end within the bounds, and share no byte with what is placed already; `None` if there is no such address. An
/// alignment of 0 counts as 1. A piece of no bytes needs no room.
///
/// ```
/// use rekusoyen::boot::{place, place_high, Span};
/// use rekusoyen::{GuestAddress, Map};
///
/// let map = Map::whole(0x10000);
/// let placed = [Span::new(GuestAddress(0x1000), 0x2001)];
/// assert_eq!(place(&map, &placed, 0x1000..0x10000, 8, 100), Some(GuestAddress(0x3008)));
/// assert_eq!(place_high(&map, &placed, 0x1000..0x10000, 4096, 100), Some(GuestAddress(0xf000)));
/// assert_eq!(place(&map, &placed, 0x1000..0x3000, 8, 100), None);
/// ```
pub fn place(
    map: &Map,
    placed: &[Span],
    bounds: Range<u64>,
    align: u64,
    size: u64,
) -> Option<GuestAddress> {
    let (placed, mut address) = (numbers_of(placed), [0]);
    answer_of(
        call!(rekusoyen_raw_place(
            map.end(), in map.numbers(), in &placed, bounds.start, bounds.end, align, size, mut &mut address
        )),
        address,
    )
}

/// Last fit: the highest such address.
pub fn place_high(
    map: &Map,
    placed: &[Span],
    bounds: Range<u64>,
    align: u64,
    size: u64,
) -> Option<GuestAddress> {
    let (placed, mut address) = (numbers_of(placed), [0]);
    answer_of(
        call!(rekusoyen_raw_place_high(
            map.end(), in map.numbers(), in &placed, bounds.start, bounds.end, align, size, mut &mut address
        )),
        address,
    )
}

fn numbers_of(spans: &[Span]) -> Vec<u64> {
    spans
        .iter()
        .flat_map(|span| [span.address.0, span.size])
        .collect()
}

/// An address that was found; a refusal says that there is none.
fn answer_of(number: u32, address: [u64; 1]) -> Option<GuestAddress> {
    answered(number).ok().map(|()| GuestAddress(address[0]))
}
