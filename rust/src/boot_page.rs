//! The boot page of a bzImage, which Linux calls the zero page: built and read by the proved library.
//!
//! linux-loader leaves it to the monitor to fill a [`boot_params`]; here the library does that,
//! and tests the memory map.

use crate::entry::{PAGE_NUMBERS, PAGE_READ_ROWS, PAGE_SIZE, SETUP_HEADER_SIZE};
use crate::ffi::call;
use crate::loader::bootparam::{boot_e820_entry, boot_params, setup_header};
use crate::refusal::{answered, Refusal};

/// What a guest is told beside its setup header: where its command line stands, and its initial ramdisk, with its size.
#[derive(Clone, Copy, Debug, Default, PartialEq, Eq)]
pub struct Addresses {
    /// The guest address of the command line.
    pub command_line: u32,
    /// The guest address of the initial ramdisk, and 0 without one.
    pub ramdisk: u32,
    /// The size of the initial ramdisk.
    pub ramdisk_size: u32,
}

/// What stands in a page.
#[derive(Clone, Debug, PartialEq)]
pub struct Page {
    /// The setup header, with the loader type and the addresses in it.
    pub setup_header: setup_header,
    /// The addresses.
    pub addresses: Addresses,
    /// The rows of the memory map.
    pub rows: Vec<boot_e820_entry>,
}

/// Builds the page: all zero, then the setup header with the loader type FF hex and the addresses set in it, and the memory map, whose
/// rows may come in any order.
///
/// A refusal leaves the page as it was: [`BadPageSize`](Refusal::BadPageSize) where it has not 4,096 bytes,
/// [`TooManyRows`](Refusal::TooManyRows) above 128 rows, [`BadRow`](Refusal::BadRow) where a row is empty, ends at 2^64 or above or
/// overlaps an earlier one.
///
/// ```
/// use rekusoyen::boot_page::{build, read, Addresses};
/// use rekusoyen::loader::bootparam::{boot_e820_entry, boot_params, setup_header};
/// use rekusoyen::Refusal;
///
/// // the header that the load of a bzImage returned
/// let header = setup_header { version: 0x20f, ..Default::default() };
/// let addresses = Addresses { command_line: 0x20000, ..Default::default() };
/// let ram = boot_e820_entry { addr: 0, size: 0x9fc00, r#type: 1 };
///
/// let mut page = [0xffu8; 4096];
/// build(&mut page, header, addresses, &[ram])?;
/// let params = boot_params::from(page);
/// assert_eq!({ params.hdr.cmd_line_ptr }, 0x20000);
/// assert_eq!(params.hdr.type_of_loader, 0xff);
/// assert_eq!(params.e820_table[0], ram);
/// assert_eq!(read(&page)?.rows, [ram]);
///
/// // the same range twice
/// let refused = build(&mut page, header, addresses, &[ram, ram]);
/// assert_eq!(refused, Err(Refusal::BadRow));
/// # Ok::<(), Refusal>(())
/// ```
pub fn build(
    page: &mut [u8],
    setup_header: setup_header,
    addresses: Addresses,
    rows: &[boot_e820_entry],
) -> Result<(), Refusal> {
    let header: [u8; SETUP_HEADER_SIZE] = setup_header.into();
    let numbers: Vec<u64> = rows
        .iter()
        .flat_map(|row| [row.addr, row.size, row.r#type.into()])
        .collect();
    let Addresses {
        command_line,
        ramdisk,
        ramdisk_size,
    } = addresses;
    answered(call!(rekusoyen_page_build(
        mut page, in &header, command_line, ramdisk, ramdisk_size, in &numbers
    )))
}

/// Reads a page, whoever wrote it: what stands there. The rows are not tested.
///
/// Refusals: [`BadPageSize`](Refusal::BadPageSize), and [`TooManyRows`](Refusal::TooManyRows) where the page says that it has more than
/// 128.
pub fn read(page: &[u8]) -> Result<Page, Refusal> {
    let mut out = [0; PAGE_NUMBERS];
    let mut numbers = [0; PAGE_READ_ROWS];
    let mut header = [0; SETUP_HEADER_SIZE];
    answered(call!(rekusoyen_raw_page_read(
        in page, mut &mut out, mut &mut numbers, mut &mut header
    )))?;
    let [count, command_line, ramdisk, ramdisk_size] = out;
    // each is a field of four bytes, and the count one of a single byte
    let rows = numbers.chunks_exact(3).take(count as usize);
    Ok(Page {
        setup_header: header.into(),
        addresses: Addresses {
            command_line: command_line as u32,
            ramdisk: ramdisk as u32,
            ramdisk_size: ramdisk_size as u32,
        },
        rows: rows
            .map(|row| boot_e820_entry {
                addr: row[0],
                size: row[1],
                r#type: row[2] as u32,
            })
            .collect(),
    })
}

impl boot_params {
    /// The page of [`build`], as the struct.
    pub fn built(
        setup_header: setup_header,
        addresses: Addresses,
        rows: &[boot_e820_entry],
    ) -> Result<boot_params, Refusal> {
        let mut page = [0; PAGE_SIZE];
        build(&mut page, setup_header, addresses, rows)?;
        Ok(page.into())
    }
}
