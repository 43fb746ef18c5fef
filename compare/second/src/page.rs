//! The boot page: built from a setup header, addresses and a memory map, and read back.

use crate::fields::{u32_at, u64_at, ADDRESS_LIMIT};
use crate::Refusal;

pub const SIZE: usize = 4096;
pub const MOST_ROWS: usize = 128;
pub const HEADER_SIZE: usize = 123;

const COUNT: usize = 0x1e8;
const HEADER: usize = 0x1f1;
const LOADER_TYPE: usize = 0x210;
const RAMDISK: usize = 0x218;
const RAMDISK_SIZE: usize = 0x21c;
const COMMAND_LINE: usize = 0x228;
const ROWS: usize = 0x2d0;
const ROW_SIZE: usize = 20;
const OTHER_LOADER: u8 = 0xff;

#[derive(Clone, Copy, Debug, PartialEq, Eq)]
pub struct Addresses {
    pub command_line: u32,
    pub ramdisk: u32,
    pub ramdisk_size: u32,
}

#[derive(Clone, Copy, Debug, PartialEq, Eq)]
pub struct Row {
    pub address: u64,
    pub size: u64,
    pub kind: u32,
}

#[derive(Clone, Debug, PartialEq, Eq)]
pub struct Found {
    pub rows: Vec<Row>,
    pub addresses: Addresses,
    pub header: [u8; HEADER_SIZE],
}

impl Row {
    fn end(&self) -> u128 {
        u128::from(self.address) + u128::from(self.size)
    }

    fn meets(&self, other: &Row) -> bool {
        u128::from(self.address) < other.end() && u128::from(other.address) < self.end()
    }
}

/// Builds the page; `numbers` has three for each row of the memory map.
pub fn build(
    page: &mut [u8],
    header: &[u8; HEADER_SIZE],
    addresses: Addresses,
    numbers: &[u64],
) -> Result<(), Refusal> {
    if page.len() != SIZE {
        return Err(Refusal::BadPageSize);
    }
    let rows = rows_of(numbers)?;
    if rows.len() > MOST_ROWS {
        return Err(Refusal::TooManyRows);
    }
    for (index, row) in rows.iter().enumerate() {
        if row.size == 0 {
            return Err(Refusal::BadRow);
        }
        if row.end() >= ADDRESS_LIMIT {
            return Err(Refusal::BadRow);
        }
        if rows[..index].iter().any(|earlier| earlier.meets(row)) {
            return Err(Refusal::BadRow);
        }
    }
    page.fill(0);
    page[HEADER..HEADER + HEADER_SIZE].copy_from_slice(header);
    page[LOADER_TYPE] = OTHER_LOADER;
    put(page, COMMAND_LINE, &addresses.command_line.to_le_bytes());
    put(page, RAMDISK, &addresses.ramdisk.to_le_bytes());
    put(page, RAMDISK_SIZE, &addresses.ramdisk_size.to_le_bytes());
    page[COUNT] = rows.len() as u8;
    for (index, row) in rows.iter().enumerate() {
        let place = ROWS + ROW_SIZE * index;
        put(page, place, &row.address.to_le_bytes());
        put(page, place + 8, &row.size.to_le_bytes());
        put(page, place + 16, &row.kind.to_le_bytes());
    }
    Ok(())
}

/// Reads a page, whoever wrote it.
pub fn read(page: &[u8]) -> Result<Found, Refusal> {
    if page.len() != SIZE {
        return Err(Refusal::BadPageSize);
    }
    let count = usize::from(page[COUNT]);
    if count > MOST_ROWS {
        return Err(Refusal::TooManyRows);
    }
    let rows = page[ROWS..].chunks_exact(ROW_SIZE).take(count);
    Ok(Found {
        rows: rows
            .map(|row| Row {
                address: u64_at(row, 0),
                size: u64_at(row, 8),
                kind: u32_at(row, 16),
            })
            .collect(),
        addresses: Addresses {
            command_line: u32_at(page, COMMAND_LINE),
            ramdisk: u32_at(page, RAMDISK),
            ramdisk_size: u32_at(page, RAMDISK_SIZE),
        },
        header: page[HEADER..HEADER + HEADER_SIZE].try_into().unwrap(),
    })
}

/// The rows of a list of numbers: whole ones, in each of which the third number has four bytes.
fn rows_of(numbers: &[u64]) -> Result<Vec<Row>, Refusal> {
    if numbers.len() % 3 != 0 {
        return Err(Refusal::BadList);
    }
    let rows = numbers.chunks_exact(3).map(|row| {
        let kind = u32::try_from(row[2]).map_err(|_| Refusal::BadList)?;
        Ok(Row {
            address: row[0],
            size: row[1],
            kind,
        })
    });
    rows.collect()
}

fn put(page: &mut [u8], place: usize, bytes: &[u8]) {
    page[place..place + bytes.len()].copy_from_slice(bytes);
}

#[cfg(test)]
mod tests {
    use super::*;

    const ADDRESSES: Addresses = Addresses {
        command_line: 1,
        ramdisk: 2,
        ramdisk_size: 3,
    };

    fn built(numbers: &[u64]) -> Result<Vec<u8>, Refusal> {
        let mut page = vec![7; SIZE];
        let answer = build(&mut page, &[9; HEADER_SIZE], ADDRESSES, numbers);
        assert!(answer.is_ok() || page == [7; SIZE]);
        answer.map(|()| page)
    }

    #[test]
    fn what_is_built_is_read_back() {
        let page = built(&[0, 5, 1, 5, 1, 2]).unwrap();
        let found = read(&page).unwrap();
        assert_eq!(found.addresses, ADDRESSES);
        assert_eq!((found.rows.len(), found.rows[1].kind), (2, 2));
        assert_eq!(found.header[0x210 - 0x1f1], 0xff);
        assert_eq!(found.header[0], 9);
        assert_eq!((page[0], page[0x26c], page[SIZE - 1]), (0, 0, 0));
    }

    #[test]
    fn refusals_come_in_order() {
        let mut rows = vec![0; 3 * 129];
        assert_eq!(
            build(&mut [], &[0; 123], ADDRESSES, &[0]),
            Err(Refusal::BadPageSize)
        );
        rows[2] = 1 << 32;
        assert_eq!(built(&rows), Err(Refusal::BadList));
        assert_eq!(built(&rows[1..]), Err(Refusal::BadList));
        rows[2] = 0;
        assert_eq!(built(&rows), Err(Refusal::TooManyRows));
        assert_eq!(built(&rows[3..]), Err(Refusal::BadRow));
        assert_eq!(built(&[u64::MAX, 1, 0]), Err(Refusal::BadRow));
        assert_eq!(built(&[4, 2, 0, 9, 1, 0, 5, 1, 0]), Err(Refusal::BadRow));
    }
}
