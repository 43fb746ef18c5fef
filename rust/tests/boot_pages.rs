//! The boot page, built and read.

mod images;

use images::fresh;
use rekusoyen::boot_page::{build, read, Addresses, Page};
use rekusoyen::loader::bootparam::{boot_e820_entry, boot_params, setup_header};
use rekusoyen::Refusal;

const ADDRESSES: Addresses = Addresses {
    command_line: 0x20000,
    ramdisk: 0xffff_f000,
    ramdisk_size: 0x8000_0001,
};

fn row(addr: u64, size: u64) -> boot_e820_entry {
    boot_e820_entry {
        addr,
        size,
        r#type: 0xffff_fffe,
    }
}

/// A header none of whose bytes is zero.
fn header() -> setup_header {
    setup_header::from([0x5a; 123])
}

/// The page as a monitor fills the struct by hand.
fn filled(rows: &[boot_e820_entry]) -> boot_params {
    let mut params = boot_params {
        hdr: header(),
        e820_entries: rows.len() as u8,
        ..Default::default()
    };
    params.hdr.type_of_loader = 0xff;
    params.hdr.cmd_line_ptr = ADDRESSES.command_line;
    params.hdr.ramdisk_image = ADDRESSES.ramdisk;
    params.hdr.ramdisk_size = ADDRESSES.ramdisk_size;
    params.e820_table[..rows.len()].copy_from_slice(rows);
    params
}

#[test]
fn a_page_is_the_struct_that_a_monitor_fills() {
    let all: Vec<_> = (0..128).map(|i| row(0x1000 * (127 - i), 0x1000)).collect();
    for count in [0, 1, 2, 127, 128] {
        let rows = &all[..count];
        let mut page = fresh(4096);
        build(&mut page, header(), ADDRESSES, rows).unwrap();
        let page: [u8; 4096] = page.try_into().unwrap();
        assert_eq!(boot_params::from(page), filled(rows));
        assert_eq!(
            boot_params::built(header(), ADDRESSES, rows),
            Ok(filled(rows))
        );
        let found = read(&page).unwrap();
        let wanted = Page {
            setup_header: filled(rows).hdr,
            addresses: ADDRESSES,
            rows: rows.to_vec(),
        };
        assert_eq!(found, wanted);
    }
}

#[test]
fn a_refusal_leaves_the_page() {
    let top = u64::MAX;
    let refused = [
        (Refusal::BadPageSize, 4095, vec![]),
        (Refusal::BadPageSize, 4097, vec![row(0, 0); 129]),
        (Refusal::TooManyRows, 4096, vec![row(0, 0); 129]),
        (Refusal::BadRow, 4096, vec![row(7, 0)]),
        (Refusal::BadRow, 4096, vec![row(top, 1)]),
        (Refusal::BadRow, 4096, vec![row(0, 2), row(9, 1), row(1, 1)]),
    ];
    for (refusal, size, rows) in refused {
        let mut page = fresh(size);
        let answer = build(&mut page, header(), ADDRESSES, &rows);
        assert_eq!(answer, Err(refusal));
        assert_eq!(page, fresh(size));
    }
}

#[test]
fn any_page_is_read_as_it_stands() {
    let mut page = fresh(4096);
    page[0x1e8] = 128;
    let found = read(&page).unwrap();
    let params = boot_params::from(<[u8; 4096]>::try_from(page.clone()).unwrap());
    assert_eq!(found.rows, { params.e820_table });
    assert_eq!(found.setup_header, { params.hdr });
    assert_eq!(found.addresses.command_line, { params.hdr.cmd_line_ptr });
    assert_eq!(found.addresses.ramdisk, { params.hdr.ramdisk_image });
    assert_eq!(found.addresses.ramdisk_size, { params.hdr.ramdisk_size });
    page[0x1e8] = 129;
    assert_eq!(read(&page), Err(Refusal::TooManyRows));
    assert_eq!(read(&page[1..]), Err(Refusal::BadPageSize));
}
