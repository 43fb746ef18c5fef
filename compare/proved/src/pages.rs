//! Boot pages.

use crate::ffi::call;
use crate::outcome;
use driver::answer::{Answer, PageFound};
use driver::question::{PageBuild, PageRead};
use rekusoyen::entry;

pub fn build(build: &PageBuild) -> Answer {
    let mut page = build.page.clone();
    let (header, rows) = (&build.header[..], &build.numbers[..]);
    let number = call!(rekusoyen_page_build(
        mut &mut page, in header, build.command_line, build.ramdisk, build.ramdisk_size, in rows
    ));
    let outcome = outcome(number, || ());
    Answer::PageBuild { outcome, page }
}

pub fn read(read: &PageRead) -> Answer {
    let page = read.page();
    let mut out = [7u64; entry::PAGE_NUMBERS];
    let mut rows = [7u64; entry::PAGE_READ_ROWS];
    let mut header = [7u8; entry::SETUP_HEADER_SIZE];
    let number = call!(rekusoyen_raw_page_read(
        in &page, mut &mut out, mut &mut rows, mut &mut header
    ));
    let told = outcome(number, || {
        let numbers = 3 * out[0] as usize;
        assert!(rows[numbers..].iter().all(|number| *number == 7));
        let [_, command_line, ramdisk, ramdisk_size] = out.map(|number| number as u32);
        PageFound {
            command_line,
            ramdisk,
            ramdisk_size,
            header: header.to_vec(),
            numbers: rows[..numbers].to_vec(),
        }
    });
    Answer::PageRead(told)
}
