//! Whole boots. A question has the twelve numbers of a boot as one list; the library has an entry point for each way to
//! enter a kernel, whose parameters have the widths that the list is checked for here.

use crate::entry;
use crate::ffi::call;
use crate::loads::{pvh, UNTOUCHED};
use crate::outcome;
use driver::answer::{Answer, Booted};
use driver::backend::Reply;
use driver::question::{at, Boot};

const BAD_LIST: u32 = 61;

/// The number that the library answers, or BAD_LIST for a list that its parameters cannot hold.
fn ask(asked: &Boot, map: &[u64], guest: &mut [u8], booted: &mut [u64]) -> u32 {
    let list = &asked.list;
    if list.len() != at::RESERVED + 1
        || booted.len() != entry::BOOTED_NUMBERS
        || list[at::RESERVED] != 0
    {
        return BAD_LIST;
    }
    // no format has the number 0, and no line is as long as the greatest limit
    let format = u32::try_from(list[at::FORMAT]).unwrap_or(0);
    let limit = u32::try_from(list[at::LIMIT]).unwrap_or(u32::MAX);
    let given = list[at::FLAGS] as u32 & (entry::OFFSET_GIVEN | entry::HIGHMEM_GIVEN);
    let limited = u32::from(list[at::HAS_LIMIT] != 0) * entry::LIMIT_GIVEN;
    let (offset, highmem) = (list[at::OFFSET], list[at::HIGHMEM]);
    let narrow = |index: usize| u32::try_from(list[index]);
    match list[at::ENTRY] {
        kind @ (1 | 2) => {
            let wide = u32::from(kind == 2) * entry::ENTRY_64_BIT;
            let (Ok(line), Ok(ramdisk), Ok(page)) =
                (narrow(at::LINE), narrow(at::RAMDISK), narrow(at::DATA))
            else {
                return BAD_LIST;
            };
            call!(rekusoyen_raw_boot_zero_page(
                mut guest, in map, in &asked.image, format, given | limited | wide, offset, highmem, limit,
                in &asked.text, in &asked.init, in &asked.ramdisk, in &asked.rows, line, ramdisk, page, mut booted
            ))
        }
        3 => {
            let Ok(block) = narrow(at::DATA) else {
                return BAD_LIST;
            };
            call!(rekusoyen_raw_boot_pvh(
                mut guest, in map, in &asked.image, format, given | limited, offset, highmem, limit, in &asked.text,
                in &asked.init, in &asked.ramdisk, in &asked.rows, list[at::LINE], list[at::RAMDISK], block,
                list[at::RSDP], mut booted
            ))
        }
        4 => call!(rekusoyen_raw_boot_tree(
            mut guest, in map, in &asked.image, format, given | limited, offset, highmem, limit, in &asked.text,
            in &asked.ramdisk, in &asked.tree, list[at::LINE], list[at::RAMDISK], list[at::DATA], mut booted
        )),
        _ => BAD_LIST,
    }
}

pub fn boot(asked: &Boot, map: &[u64]) -> Reply {
    let mut guest = asked.guest.clone();
    let mut booted = vec![UNTOUCHED; asked.answers as usize];
    let number = ask(asked, map, &mut guest, &mut booted);
    let outcome = match (outcome(number, || ()), &booted[..]) {
        (Ok(()), &[load, end, code, address, place, size, entry]) => Ok(Booted {
            load,
            end,
            pvh: pvh(code, address, place, size),
            entry,
        }),
        // a refusal leaves the answer as it is
        (Err(number), numbers) if numbers.iter().all(|number| *number == UNTOUCHED) => Err(number),
        _ => return Reply::Failed(format!("answered {number}, and left {booted:?}")),
    };
    Reply::Answer(Answer::Boot { outcome, guest })
}
