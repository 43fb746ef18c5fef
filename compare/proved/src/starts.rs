//! Start blocks.

use crate::ffi::call;
use crate::outcome;
use driver::answer::{Answer, StartFound};
use driver::question::{StartCheck, StartWrite};
use rekusoyen::entry;

pub fn write(write: &StartWrite) -> Answer {
    let mut guest = write.guest.clone();
    let number = call!(rekusoyen_start_write(
        mut &mut guest, in &write.map, write.block, write.modules_at, write.ranges_at, write.flags,
        write.command_line, write.rsdp, in &write.modules, in &write.ranges
    ));
    let outcome = outcome(number, || ());
    Answer::StartWrite { outcome, guest }
}

pub fn check(check: &StartCheck) -> Answer {
    let guest = &check.guest[..];
    let number = call!(rekusoyen_start_check(in guest, in &check.map, check.block));
    let told = outcome(number, || {
        let mut block = vec![7; entry::START_BLOCK_NUMBERS];
        call!(rekusoyen_raw_start_block(in guest, check.block, mut &mut block));
        let mut modules = vec![7; 4 * block[3] as usize];
        call!(rekusoyen_start_modules(in guest, block[4], mut &mut modules));
        let mut ranges = vec![7; 4 * block[8] as usize];
        call!(rekusoyen_start_ranges(in guest, block[7], mut &mut ranges));
        StartFound {
            block,
            modules,
            ranges,
        }
    });
    Answer::StartCheck(told)
}
