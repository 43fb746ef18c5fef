//! Refusals of the command line.

use rekusoyen::cmdline::Cmdline;
use rekusoyen::{GuestAddress, Refusal};

use super::{more_guest, Explained};
use crate::arguments::Load;
use crate::load::CAPACITY;

/// Explains why a line was not put to an address.
pub fn explain(refusal: Refusal, at: GuestAddress, asked: &Load) -> Option<Explained> {
    let text = asked.cmdline.as_deref()?;
    match refusal {
        Refusal::InvalidCapacity => Some(Explained::new(format!(
            "the command line of {} bytes takes more than {CAPACITY}, its zero counted",
            text.len()
        ))),
        Refusal::InvalidCommandLine if text.contains('\0') => Some(Explained::new(
            "the command line has a zero byte".to_string(),
        )),
        Refusal::InvalidCommandLine => Some(Explained::advise(
            "the command line has init arguments alone: nothing stands before its ' -- '"
                .to_string(),
            "a boot argument before it, as in 'quiet -- single'".to_string(),
        )),
        Refusal::CommandLineOverflow => {
            let line = Cmdline::try_from(text, CAPACITY).ok()?.as_cstring().ok()?;
            let size = line.as_bytes_with_nul().len();
            let end = u128::from(at.0) + size as u128;
            let advice = more_guest(end).map_or(String::new(), |guest| guest + ", or ");
            Some(Explained::advise(
                format!(
                    "the command line's {size} bytes go to guest {:#x} to {end:#x}, and guest memory ends at {:#x}",
                    at.0, asked.guest
                ),
                advice + "a lower --at",
            ))
        }
        _ => None,
    }
}
