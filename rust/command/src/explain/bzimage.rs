//! Refusals of a bzImage load.

use rekusoyen::Refusal;

use super::{more_guest, Explained, Looks};
use crate::arguments::Load;
use crate::report::{number, Setup};

const MAGIC: usize = 0x202;
const VERSION: usize = 0x206;
const LOADFLAGS: usize = 0x211;

pub fn explain(refusal: Refusal, image: &[u8], asked: &Load) -> Option<Explained> {
    let setup = Setup::of(image);
    match refusal {
        Refusal::InvalidBzImage => invalid(image, asked),
        Refusal::Underflow => Some(Explained::new(format!(
            "its setup has {} bytes, by setup_sects at 0x1f1, and the image has {}",
            setup.size,
            image.len()
        ))),
        Refusal::InvalidKernelStartAddress => {
            let (start, highmem) = (setup.code32_start, asked.highmem?.0);
            Some(Explained::advise(
                format!("code32_start is {start:#x}, below the start of high memory, {highmem:#x}"),
                format!("--highmem {start:#x} or lower, or none"),
            ))
        }
        Refusal::ReadBzImageCompressedKernel => {
            let size = (image.len() as u64).checked_sub(setup.size)?;
            let start = asked.offset.map_or(setup.code32_start, |offset| offset.0);
            let end = u128::from(start) + u128::from(size);
            let advice = more_guest(end).map_or(String::new(), |guest| guest + ", or ");
            Some(Explained::advise(
                format!(
                    "the kernel's {size} bytes go to guest {start:#x} to {end:#x}, and guest memory ends at {:#x}",
                    asked.guest
                ),
                advice + "another --offset",
            ))
        }
        _ => None,
    }
}

/// The first of the three tests that fails.
fn invalid(image: &[u8], asked: &Load) -> Option<Explained> {
    let version = Setup::of(image).version;
    if image.get(MAGIC..MAGIC + 4) != Some(b"HdrS") {
        let about = if image.len() < MAGIC + 4 {
            format!(
                "the image has {} bytes, and 'HdrS' of a bzImage stands at {MAGIC:#x}",
                image.len()
            )
        } else {
            format!("at {MAGIC:#x} there is no 'HdrS' of a bzImage")
        };
        return Some(Looks::of(image).explain(about, asked.format));
    }
    let about = if version < 0x200 {
        format!(
            "its boot protocol at {VERSION:#x} is {}.{:02}, and 2.00 is needed",
            version >> 8,
            version & 0xff
        )
    } else if number(image, LOADFLAGS, 1) & 1 == 0 {
        format!("bit 0 of loadflags at {LOADFLAGS:#x} is 0: its kernel is not loaded high")
    } else {
        return None;
    };
    Some(Explained::new(about))
}
