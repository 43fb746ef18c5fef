//! Refusals of an arm64 load.

use rekusoyen::Refusal;

use super::{more_guest, Explained, Looks};
use crate::arguments::Load;
use crate::load::base_of;
use crate::report::Arm64Header;

const HEADER: usize = 64;
const MAGIC: usize = 56;
const ALIGNMENT: u64 = 2 << 20;

pub fn explain(refusal: Refusal, image: &[u8], asked: &Load) -> Option<Explained> {
    let header = Arm64Header::of(image);
    let (base, start) = (base_of(asked).0, header.start(asked));
    let sum = format!(
        "the base {base:#x} and the text offset {:#x}",
        header.text_offset
    );
    match refusal {
        Refusal::ShortImage => Some(Looks::of(image).explain(
            format!(
                "the image has {} bytes, and the header of an arm64 Image has {HEADER}",
                image.len()
            ),
            asked.format,
        )),
        Refusal::BadImageMagic => Some(Looks::of(image).explain(
            format!("at {MAGIC:#x} there is no 'ARM\\x64' of an arm64 Image"),
            asked.format,
        )),
        Refusal::BigEndianImage => Some(Explained::new(format!(
            "bit 0 of its flags, {:#x}, is 1: its kernel is big-endian",
            header.flags
        ))),
        Refusal::NoImageSize => Some(Explained::new(
            "its image size is 0: a kernel before Linux 3.17, which says none".to_string(),
        )),
        Refusal::UnalignedBase => Some(Explained::advise(
            format!("the base {base:#x} is not a multiple of {ALIGNMENT:#x}"),
            format!("--base {:#x}", base - base % ALIGNMENT),
        )),
        Refusal::ImageStartWraps => Some(Explained::advise(
            format!("{sum} add up to 2^64 or more"),
            "a lower --base".to_string(),
        )),
        Refusal::NoRoomForImage => {
            let end = start + image.len() as u128;
            let advice = more_guest(end).map_or(String::new(), |guest| guest + ", or ");
            Some(Explained::advise(
                format!(
                    "the file's {} bytes go to guest {start:#x} to {end:#x}, and guest memory ends at {:#x}",
                    image.len(),
                    asked.guest
                ),
                advice + "another --base",
            ))
        }
        Refusal::ImageEndWraps => Some(Explained::new(format!(
            "{sum} and the image size {:#x} add up to 2^64 or more",
            header.image_size
        ))),
        _ => None,
    }
}
