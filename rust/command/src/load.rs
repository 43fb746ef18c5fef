//! A load as the command does it: the image, then the line.

use rekusoyen::boot::line_check;
use rekusoyen::cmdline::Cmdline;
use rekusoyen::loader::arm64::Image;
use rekusoyen::loader::elf::PvhNote;
use rekusoyen::loader::{
    self, load_cmdline_into, BzImage, Elf, KernelLoaderResult, Step, StepError,
};
use rekusoyen::{GuestAddress, Map, Refusal};
use std::num::NonZeroU64;

use crate::arguments::{Format, Load};

/// The capacity of the command line: the greatest there is.
pub const CAPACITY: usize = rekusoyen::entry::LIMIT;

/// How many bytes of an image are copied between two words about how far the load is.
const PORTION: u64 = 1 << 20;

/// What an accepted load did.
pub struct Loaded {
    pub format: Format,
    pub kernel: KernelLoaderResult,
    /// The note that the PVH entry was read from, if there is one.
    pub note: Option<PvhNote>,
    /// Where the command line went, if there is one.
    pub line: Option<PutLine>,
}

/// A command line in guest memory.
pub struct PutLine {
    pub at: GuestAddress,
    /// Its bytes, the zero counted.
    pub size: u64,
    /// Whether it has more than the kernel takes.
    pub is_too_long: bool,
}

/// What was refused.
#[derive(Debug)]
pub struct Refused {
    pub refusal: Refusal,
    pub format: Format,
    /// Where the command line was to go, if it was refused and not the image.
    pub line_at: Option<GuestAddress>,
}

/// The loader that an image is for: by its magic number, or else ELF, whose refusals say what is missing.
pub fn format_of(image: &[u8], asked: Format) -> Format {
    match (asked, loader::Format::of(image)) {
        (Format::Auto, Some(loader::Format::BzImage)) => Format::BzImage,
        (Format::Auto, Some(loader::Format::Arm64)) => Format::Arm64,
        (Format::Auto, _) => Format::Elf,
        (given, _) => given,
    }
}

/// Loads the image in portions, and the line behind it or where it was told to go. `copied` hears after each portion but the last how many
/// bytes were copied by then.
pub fn load(
    guest: &mut [u8],
    image: &[u8],
    asked: &Load,
    copied: impl FnMut(u64),
) -> Result<Loaded, Refused> {
    let format = format_of(image, asked.format);
    let refused = |line_at| {
        move |refusal| Refused {
            refusal,
            format,
            line_at,
        }
    };
    let (offset, highmem) = (asked.offset, asked.highmem);
    let (map, budget) = (Map::whole(guest.len()), NonZeroU64::new(PORTION));
    let budget = budget.expect("a portion has bytes");
    let loaded = match format {
        Format::BzImage => {
            let portions = BzImage::load_in_portions(guest, &map, offset, image, highmem, budget);
            answered(portions, copied).map(|kernel| (kernel, None))
        }
        Format::Arm64 => {
            let portions = Image::load_in_portions(guest, &map, base_of(asked), image, budget);
            answered(portions, copied).map(|kernel| (kernel, None))
        }
        _ => {
            let portions = Elf::load_in_portions(guest, &map, offset, image, highmem, budget);
            answered(portions, copied)
        }
    };
    let (kernel, note) = loaded.map_err(refused(None))?;
    let line = match &asked.cmdline {
        None => None,
        Some(text) => {
            let at = asked.at.unwrap_or(GuestAddress(kernel.kernel_end));
            let line = put_line(guest, at, text).map_err(refused(Some(at)))?;
            Some(PutLine {
                at,
                size: line
                    .as_cstring()
                    .map_or(0, |text| text.as_bytes_with_nul().len() as u64),
                is_too_long: line_check(image_format(format), image, None, &line).is_err(),
            })
        }
    };
    Ok(Loaded {
        format,
        kernel,
        note,
        line,
    })
}

/// The answer of a load in portions.
fn answered<T>(
    portions: impl Iterator<Item = Result<Step<T>, StepError>>,
    mut copied: impl FnMut(u64),
) -> Result<T, Refusal> {
    let mut so_far = 0;
    for step in portions {
        let step = step.map_err(StepError::refusal)?;
        so_far += step.copied;
        match step.answer {
            Some(answer) => return answer.map_err(refusal_of),
            None => copied(so_far),
        }
    }
    unreachable!("the last step answers")
}

/// The base of an arm64 load.
pub fn base_of(asked: &Load) -> GuestAddress {
    asked.base.unwrap_or(GuestAddress(0))
}

/// Puts a line into guest memory.
fn put_line(guest: &mut [u8], at: GuestAddress, text: &str) -> Result<Cmdline, Refusal> {
    let line = Cmdline::try_from(text, CAPACITY).map_err(|error| error.refusal())?;
    load_cmdline_into(guest, at, &line).map_err(refusal_of)?;
    Ok(line)
}

/// The format of an image that is loaded.
pub fn image_format(format: Format) -> loader::Format {
    match format {
        Format::BzImage => loader::Format::BzImage,
        Format::Arm64 => loader::Format::Arm64,
        _ => loader::Format::Elf,
    }
}

fn refusal_of(error: loader::Error) -> Refusal {
    error
        .refusal()
        .expect("over bytes every error stands for a refusal")
}

#[cfg(test)]
mod tests {
    use super::*;
    use crate::arguments::Format;

    #[test]
    fn each_portion_but_the_last_is_told() {
        let mut image = vec![7; 1024 + 2 * PORTION as usize + 1];
        for (place, byte) in [(0x1f1, 1), (0x207, 2), (0x211, 1)] {
            image[place] = byte;
        }
        image[0x202..0x206].copy_from_slice(b"HdrS");
        image[0x214..0x218].fill(0);
        let mut guest = vec![0; 4 * PORTION as usize];
        let mut told = Vec::new();
        let asked = Load {
            format: Format::BzImage,
            ..Load::default()
        };
        let loaded = load(&mut guest, &image, &asked, |bytes| told.push(bytes));
        let kernel = loaded.expect("there is room").kernel;
        assert_eq!(told, [PORTION, 2 * PORTION]);
        assert_eq!(kernel.kernel_end, 2 * PORTION + 1);
        assert_eq!(guest[..kernel.kernel_end as usize], image[1024..]);
    }
}
