//! What a refusal was about, for the person who has the image in hand. The library answers a number; which segment, note or field it
//! meant is found by reading the image's headers once more, which is not proved. It is found by the refusal's own condition, so that it
//! is never another one's; where none is found, only what the refusal means is said.

mod arm64;
mod bzimage;
pub mod elf;
mod line;

use rekusoyen::{loader, Refusal};

use crate::arguments::{Format, Load};
use crate::load::Refused;

/// What was wrong, and what to try if something can be.
#[derive(Debug, PartialEq)]
pub struct Explained {
    pub about: String,
    pub advice: Option<String>,
}

impl Explained {
    fn new(about: String) -> Explained {
        let advice = None;
        Explained { about, advice }
    }

    fn advise(about: String, advice: String) -> Explained {
        let advice = Some(advice);
        Explained { about, advice }
    }
}

/// Explains why a load was refused, by one of the three loaders, or the line behind it.
pub fn explain(refused: &Refused, image: &[u8], asked: &Load) -> Explained {
    let refusal = refused.refusal;
    let found = match (refusal, refused.line_at) {
        (Refusal::SliceTooLong, _) => too_long(image, asked),
        (_, Some(at)) => line::explain(refusal, at, asked),
        _ if refused.format == Format::BzImage => bzimage::explain(refusal, image, asked),
        _ if refused.format == Format::Arm64 => arm64::explain(refusal, image, asked),
        _ => elf::explain(refusal, image, asked),
    };
    found.unwrap_or_else(|| Explained::new(refusal.sentence().to_string()))
}

/// The greatest length of an image and of guest memory.
const LONGEST: u64 = 1 << 40;

fn too_long(image: &[u8], asked: &Load) -> Option<Explained> {
    if asked.guest > LONGEST {
        let about = format!(
            "guest memory has {} bytes, and at most {LONGEST} are taken",
            asked.guest
        );
        return Some(Explained::advise(about, "--guest 1T or less".to_string()));
    }
    let about = format!(
        "the image has {} bytes, and at most {LONGEST} are taken",
        image.len()
    );
    (image.len() as u64 > LONGEST).then(|| Explained::new(about))
}

/// As much guest memory as something needs, if so much can be had.
fn more_guest(end: u128) -> Option<String> {
    (end <= LONGEST.into()).then(|| format!("--guest {end:#x} or more"))
}

/// What an image looks like by its first bytes.
#[derive(Clone, Copy, PartialEq)]
enum Looks {
    Elf,
    BzImage,
    Arm64,
    Packed(&'static str),
    Unknown,
}

impl Looks {
    fn of(image: &[u8]) -> Looks {
        let packed: [(&[u8], _); 3] = [
            (b"\x1f\x8b", "a gzip file"),
            (b"\xfd7zXZ\0", "an xz file"),
            (b"\x28\xb5\x2f\xfd", "a zstd file"),
        ];
        match loader::Format::of(image) {
            Some(loader::Format::Elf) => Looks::Elf,
            Some(loader::Format::BzImage) => Looks::BzImage,
            Some(loader::Format::Arm64) => Looks::Arm64,
            None => {
                let found = packed.iter().find(|row| image.starts_with(row.0));
                found.map_or(Looks::Unknown, |row| Looks::Packed(row.1))
            }
        }
    }

    /// An image that is not of the format that was asked for.
    fn explain(self, about: String, asked: Format) -> Explained {
        let forced = match asked {
            Format::Auto => None,
            Format::Elf => Some((Looks::Elf, "elf")),
            Format::BzImage => Some((Looks::BzImage, "bzimage")),
            Format::Arm64 => Some((Looks::Arm64, "arm64")),
        };
        let what = match self {
            Looks::Elf => "an ELF image",
            Looks::BzImage => "a bzImage",
            Looks::Arm64 => "an arm64 Image",
            Looks::Packed(what) => what,
            Looks::Unknown => return Explained::new(about),
        };
        match (self, forced) {
            (Looks::Packed(_), _) => Explained::advise(
                format!("{about}: it looks like {what}"),
                "to unpack it first".to_string(),
            ),
            (looks, Some((forced, name))) if looks != forced => Explained::advise(
                format!("{about}: it looks like {what}"),
                format!("without --format {name}"),
            ),
            _ => Explained::new(about),
        }
    }
}

#[cfg(test)]
mod tests {
    use super::*;
    use crate::load::{format_of, load};
    use crate::{built_in, input};
    use rekusoyen::GuestAddress;
    use std::collections::BTreeMap;

    fn next(seed: &mut u64) -> u64 {
        *seed = seed
            .wrapping_mul(6364136223846793005)
            .wrapping_add(1442695040888963407);
        *seed >> 33
    }

    fn pick<T: Copy>(seed: &mut u64, from: &[T]) -> T {
        from[next(seed) as usize % from.len()]
    }

    fn put(image: &mut [u8], place: usize, number: u64, width: usize) {
        let bytes = number.to_le_bytes();
        if let Some(at) = image.get_mut(place..place + width) {
            at.copy_from_slice(&bytes[..width]);
        }
    }

    /// The built-in ELF image with a second pair of its program headers, and some of its numbers at their limits.
    fn elf(seed: &mut u64) -> Vec<u8> {
        let mut image = built_in::image();
        let headers = image[64..64 + 112].to_vec();
        image.splice(64 + 112..64 + 112, headers);
        put(&mut image, 56, 4, 2);
        for header in [64, 120, 176, 232] {
            // the bytes of all four stand behind four headers now
            let place = number_at(&image, header + 8) + 112;
            put(&mut image, header + 8, place, 8);
        }
        let limits = [
            0,
            1,
            5,
            16,
            24,
            32,
            47,
            56,
            63,
            64,
            1 << 20,
            u64::MAX - 20,
            u64::MAX,
        ];
        let fields = [(32, 8), (24, 8), (54, 2), (56, 2), (5, 1), (0, 1)];
        let of_header = [(0, 4), (8, 8), (24, 8), (32, 8), (40, 8)];
        for _ in 0..next(seed) % 3 {
            let header = 64 + 56 * (next(seed) as usize % 4);
            let note = 64 + 224 + 6;
            let (place, width) = match next(seed) % 8 {
                0 => pick(seed, &fields),
                1 => (note + pick(seed, &[0, 4, 8, 12]), 4),
                _ => {
                    let (place, width) = pick(seed, &of_header);
                    (header + place, width)
                }
            };
            put(&mut image, place, pick(seed, &limits), width);
        }
        if next(seed) % 8 == 0 {
            image.truncate(next(seed) as usize % image.len());
        }
        image
    }

    fn number_at(image: &[u8], place: usize) -> u64 {
        crate::report::number(image, place, 8)
    }

    fn bzimage(seed: &mut u64) -> Vec<u8> {
        let mut image = vec![0; 1027];
        image[0x1f1] = 1;
        image[0x202..0x206].copy_from_slice(b"HdrS");
        put(&mut image, 0x206, 0x20f, 2);
        image[0x211] = 1;
        put(&mut image, 0x214, 16, 4);
        if next(seed) % 2 == 0 {
            let (place, width) = pick(
                seed,
                &[(0x1f1, 1), (0x202, 4), (0x206, 2), (0x211, 1), (0x214, 4)],
            );
            put(
                &mut image,
                place,
                pick(seed, &[0, 1, 2, 5, 0x1ff, 0x200, u64::MAX]),
                width,
            );
        }
        if next(seed) % 4 == 0 {
            image.truncate(pick(
                seed,
                &[0, 3, 64, 0x204, 0x210, 0x400, 1023, 1024, 1025],
            ));
        }
        image
    }

    fn arm64(seed: &mut u64) -> Vec<u8> {
        let mut image = vec![0; 67];
        image[56..60].copy_from_slice(b"ARM\x64");
        put(&mut image, 16, 100, 8);
        for _ in 0..next(seed) % 3 {
            let (place, width) = pick(seed, &[(8, 8), (16, 8), (24, 8), (56, 4)]);
            let limits = [0, 1, 2 << 20, u64::MAX - 20, u64::MAX];
            put(&mut image, place, pick(seed, &limits), width);
        }
        if next(seed) % 4 == 0 {
            image.truncate(pick(seed, &[0, 3, 59, 60, 63, 64]));
        }
        image
    }

    fn question(seed: &mut u64) -> (Vec<u8>, Load) {
        let image = match next(seed) % 6 {
            0 | 1 => bzimage(seed),
            2 => arm64(seed),
            _ => elf(seed),
        };
        let addresses = [
            None,
            None,
            None,
            Some(0),
            Some(1),
            Some(16),
            Some(40),
            Some(u64::MAX),
        ];
        let mut address = || pick(seed, &addresses).map(GuestAddress);
        let (offset, highmem, at) = (address(), address(), address());
        let guest = pick(seed, &[0, 18, 19, 37, 38, 48, 54, 64, 80]);
        let line = pick(
            seed,
            &[None, Some("quiet"), Some(" -- single"), Some("a\0b")],
        );
        let format = pick(
            seed,
            &[
                Format::Auto,
                Format::Auto,
                Format::Auto,
                Format::Elf,
                Format::BzImage,
                Format::Arm64,
            ],
        );
        let bases = [
            None,
            None,
            Some(0),
            Some(1),
            Some((2u64 << 20).wrapping_neg()),
        ];
        let base = pick(seed, &bases).map(GuestAddress);
        let asked = Load {
            guest,
            offset,
            base,
            highmem,
            cmdline: line.map(str::to_string),
            at,
            format,
            verbose: false,
        };
        (image, asked)
    }

    fn answer(image: &[u8], asked: &Load) -> Result<(), Refused> {
        let mut guest = input::Guest::new(asked.guest).unwrap();
        load(guest.bytes(), image, asked, |_| {}).map(|_| ())
    }

    /// A segment that is named is the first that is refused: with those before it alone the image is accepted, and with it refused.
    fn is_the_first(refused: &Refused, image: &[u8], asked: &Load, about: &str) {
        let Some(rest) = about.strip_prefix("segment ") else {
            return;
        };
        let digits = rest.split(|c: char| !c.is_ascii_digit()).next().unwrap();
        let segment: u64 = digits.parse().unwrap();
        let with = |count: u64| {
            let mut image = image.to_vec();
            put(&mut image, 56, count, 2);
            let asked = Load {
                cmdline: None,
                at: None,
                ..asked.clone()
            };
            answer(&image, &asked).map_err(|refused| refused.refusal)
        };
        assert_eq!(with(segment), Ok(()), "{about}");
        assert_eq!(with(segment + 1), Err(refused.refusal), "{about}");
    }

    /// On some hundred thousand damaged images each refusal is explained by its own condition, and the advice on guest memory is good.
    #[test]
    fn every_refusal_is_explained() {
        let mut seed = 3;
        let mut reached = BTreeMap::new();
        for _ in 0..150_000 {
            let (image, asked) = question(&mut seed);
            let Err(refused) = answer(&image, &asked) else {
                continue;
            };
            assert_eq!(refused.format, format_of(&image, asked.format));
            let explained = explain(&refused, &image, &asked);
            let refusal = refused.refusal;
            assert_ne!(
                explained.about,
                refusal.sentence(),
                "{refusal:?} {image:x?} {asked:?}"
            );
            *reached.entry(refusal.number()).or_insert(0) += 1;
            if refused.line_at.is_none() {
                is_the_first(&refused, &image, &asked, &explained.about);
            }
            advice_is_good(&image, &asked, &explained);
        }
        let numbers: Vec<u32> = reached.keys().copied().collect();
        let wanted: Vec<u32> = (1..=14)
            .chain(21..=24)
            .chain(31..=32)
            .chain(81..=88)
            .collect();
        assert_eq!(numbers, wanted, "{reached:?}");
    }

    /// With as much guest memory as is advised the load is accepted, or refused for something else; with less it is not. With the offset
    /// that is advised no note refuses it.
    fn advice_is_good(image: &[u8], asked: &Load, explained: &Explained) {
        let advice = explained.advice.as_deref().unwrap_or_default();
        if advice.starts_with("--offset 0,") {
            let offset = Some(GuestAddress(0));
            let asked = Load {
                offset,
                ..asked.clone()
            };
            let said = answer(image, &asked).map_err(|refused| refused.refusal);
            let by_notes = [
                Refusal::ReadNoteHeader,
                Refusal::InvalidPvhNote,
                Refusal::Overflow,
            ];
            assert!(
                by_notes.iter().all(|refusal| said != Err(*refusal)),
                "{explained:?}"
            );
        }
        let Some(rest) = advice.strip_prefix("--guest 0x") else {
            return;
        };
        let digits = rest.split(' ').next().unwrap();
        let Ok(size) = u64::from_str_radix(digits, 16) else {
            return;
        };
        let with = |guest: u64| {
            let asked = Load {
                guest,
                ..asked.clone()
            };
            answer(image, &asked).map_err(|refused| explain(&refused, image, &asked).about)
        };
        if size <= 1 << 30 {
            let said = with(size);
            assert!(said.as_ref() != Err(&explained.about), "{explained:?}");
            assert!(with(size - 1).is_err(), "{explained:?}");
        }
    }
}
