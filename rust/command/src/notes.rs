//! A walk over the notes of an image, for showing them. A load takes its own way, in the library; the tests hold the two together.

/// A note that was passed over, or the PVH note.
#[derive(Debug, PartialEq)]
pub struct Note {
    pub name: String,
    pub kind: u32,
    /// Where its descriptor begins in the image, and the size that its header gives.
    pub descriptor: u128,
    pub descriptor_size: u32,
}

/// Why a walk ended.
#[derive(Debug, PartialEq)]
pub enum Stop {
    /// No note begins within the size.
    End,
    /// At the PVH note, which gives this address.
    Found(u32),
    /// A part of the note passes the image, and would end here.
    Passes { what: &'static str, end: u128 },
    /// A size that cannot be rounded up.
    Size { what: &'static str, size: u32 },
    /// The PVH note's descriptor is too short, of this size.
    Short(u32),
}

/// The notes that were read whole, where the walk ended, and why.
#[derive(Debug, PartialEq)]
pub struct Walked {
    pub notes: Vec<Note>,
    pub place: u128,
    pub stop: Stop,
}

/// The number of the note that holds the PVH entry.
const PVH: u32 = 18;
/// The greatest size that can be rounded up to 4 within 32 bits.
const GREATEST: u32 = 0xffff_fffc;

pub fn walk(image: &[u8], p_offset: u64, p_filesz: u64) -> Walked {
    let mut notes = Vec::new();
    let start = u128::from(p_offset);
    let mut place = start;
    loop {
        let stop = if place - start >= u128::from(p_filesz) {
            Err(Stop::End)
        } else {
            note_at(image, place)
        };
        match stop {
            Ok((note, end)) => {
                notes.push(note);
                place = end;
            }
            Err(stop) => {
                if let Stop::Found(_) = stop {
                    notes.push(Note {
                        name: "Xen".to_string(),
                        kind: PVH,
                        descriptor: place + 16,
                        descriptor_size: u32_at(image, place + 4).unwrap_or(0),
                    });
                }
                return Walked { notes, place, stop };
            }
        }
    }
}

/// The note at a place and where the next one begins, or why the walk ends there.
fn note_at(image: &[u8], place: u128) -> Result<(Note, u128), Stop> {
    let within = |what: &'static str, end: u128| {
        if end > image.len() as u128 {
            Err(Stop::Passes { what, end })
        } else {
            Ok(())
        }
    };
    within("header", place + 12)?;
    let field = |at: u128| u32_at(image, place + at).unwrap_or(0);
    let (name_size, descriptor_size, kind) = (field(0), field(4), field(8));
    let name_end = place + 12 + u128::from(name_size);
    if kind == PVH && name_size == 4 {
        within("name", name_end)?;
        if bytes_at(image, place + 12, 4) == b"Xen\0" {
            if descriptor_size < 4 {
                return Err(Stop::Short(descriptor_size));
            }
            within("descriptor", name_end + 4)?;
            return Err(Stop::Found(u32_at(image, name_end).unwrap_or(0)));
        }
    }
    for (what, size) in [
        ("name's size", name_size),
        ("descriptor's size", descriptor_size),
    ] {
        if size > GREATEST {
            return Err(Stop::Size { what, size });
        }
    }
    let name = bytes_at(image, place + 12, name_size as usize);
    let name = name.split(|byte| *byte == 0).next().unwrap_or_default();
    let rounded = |size: u32| u128::from(size).next_multiple_of(4);
    let descriptor = place + 12 + rounded(name_size);
    let note = Note {
        name: name.escape_ascii().to_string(),
        kind,
        descriptor,
        descriptor_size,
    };
    Ok((note, descriptor + rounded(descriptor_size)))
}

/// Up to so many bytes at a place, as far as the image has them.
fn bytes_at(image: &[u8], place: u128, count: usize) -> &[u8] {
    let rest = usize::try_from(place)
        .ok()
        .and_then(|place| image.get(place..));
    let rest = rest.unwrap_or_default();
    &rest[..count.min(rest.len())]
}

fn u32_at(image: &[u8], place: u128) -> Option<u32> {
    bytes_at(image, place, 4)
        .try_into()
        .ok()
        .map(u32::from_le_bytes)
}

#[cfg(test)]
mod tests {
    use super::*;
    use rekusoyen::loader::elf::{notes, PvhBootCapability, PvhNote};
    use rekusoyen::{GuestAddress, Refusal};

    fn next(seed: &mut u64) -> u64 {
        *seed = seed
            .wrapping_mul(6364136223846793005)
            .wrapping_add(1442695040888963407);
        *seed >> 33
    }

    /// A few notes, with bytes cut off and numbers at their limits.
    fn image(seed: &mut u64) -> Vec<u8> {
        let mut image = Vec::new();
        for _ in 0..=next(seed) % 3 {
            let sizes = [0, 1, 3, 4, 4, 4, 5, GREATEST, GREATEST + 1, u32::MAX];
            let name_size = sizes[(next(seed) % 10) as usize];
            let descriptor_size = sizes[(next(seed) % 10) as usize];
            let kind = [PVH, PVH, 1][(next(seed) % 3) as usize];
            for number in [name_size, descriptor_size, kind] {
                image.extend(number.to_le_bytes());
            }
            image.extend([&b"Xen\0"[..], b"Xem\0", b"GNU\0"][(next(seed) % 3) as usize]);
            image.extend(u32::to_le_bytes(next(seed) as u32));
        }
        let cut = next(seed) as usize % (image.len() + 8);
        image.truncate(cut);
        image
    }

    /// On some hundred thousand images the walk ends where the library's does, and for its reason.
    #[test]
    fn the_walk_is_the_library_s() {
        let mut seed = 1;
        let mut reached = [0; 5];
        for _ in 0..200_000 {
            let image = image(&mut seed);
            let place = [0, 0, 4, u64::MAX][(next(&mut seed) % 4) as usize];
            let size = [0, 1, 12, 20, 40, 60, u64::MAX][(next(&mut seed) % 7) as usize];
            let walked = walk(&image, place, size);
            let (which, wanted) = match walked.stop {
                Stop::End => (0, Ok(PvhBootCapability::PvhEntryNotPresent)),
                Stop::Found(at) => (
                    1,
                    Ok(PvhBootCapability::PvhEntryPresent(GuestAddress(at.into()))),
                ),
                Stop::Passes { .. } => (2, Err(Some(Refusal::ReadNoteHeader))),
                Stop::Size { .. } => (3, Err(Some(Refusal::Overflow))),
                Stop::Short(_) => (4, Err(Some(Refusal::InvalidPvhNote))),
            };
            reached[which] += 1;
            let told = notes(&image, place, size);
            if let Ok(told) = told {
                assert_eq!(
                    told.headers,
                    walked.notes.len() as u64,
                    "{image:x?} {place} {size}"
                );
                let found = walked.notes.last();
                let found = found.filter(|_| matches!(walked.stop, Stop::Found(_)));
                let found = found.map(|note| PvhNote {
                    place: note.descriptor as u64,
                    size: note.descriptor_size.into(),
                });
                assert_eq!(told.pvh_note, found, "{image:x?} {place} {size}");
            }
            let told = told
                .map(|told| told.pvh_boot_cap)
                .map_err(|error| error.refusal());
            assert_eq!(told, wanted, "{image:x?} {place} {size}");
        }
        assert!(reached.iter().all(|count| *count > 1000), "{reached:?}");
    }
}
