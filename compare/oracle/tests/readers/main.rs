//! Both crates with a reader that fails at a place of the image, or ends there though it said another length: for each place in turn. Where this crate answers, the
//! published one answers the same; where both refuse, a failing reader has the same error, and this crate leaves no byte written that the published one does not.

use std::io::{self, Cursor, Read, Seek, SeekFrom};

use vm_memory::bitmap::BitmapSlice;
use vm_memory::{
    Bytes, GuestAddress, GuestMemoryMmap, ReadVolatile, VolatileMemoryError, VolatileSlice,
};

mod published {
    use super::*;
    use linux_loader as program;
    include!("load.rs");
}

mod proved {
    use super::*;
    use rekusoyen as program;
    include!("load.rs");
}

/// The load address and the end, or the name of an error; and guest memory after it.
type Told = (Result<(u64, u64), String>, Vec<u8>);

/// What a reader does at its place.
#[derive(Clone, Copy, PartialEq)]
enum At {
    Fails,
    Ends,
}

struct Reader<'a> {
    image: Cursor<&'a [u8]>,
    place: usize,
    at: At,
}

impl Reader<'_> {
    /// How many of so many bytes can be read where it stands; none and an error where it fails at the first.
    fn count(&self, wanted: usize) -> io::Result<usize> {
        let start = self.image.position() as usize;
        let end = start.saturating_add(wanted).min(self.image.get_ref().len());
        if !(start..end).contains(&self.place) {
            // behind its end there is nothing
            let is_behind = self.at == At::Ends && start > self.place;
            return Ok(if is_behind {
                0
            } else {
                end.saturating_sub(start)
            });
        }
        match (self.at, self.place - start) {
            (At::Fails, 0) => Err(io::Error::other("the disk is gone")),
            (_, count) => Ok(count),
        }
    }
}

impl Seek for Reader<'_> {
    fn seek(&mut self, place: SeekFrom) -> io::Result<u64> {
        self.image.seek(place)
    }
}

impl Read for Reader<'_> {
    fn read(&mut self, bytes: &mut [u8]) -> io::Result<usize> {
        let count = self.count(bytes.len())?;
        self.image.read(&mut bytes[..count])
    }
}

impl ReadVolatile for Reader<'_> {
    fn read_volatile<B: BitmapSlice>(
        &mut self,
        bytes: &mut VolatileSlice<B>,
    ) -> Result<usize, VolatileMemoryError> {
        let count = self.count(bytes.len());
        let count = count.map_err(VolatileMemoryError::IOError)?;
        self.image.read_volatile(&mut bytes.subslice(0, count)?)
    }
}

const ROOM: usize = 0x1000;

fn memory() -> GuestMemoryMmap {
    let memory = GuestMemoryMmap::from_ranges(&[(GuestAddress(0), ROOM)]).unwrap();
    let before = vec![0xee; ROOM];
    memory.write_slice(&before, GuestAddress(0)).unwrap();
    memory
}

fn content(memory: &GuestMemoryMmap) -> Vec<u8> {
    let mut bytes = vec![0; ROOM];
    memory.read_slice(&mut bytes, GuestAddress(0)).unwrap();
    bytes
}

/// Runs both on each place; how many loads both accept, both refuse, and this crate alone refuses.
fn compare(image: &[u8], is_elf: bool, at: At) -> [usize; 3] {
    let before = vec![0xee; ROOM];
    let mut counts = [0; 3];
    for place in 0..image.len() {
        let reader = || Reader {
            image: Cursor::new(image),
            place,
            at,
        };
        let (theirs, their_bytes) = published::load(&mut reader(), is_elf);
        let (ours, our_bytes) = proved::load(&mut reader(), is_elf);
        match (&theirs, &ours) {
            (_, Ok(_)) => {
                assert_eq!(ours, theirs, "{place}");
                assert!(our_bytes == their_bytes, "{place}");
                counts[0] += 1;
            }
            (Err(their_error), Err(error)) => {
                // of a setup header that is cut the published crate takes the rest as 0
                if at == At::Fails && !error.contains("ReadBzImageHeader") {
                    assert_eq!(error, their_error, "{place}");
                }
                let mut bytes = our_bytes.iter().zip(&their_bytes).zip(&before);
                let is_less =
                    bytes.all(|((ours, theirs), before)| ours == theirs || ours == before);
                assert!(is_less, "{place}");
                counts[1] += 1;
            }
            (Ok(_), Err(error)) => {
                let is_known = ["ReadNoteHeader", "ReadBzImageHeader"]
                    .iter()
                    .any(|known| error.contains(known));
                assert!(is_known, "{place} {error}");
                assert!(our_bytes == before, "{place}");
                counts[2] += 1;
            }
        }
    }
    counts
}

/// Two segments with notes between them, whose second is the PVH note, and bytes that belong to nothing.
fn elf() -> Vec<u8> {
    let mut image = vec![0; 0x200];
    image[..7].copy_from_slice(b"\x7fELF\x02\x01\x01");
    let notes = b"\x04\0\0\0\x06\0\0\0\x01\0\0\0abc\0descri\0\0\x04\0\0\0\x04\0\0\0\x12\0\0\0Xen\0\0\x01\0\0";
    let segments: [(u8, u64, &[u8]); 3] = [
        (1, 0x100, b"the first segment"),
        (4, 0, notes),
        (1, 0x200, b"the second segment"),
    ];
    image[24..32].copy_from_slice(&0x100u64.to_le_bytes());
    (image[32], image[54], image[56]) = (64, 56, 3);
    for (index, (kind, address, bytes)) in segments.into_iter().enumerate() {
        let at = 64 + 56 * index;
        let size = bytes.len() as u64;
        image[at] = kind;
        for (field, number) in [
            (8, image.len() as u64),
            (24, address),
            (32, size),
            (40, size),
        ] {
            image[at + field..at + field + 8].copy_from_slice(&number.to_le_bytes());
        }
        image.extend(bytes);
        image.extend([0; 40]);
    }
    image
}

fn bzimage() -> Vec<u8> {
    let mut image = vec![0; 1024];
    image[0x1f1] = 1;
    image[0x202..0x206].copy_from_slice(b"HdrS");
    (image[0x207], image[0x211], image[0x215]) = (2, 1, 1);
    image.extend(b"the kernel");
    image
}

#[test]
fn readers_that_fail() {
    let [accepted, refused, alone] = compare(&elf(), true, At::Fails);
    assert!(accepted > 100 && refused > 200, "{accepted} {refused}");
    // bytes of notes that the published crate passes over, and the 19 behind them
    assert!(alone > 0 && alone < 40, "{alone}");
    // of the setup header the published crate needs the bytes up to the load flags: without the load address it loads to another one
    let behind = 0x26c - 0x212;
    let counts = compare(&bzimage(), false, At::Fails);
    assert_eq!(counts, [1024 - 123, 123 + 10 - behind, behind]);
}

#[test]
fn readers_that_end() {
    let image = elf();
    let [accepted, refused, alone] = compare(&image, true, At::Ends);
    // nothing but the bytes behind the last segment can be missing
    assert_eq!([accepted, refused, alone], [40, image.len() - 40, 0]);
    let image = bzimage();
    assert_eq!(compare(&image, false, At::Ends), [0, image.len(), 0]);
}
