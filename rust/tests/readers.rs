//! Images that are read: which bytes of them are, how often, and what a reader leads to that fails, gets shorter or changes during a load.

mod images;

use std::cell::RefCell;
use std::fs::File;
use std::io::{self, Cursor, Read, Seek, SeekFrom, Write};
use std::ops::Range;

use images::{
    arm64_image, fresh, fresh_with, note, pvh_note, BzImageFile, ElfImage, BODY, LOADABLE, NOTE,
};
use rekusoyen::loader::{
    self, arm64, bzimage, elf, BzImage, Elf, KernelLoader, KernelLoaderResult, PvhBootCapability,
};
use vm_memory::bitmap::BitmapSlice;
use vm_memory::{
    Bytes, GuestAddress, GuestMemoryMmap, ReadVolatile, VolatileMemoryError, VolatileSlice,
};

const ROOM: usize = 0x4000;

fn memory() -> GuestMemoryMmap {
    let memory = GuestMemoryMmap::from_ranges(&[(GuestAddress(0), ROOM)]).unwrap();
    memory.write_slice(&fresh(ROOM), GuestAddress(0)).unwrap();
    memory
}

fn content(memory: &GuestMemoryMmap) -> Vec<u8> {
    let mut bytes = vec![0; ROOM];
    memory.read_slice(&mut bytes, GuestAddress(0)).unwrap();
    bytes
}

/// What a reader is asked for.
#[derive(Clone, Debug, PartialEq)]
enum Asked {
    Seek(SeekFrom),
    Read(Range<u64>),
    Copied(Range<u64>),
}

/// A reader of an image that keeps what it was asked for, and before the call of a number does something to the image.
struct Watched<'a> {
    image: Cursor<Vec<u8>>,
    asked: RefCell<Vec<Asked>>,
    turn: usize,
    then: Turn<'a>,
}

/// What is done to the image; an error makes the call fail.
type Turn<'a> = &'a dyn Fn(&mut Vec<u8>) -> io::Result<()>;

impl<'a> Watched<'a> {
    fn plain(image: Vec<u8>) -> Self {
        Watched::at(image, usize::MAX, &|_| Ok(()))
    }

    fn at(image: Vec<u8>, turn: usize, then: Turn<'a>) -> Self {
        Watched {
            image: Cursor::new(image),
            asked: RefCell::default(),
            turn,
            then,
        }
    }

    fn turns(&mut self) -> io::Result<()> {
        if self.asked.borrow().len() == self.turn {
            (self.then)(self.image.get_mut())?;
        }
        Ok(())
    }
}

impl Seek for Watched<'_> {
    fn seek(&mut self, place: SeekFrom) -> io::Result<u64> {
        self.turns()?;
        self.asked.borrow_mut().push(Asked::Seek(place));
        self.image.seek(place)
    }
}

impl Read for Watched<'_> {
    fn read(&mut self, bytes: &mut [u8]) -> io::Result<usize> {
        self.turns()?;
        let start = self.image.position();
        let count = self.image.read(bytes)?;
        let read = Asked::Read(start..start + count as u64);
        self.asked.borrow_mut().push(read);
        Ok(count)
    }
}

impl ReadVolatile for Watched<'_> {
    fn read_volatile<B: BitmapSlice>(
        &mut self,
        bytes: &mut VolatileSlice<B>,
    ) -> Result<usize, VolatileMemoryError> {
        self.turns().map_err(VolatileMemoryError::IOError)?;
        let start = self.image.position();
        let count = self.image.read_volatile(bytes)?;
        let copied = Asked::Copied(start..start + count as u64);
        self.asked.borrow_mut().push(copied);
        Ok(count)
    }
}

/// Two segments with a stretch between them that nothing is read of, and two note segments.
fn elf_image() -> ElfImage {
    ElfImage::entered_at(0x1000)
        .with(LOADABLE, 0x1000, b"first")
        .with(7, 0, &[0; 100])
        .with(NOTE, 0, &note(b"other", 1, b"some"))
        .with(7, 0, &[0; 100])
        .with(NOTE, 0, &pvh_note(0x1002))
        .with(7, 0, &[0; 100])
        .with(LOADABLE, 0x2000, b"second")
}

fn elf(memory: &GuestMemoryMmap, image: &mut Watched) -> loader::Result<KernelLoaderResult> {
    Elf::load(memory, None, image, None)
}

fn start(place: u64) -> Asked {
    Asked::Seek(SeekFrom::Start(place))
}

#[test]
fn an_elf_image_is_read_by_its_headers_notes_and_segments() {
    let image = elf_image();
    let [first, _, other, _, pvh, _, second] = [0, 1, 2, 3, 4, 5, 6].map(|header| {
        let header = &image.headers[header];
        header.p_offset..header.p_offset + header.p_filesz
    });
    let mut watched = Watched::plain(image.bytes());
    let guest = memory();
    let kernel = elf(&guest, &mut watched).unwrap();
    let entry = PvhBootCapability::PvhEntryPresent(GuestAddress(0x1002));
    assert_eq!((kernel.kernel_end, kernel.pvh_boot_cap), (0x2006, entry));
    let written: &[(usize, &[u8])] = &[(0x1000, b"first"), (0x2000, b"second")];
    assert_eq!(content(&guest), fresh_with(ROOM, written));
    let table = 64..64 + 7 * 56;
    let wanted = [
        Asked::Seek(SeekFrom::End(0)),
        start(0),
        Asked::Read(0..64),
        start(64),
        Asked::Read(table),
        // a note that begins with the last byte of its segment ends 19 bytes behind it
        start(other.start),
        Asked::Read(other.start..other.end + 19),
        start(pvh.start),
        Asked::Read(pvh.start..pvh.end + 19),
        start(first.start),
        Asked::Copied(first),
        start(second.start),
        Asked::Copied(second),
    ];
    assert_eq!(*watched.asked.borrow(), wanted);

    // with an offset no notes, and of what is no ELF image nothing but its header
    let mut watched = Watched::plain(elf_image().bytes());
    Elf::load(&memory(), Some(GuestAddress(1)), &mut watched, None).unwrap();
    let asked = watched.asked.borrow();
    let reads = asked.iter().filter(|asked| matches!(asked, Asked::Read(_)));
    assert_eq!(reads.count(), 2);
    let mut image = elf_image();
    image.magic[1] = 0;
    let mut watched = Watched::plain(image.bytes());
    elf(&memory(), &mut watched).unwrap_err();
    assert_eq!(watched.asked.borrow().len(), 3);
}

#[test]
fn other_images_are_read_by_their_header_and_kernel() {
    let image = BzImageFile::loaded_at(0x1000, b"bzimage").bytes();
    let mut watched = Watched::plain(image);
    BzImage::load(&memory(), None, &mut watched, None).unwrap();
    let wanted = [
        Asked::Seek(SeekFrom::End(0)),
        start(0x1f1),
        Asked::Read(0x1f1..0x26c),
        start(1024),
        Asked::Copied(1024..1031),
    ];
    assert_eq!(*watched.asked.borrow(), wanted);

    let mut watched = Watched::plain(arm64_image(16, 200, b"abc"));
    arm64::Image::load(&memory(), None, &mut watched, None).unwrap();
    let wanted = [
        Asked::Seek(SeekFrom::End(0)),
        start(0),
        Asked::Read(0..64),
        start(0),
        Asked::Copied(0..67),
    ];
    assert_eq!(*watched.asked.borrow(), wanted);
}

/// However many note headers there are and wherever they point, even into the headers.
#[test]
fn no_byte_is_read_twice_for_a_plan() {
    let count = 2000u16;
    let length = 64 + 56 * u64::from(count) + 4096;
    let mut bytes = ElfImage::entered_at(0).bytes();
    bytes.resize(length as usize, 0);
    bytes[56..58].copy_from_slice(&count.to_le_bytes());
    let mut random = 1u64;
    let mut notes = Vec::new();
    for header in bytes[64..].chunks_exact_mut(56).take(count.into()) {
        random = random.wrapping_mul(0x5851_f42d_4c95_7f2d).wrapping_add(1);
        let (start, size) = ((random >> 20) % length, (random >> 50) % 30);
        header[0] = NOTE as u8;
        header[8..16].copy_from_slice(&start.to_le_bytes());
        header[32..40].copy_from_slice(&size.to_le_bytes());
        if size > 0 {
            notes.push(start as usize..(start + size + 19).min(length) as usize);
        }
    }
    let mut watched = Watched::plain(bytes);
    let _ = elf(&memory(), &mut watched);
    let mut times = vec![0; length as usize];
    let mut reads = 0;
    for asked in watched.asked.borrow().iter() {
        if let Asked::Read(range) = asked {
            reads += 1;
            range.clone().for_each(|place| times[place as usize] += 1);
        }
    }
    assert!(reads > 2, "{reads}");
    assert!(times.iter().all(|times| *times <= 1));
    for notes in notes {
        assert!(times[notes].iter().all(|times| *times == 1));
    }
}

const GONE: Turn = &|_| Err(io::Error::other("the disk is gone"));

/// A reader that fails at each of its calls in turn: the error is that of what was to be done, and nothing is written before the copies.
#[test]
fn a_reader_that_fails_has_the_published_error() {
    use elf::Error::*;
    let errors = [
        SeekElfStart,
        SeekElfStart,
        ReadElfHeader,
        SeekProgramHeader,
        ReadProgramHeader,
        SeekNoteHeader,
        ReadNoteHeader,
        SeekNoteHeader,
        ReadNoteHeader,
        SeekKernelStart,
        ReadKernelImage,
        SeekKernelStart,
        ReadKernelImage,
    ];
    for (turn, error) in errors.into_iter().enumerate() {
        let guest = memory();
        let mut image = Watched::at(elf_image().bytes(), turn, GONE);
        assert_eq!(elf(&guest, &mut image), Err(error.into()), "{turn}");
        let written: &[(usize, &[u8])] = if turn > 10 {
            &[(0x1000, b"first")]
        } else {
            &[]
        };
        assert_eq!(content(&guest), fresh_with(ROOM, written), "{turn}");
    }

    use bzimage::Error::*;
    let errors = [
        SeekBzImageEnd,
        SeekBzImageHeader,
        ReadBzImageHeader,
        SeekBzImageCompressedKernel,
        ReadBzImageCompressedKernel,
    ];
    for (turn, error) in errors.into_iter().enumerate() {
        let guest = memory();
        let image = BzImageFile::loaded_at(0x1000, b"bzimage").bytes();
        let mut image = Watched::at(image, turn, GONE);
        let refused = BzImage::load(&guest, None, &mut image, None);
        assert_eq!(refused, Err(error.into()), "{turn}");
        assert_eq!(content(&guest), fresh(ROOM), "{turn}");
    }

    use arm64::Error::{ReadImage, SeekImage};
    let errors = [SeekImage, SeekImage, ReadImage, SeekImage, ReadImage];
    for (turn, error) in errors.into_iter().enumerate() {
        let guest = memory();
        let mut image = Watched::at(arm64_image(16, 200, b"abc"), turn, GONE);
        let refused = arm64::Image::load(&guest, None, &mut image, None);
        assert_eq!(refused, Err(error.into()), "{turn}");
        assert_eq!(content(&guest), fresh(ROOM), "{turn}");
    }
}

/// An image that is cut to each length before each call: an error, or the answer of the whole image where what is missing was read before.
#[test]
fn an_image_that_gets_shorter_is_an_error() {
    let whole = elf_image().bytes();
    let good = elf(&memory(), &mut Watched::plain(whole.clone())).unwrap();
    let written: &[(usize, &[u8])] = &[(0x1000, b"first"), (0x2000, b"second")];
    let mut refused = 0;
    for turn in 1..13 {
        for length in 0..whole.len() {
            let cut = |image: &mut Vec<u8>| {
                image.truncate(length);
                Ok(())
            };
            let guest = memory();
            match elf(&guest, &mut Watched::at(whole.clone(), turn, &cut)) {
                Ok(kernel) => {
                    assert_eq!(kernel, good);
                    assert_eq!(content(&guest), fresh_with(ROOM, written));
                }
                Err(error) => {
                    refused += 1;
                    assert!(matches!(error, loader::Error::Elf(_)), "{error:?}");
                    // what comes before the missing bytes may be written, and nothing else
                    let after = content(&guest);
                    let may = fresh_with(ROOM, written);
                    let fresh = fresh(ROOM);
                    assert!((0..ROOM).all(|at| after[at] == fresh[at] || after[at] == may[at]));
                }
            }
        }
    }
    // the last byte is the last one of a segment: without it no load is accepted
    assert_eq!(refused, 12 * whole.len());
}

/// Before each call each byte is changed: the answer is an error or that of some image that agrees with each of the two where it was read.
#[test]
fn an_image_that_changes_is_read_as_it_is_then() {
    let whole = elf_image().bytes();
    let answer = |image: &[u8]| {
        let guest = memory();
        let answer = elf(&guest, &mut Watched::plain(image.to_vec()));
        (answer, content(&guest))
    };
    let before = answer(&whole);
    let segment = |image: &ElfImage, header: usize| image.headers[header].p_offset as usize;
    for turn in 1..13 {
        for place in (0..whole.len()).filter(|place| place % 5 == turn % 5) {
            let change = |image: &mut Vec<u8>| {
                image[place] ^= 0x11;
                Ok(())
            };
            let guest = memory();
            let told = elf(&guest, &mut Watched::at(whole.clone(), turn, &change));
            let told = (told, content(&guest));
            let mut changed = whole.clone();
            changed[place] ^= 0x11;
            // headers and notes are seen as they were or as they are, and so are the bytes of segments
            let [first, second] = [0, 6].map(|header| segment(&elf_image(), header));
            let is_copied =
                (first..first + 5).contains(&place) || (second..second + 6).contains(&place);
            let after = answer(&changed);
            assert!(
                told == before || told == after || is_copied,
                "{turn} {place}"
            );
            if is_copied {
                assert!(told.1 == before.1 || told.1 == after.1, "{turn} {place}");
            }
        }
    }
}

/// A reader that says another length than it has: it ends where it ends.
#[test]
fn an_image_that_gets_longer_is_read_as_far_as_it_was() {
    let whole = elf_image().bytes();
    let grow = |image: &mut Vec<u8>| {
        image.resize(0x10000, 0xff);
        Ok(())
    };
    for turn in 1..13 {
        let guest = memory();
        let kernel = elf(&guest, &mut Watched::at(whole.clone(), turn, &grow)).unwrap();
        assert_eq!(kernel.kernel_end, 0x2006);
    }
}

fn temporary(name: &str) -> File {
    let name = format!("rekusoyen-{name}-{}", std::process::id());
    let path = std::env::temp_dir().join(name);
    let mut options = File::options();
    let file = options.read(true).write(true).create(true).truncate(true);
    let file = file.open(&path).unwrap();
    // the open file lives on
    std::fs::remove_file(&path).unwrap();
    file
}

/// A file with a hole of many times the machine's memory is loaded, or refused where the system gives no room to look at it; of one of more
/// than 2^40 bytes the number is 60.
#[test]
fn a_long_file_is_no_burden() {
    let guest = memory();
    let mut file = temporary("long");
    file.write_all(&elf_image().bytes()).unwrap();
    file.set_len(1 << 30).unwrap();
    assert_eq!(
        Elf::load(&guest, None, &mut file, None).unwrap().kernel_end,
        0x2006
    );
    file.set_len(1 << 40).unwrap();
    match Elf::load(&guest, None, &mut file, None) {
        Ok(kernel) => assert_eq!(kernel.kernel_end, 0x2006),
        Err(error) => assert_eq!(error, elf::Error::ReadKernelImage.into()),
    }
    file.set_len((1 << 40) + 1).unwrap();
    let refused = [
        Elf::load(&guest, None, &mut file, None),
        BzImage::load(&guest, None, &mut file, None),
        arm64::Image::load(&guest, None, &mut file, None),
    ];
    for refused in refused {
        assert_eq!(refused.unwrap_err().number(), Some(60));
    }
}

#[test]
fn a_file_stands_behind_its_last_segment_after_a_load() {
    let mut file = temporary("place");
    let image = elf_image();
    file.write_all(&image.bytes()).unwrap();
    let last = image.headers.last().unwrap();
    Elf::load(&memory(), None, &mut file, None).unwrap();
    assert_eq!(
        file.stream_position().unwrap(),
        last.p_offset + last.p_filesz
    );
    assert!(last.p_offset > BODY);
}
