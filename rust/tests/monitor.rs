//! A monitor's code over vm-memory, as it is written for linux-loader: only the names after `use` are other ones.

mod images;

use std::fs::File;
use std::io::{Cursor, Read, Seek, Write};

use images::{arm64_image, fresh, fresh_with, pvh_note, BzImageFile, ElfImage, LOADABLE, NOTE};
use rekusoyen::cmdline;
use rekusoyen::loader::bootparam::setup_header;
use rekusoyen::loader::{
    self, arm64, bzimage, elf, load_cmdline, BzImage, Cmdline, Elf, KernelLoader,
    KernelLoaderResult, PvhBootCapability,
};
use vm_memory::{
    ByteValued, Bytes, GuestAddress, GuestMemoryBackend, GuestMemoryMmap, GuestMemoryRegion,
    ReadVolatile,
};

const ROOM: usize = 0x4000;

/// What keeps the monitor from starting a guest.
#[derive(Debug, PartialEq)]
enum StartError {
    Kernel(loader::Error),
    Line(cmdline::Error),
}

impl From<loader::Error> for StartError {
    fn from(error: loader::Error) -> Self {
        StartError::Kernel(error)
    }
}

impl From<cmdline::Error> for StartError {
    fn from(error: cmdline::Error) -> Self {
        StartError::Line(error)
    }
}

/// Loads a kernel, an ELF image or else a bzImage, and puts the command line beside it.
fn start<M: GuestMemoryBackend, F: Read + ReadVolatile + Seek>(
    memory: &M,
    image: &mut F,
    root: &str,
) -> Result<KernelLoaderResult, StartError> {
    let kernel = match Elf::load(memory, None, image, None) {
        Err(loader::Error::Elf(elf::Error::InvalidElfMagicNumber)) => {
            BzImage::load(memory, None, image, Some(GuestAddress(0x1000)))?
        }
        answer => answer?,
    };
    let mut line = Cmdline::new(64)?;
    line.insert("root", root)?;
    load_cmdline(memory, GuestAddress(0x2000), &line)?;
    Ok(kernel)
}

fn elf_image() -> Vec<u8> {
    ElfImage::entered_at(0x1000)
        .with(LOADABLE, 0x1000, b"elf")
        .with(NOTE, 0, &pvh_note(0x1002))
        .bytes()
}

fn bzimage() -> Vec<u8> {
    BzImageFile::loaded_at(0x1000, b"bzimage").bytes()
}

/// Guest memory of regions, none of whose bytes is zero.
fn memory(regions: &[(u64, usize)]) -> GuestMemoryMmap {
    let regions: Vec<_> = regions
        .iter()
        .map(|(address, size)| (GuestAddress(*address), *size))
        .collect();
    let memory = GuestMemoryMmap::from_ranges(&regions).unwrap();
    for (address, size) in regions {
        memory.write_slice(&fresh(size), address).unwrap();
    }
    memory
}

/// All the bytes of guest memory, region by region.
fn content(memory: &GuestMemoryMmap) -> Vec<u8> {
    let mut bytes = Vec::new();
    for region in memory.iter() {
        let mut part = vec![0; region.len() as usize];
        memory.read_slice(&mut part, region.start_addr()).unwrap();
        bytes.extend(part);
    }
    bytes
}

#[track_caller]
fn starts<F: Read + ReadVolatile + Seek>(image: &mut F, kernel: &[u8]) -> KernelLoaderResult {
    let memory = memory(&[(0, ROOM)]);
    let result = start(&memory, image, "/dev/vda").unwrap();
    let written: &[(usize, &[u8])] = &[(0x1000, kernel), (0x2000, b"root=/dev/vda\0")];
    assert_eq!(content(&memory), fresh_with(ROOM, written));
    result
}

/// The answers to the two images, from whatever they are read.
#[track_caller]
fn both_start<F: Read + ReadVolatile + Seek>(elf: &mut F, bzimage_file: &mut F) {
    let kernel = starts(elf, b"elf");
    let entry = PvhBootCapability::PvhEntryPresent(GuestAddress(0x1002));
    assert_eq!(kernel.kernel_load, GuestAddress(0x1000));
    assert_eq!((kernel.kernel_end, kernel.pvh_boot_cap), (0x1003, entry));
    assert_eq!(kernel.setup_header, None);

    let kernel = starts(bzimage_file, b"bzimage");
    let header = kernel.setup_header.unwrap();
    assert_eq!(kernel.kernel_load, GuestAddress(0x1000));
    assert_eq!(
        (kernel.kernel_end, { header.code32_start }),
        (0x1007, 0x1000)
    );
    assert_eq!(kernel.pvh_boot_cap, PvhBootCapability::PvhEntryIgnored);
}

#[test]
fn kernels_start_from_a_cursor() {
    both_start(&mut Cursor::new(elf_image()), &mut Cursor::new(bzimage()));
}

#[test]
fn kernels_start_from_a_file_wherever_it_stands() {
    let path = std::env::temp_dir().join(format!("rekusoyen-monitor-{}", std::process::id()));
    let [mut elf, mut bzimage] = [elf_image(), bzimage()].map(|image| {
        let mut options = File::options();
        let options = options.read(true).write(true).create(true).truncate(true);
        let mut file = options.open(&path).unwrap();
        // the open file lives on, and stands behind its last byte
        std::fs::remove_file(&path).unwrap();
        file.write_all(&image).unwrap();
        file
    });
    both_start(&mut elf, &mut bzimage);
}

#[test]
fn a_setup_header_goes_into_guest_memory_as_it_is() {
    let memory = memory(&[(0, ROOM)]);
    let image = bzimage();
    let kernel = BzImage::load(&memory, None, &mut Cursor::new(&image), None).unwrap();
    let header: setup_header = kernel.setup_header.unwrap();
    memory.write_obj(header, GuestAddress(0x1f1)).unwrap();
    assert_eq!(header.as_slice(), &image[0x1f1..0x1f1 + 123]);
    assert_eq!(
        content(&memory)[0x1f1..0x1f1 + 123],
        image[0x1f1..0x1f1 + 123]
    );
}

#[test]
fn errors_reach_the_monitor() {
    let memory = memory(&[(0, 0x2001)]);
    let mut elf = Cursor::new(elf_image());
    let refused = start(&memory, &mut elf, "a b");
    assert_eq!(refused, Err(StartError::Line(cmdline::Error::NoQuoteSpace)));
    let refused = start(&memory, &mut elf, "/dev/vda");
    assert_eq!(
        refused,
        Err(StartError::Kernel(loader::Error::CommandLineOverflow))
    );
    // the kernel was loaded before
    assert_eq!(content(&memory), fresh_with(0x2001, &[(0x1000, b"elf")]));
    let refused = start(&memory, &mut Cursor::new([0u8; 64]), "/dev/vda");
    let error = loader::Error::Bzimage(bzimage::Error::InvalidBzImage);
    assert_eq!(refused, Err(StartError::Kernel(error)));
    assert_eq!(content(&memory), fresh_with(0x2001, &[(0x1000, b"elf")]));
}

/// The offset is the base, 0 where none is given; the start of high memory is not looked at.
#[test]
fn an_arm64_image_starts_by_the_same_trait() {
    let image = arm64_image(16, 200, b"abc");
    let load = |memory: &GuestMemoryMmap, base: Option<u64>| {
        let high = Some(GuestAddress(u64::MAX));
        arm64::Image::load(
            memory,
            base.map(GuestAddress),
            &mut Cursor::new(&image),
            high,
        )
    };
    let memory = memory(&[(0, ROOM)]);
    let kernel = load(&memory, None).unwrap();
    assert_eq!(kernel.kernel_load, GuestAddress(16));
    assert_eq!(kernel.kernel_end, 216);
    assert_eq!(content(&memory), fresh_with(ROOM, &[(16, &image)]));
    let far = load(&memory, Some(2 << 20));
    assert_eq!(far, Err(arm64::Error::NoRoomForImage.into()));
    let unaligned = load(&memory, Some(16));
    assert_eq!(unaligned, Err(arm64::Error::UnalignedBase.into()));
}
