//! Kernels for boots: their sizes come first, and their images when it is known where they go.

use crate::examples::put;
use crate::generate::elf_image;
use crate::question::{at, Boot, PAGE_64, PVH};
use crate::rng::Rng;

const HEADER: std::ops::Range<usize> = 0x1f1..0x26c;

pub enum Kernel {
    Bzimage {
        version: u16,
        body: u64,
        memory: u64,
        /// Where in one piece the body is and where the memory, if they are laid out as one.
        together: Option<(u64, u64)>,
    },
    /// The file bytes and the memory of each segment.
    Elf {
        segments: Vec<(u64, u64)>,
    },
    Arm64 {
        body: u64,
        memory: u64,
    },
}

impl Kernel {
    pub fn random(rng: &mut Rng, format: u64, entry: u64) -> Kernel {
        match format {
            1 => Kernel::Elf {
                segments: segments(rng),
            },
            2 => bzimage(rng, entry),
            _ => {
                let body = rng.below(20);
                let file = 64 + body;
                let memory = match rng.below(6) {
                    0 => 1 + rng.below(file),
                    1 | 2 => file,
                    _ => file + rng.below(30),
                };
                Kernel::Arm64 { body, memory }
            }
        }
    }

    /// The sizes of what is laid out.
    pub fn sizes(&self) -> Vec<u64> {
        match self {
            Kernel::Bzimage {
                body,
                memory,
                together,
                ..
            } => match together {
                Some((written, taken)) => vec![(written + body).max(taken + memory)],
                None => vec![*body, *memory],
            },
            Kernel::Elf { segments } => segments.iter().map(|(_, memory)| *memory).collect(),
            Kernel::Arm64 { body, memory } => vec![(64 + body).max(*memory)],
        }
    }

    /// The image for these addresses, and the offset that moves it there, if one does.
    pub fn image(&self, rng: &mut Rng, entry: u64, places: &[u64]) -> (Vec<u8>, Option<u64>) {
        match self {
            Kernel::Bzimage {
                version,
                body,
                memory,
                together,
            } => {
                let (load, taken) = match together {
                    Some((written, taken)) => (places[0] + written, places[0] + taken),
                    None => (places[0], places[1]),
                };
                let mut image = bzimage_image(rng, entry, *version, *body as usize);
                put_runtime(rng, &mut image, load, taken);
                put(&mut image, 0x260, &(*memory as u32).to_le_bytes());
                let offset = rng.one_in(4).then_some(load);
                let start = offset.map_or(load, |_| rng.next());
                put(&mut image, 0x214, &(start as u32).to_le_bytes());
                (image, offset)
            }
            Kernel::Elf { segments } => moved_elf(rng, entry, segments, places),
            Kernel::Arm64 { body, memory } => {
                let mut image = rng.bytes(64 + *body as usize);
                put(&mut image, 8, &places[0].to_le_bytes());
                put(&mut image, 16, &memory.to_le_bytes());
                image[24] &= 0xfe;
                put(&mut image, 56, b"ARM\x64");
                (image, rng.one_in(3).then_some(0))
            }
        }
    }
}

/// The first versions with a field, those before them, and others.
fn version(rng: &mut Rng, entry: u64) -> u16 {
    let thresholds = [0x202, 0x203, 0x205, 0x206, 0x209, 0x20a, 0x20b, 0x20c];
    match rng.below(4) {
        _ if entry == PAGE_64 => rng.pick(&[0x20c, 0x20c, 0x20d, 0x20f, 0x300, 0xffff]),
        0 => 0x200 + rng.below(16) as u16,
        1 => 0x20f,
        _ => rng.pick(&thresholds),
    }
}

fn bzimage(rng: &mut Rng, entry: u64) -> Kernel {
    let body = match rng.below(16) {
        0 => 0,
        1 => 1,
        _ => rng.below(40),
    };
    let memory = match rng.below(16) {
        0 => 0,
        1 => 1,
        2..=7 => body + rng.below(20),
        _ => rng.below(60),
    };
    let apart = rng.below(12);
    let together = match rng.below(4) {
        0 => None,
        1 => Some((apart, 0)),
        2 => Some((0, apart)),
        _ => Some((0, 0)),
    };
    Kernel::Bzimage {
        version: version(rng, entry),
        body,
        memory,
        together,
    }
}

fn bzimage_image(rng: &mut Rng, entry: u64, version: u16, body: usize) -> Vec<u8> {
    let sectors = if rng.one_in(16) { 0 } else { 1 };
    let setup = if sectors == 0 { 2560 } else { 1024 };
    let mut image = vec![0; setup + body];
    rng.fill(&mut image[HEADER]);
    rng.fill(&mut image[setup..]);
    image[0x1f1] = sectors;
    put(&mut image, 0x202, b"HdrS");
    put(&mut image, 0x206, &version.to_le_bytes());
    image[0x211] |= 1;
    if entry == PAGE_64 {
        image[0x236] |= 1;
    }
    image
}

/// Fields by which the kernel's memory begins at an address: its own, or one that is rounded up to it.
fn put_runtime(rng: &mut Rng, image: &mut [u8], load: u64, start: u64) {
    if load > start || rng.one_in(4) {
        let alignment = rng.pick(&[0, 1, 3, 16, 4096, 1 << 21, 1 << 31, u32::MAX]);
        put(image, 0x230, &alignment.to_le_bytes());
        image[0x234] = 0;
        put(image, 0x258, &start.to_le_bytes());
        return;
    }
    let divides = |number: &u64| start % number == 0;
    let mut alignments: Vec<u64> = (1..=64).filter(divides).collect();
    // the greatest ones, and the greatest power of two
    alignments.extend([
        start.max(1),
        start.max(1),
        1 << start.trailing_zeros().min(31),
    ]);
    let alignment = rng.pick(&alignments);
    let lowest = start.saturating_sub(alignment - 1);
    let preferred = if load >= lowest && rng.one_in(2) {
        rng.below(load + 1)
    } else {
        lowest + rng.below(start - lowest + 1)
    };
    let alignment = match alignment {
        1 if rng.one_in(2) => 0,
        alignment => alignment as u32,
    };
    put(image, 0x230, &alignment.to_le_bytes());
    image[0x234] = rng.pick(&[1, 1, 2, 255]);
    put(image, 0x258, &preferred.to_le_bytes());
}

/// The limits that a setup header has: mostly what the pieces just fit, and now and then one less.
pub fn put_limits(rng: &mut Rng, boot: &mut Boot, line: u64) {
    let longest = match rng.below(16) {
        0 => line.wrapping_sub(1) as u32,
        1..=7 => line as u32,
        8 => line as u32 + 1,
        9 => rng.pick(&[u32::MAX, 1 << 16]),
        _ => 2047,
    };
    put(&mut boot.image, 0x238, &longest.to_le_bytes());
    let size = boot.ramdisk.len() as u64;
    let last = boot.number(at::RAMDISK).wrapping_add(size).wrapping_sub(1) as u32;
    let highest = match rng.below(16) {
        0 => last.wrapping_sub(1),
        1..=7 => last,
        8 => last.wrapping_add(1),
        9 => u32::MAX,
        _ => 0x37ff_ffff,
    };
    put(&mut boot.image, 0x22c, &highest.to_le_bytes());
}

fn segments(rng: &mut Rng) -> Vec<(u64, u64)> {
    let count = rng.pick(&[0, 1, 1, 2, 2, 3]);
    let segment = |rng: &mut Rng| match rng.below(12) {
        0 => (0, 0),
        1..=3 => (0, 1 + rng.below(20)),
        4..=6 => {
            let size = 1 + rng.below(12);
            (size, size)
        }
        _ => {
            let size = 1 + rng.below(12);
            (size, size + rng.pick(&[1, 2, 8, 30]))
        }
    };
    (0..count).map(|_| segment(rng)).collect()
}

/// An ELF image of these segments with a note, and the offset that moves them to their places.
fn moved_elf(
    rng: &mut Rng,
    entry: u64,
    segments: &[(u64, u64)],
    places: &[u64],
) -> (Vec<u8>, Option<u64>) {
    let lowest = places.iter().copied().min().unwrap_or(40);
    let offset = (entry != PVH && rng.one_in(3)).then(|| rng.below(lowest + 1));
    let moved = offset.unwrap_or(0);
    let mut body = rng.bytes(24);
    let mut headers = Vec::new();
    for ((file, memory), place) in segments.iter().zip(places) {
        let from = rng.below(24 - file + 1);
        headers.push((1, from, place - moved, *file, *memory));
    }
    // an address of 8 bytes now and then, of which the lower 4 count
    let size = rng.pick(&[4, 4, 4, 8]);
    let note = (4, body.len() as u64, rng.next(), 16 + size, 16 + size);
    body.extend([4, 0, 0, 0, size as u8, 0, 0, 0, 18, 0, 0, 0]);
    body.extend(b"Xen\0");
    body.extend(rng.bytes(size as usize));
    let index = rng.length(0, headers.len());
    headers.insert(index, note);
    let mut image = elf_image(&headers, &body);
    let start = rng.next() >> rng.length(1, 60);
    put(&mut image, 24, &start.to_le_bytes());
    (image, offset)
}
