//! Both crates over the layouts of guest memory that monitors have, side by side: every answer, every error by its name, and every byte of
//! every region. Images come from a `Cursor` and from a `File`: random ones and real ones.

mod images;

use driver::rng::Rng;
use std::collections::BTreeMap;
use std::fs::File;
use std::io::{Cursor, Read, Seek, Write};
use vm_memory::{ByteValued, Bytes, GuestAddress, GuestMemoryMmap, ReadVolatile};

mod published {
    use super::*;
    use linux_loader as program;
    include!("calls.rs");
}

mod proved {
    use super::*;
    use rekusoyen as program;
    include!("calls.rs");
}

/// An answer in words, or the name of an error.
type Told = Result<String, String>;

/// A load, or a line that is put to the offset.
pub struct Put {
    pub what: What,
    pub offset: Option<GuestAddress>,
    pub highmem: Option<GuestAddress>,
    pub image: Vec<u8>,
}

pub enum What {
    Elf,
    BzImage,
    Line(String),
}

/// Regions of guest memory.
pub struct Layout {
    pub name: &'static str,
    pub regions: &'static [(u64, usize)],
}

const GIB: u64 = 1 << 30;

/// For random images: where regions begin and end is what matters, so that they are short.
const SHORT: [Layout; 6] = [
    Layout {
        name: "one region",
        regions: &[(0, 0x2_0000)],
    },
    Layout {
        name: "around 640 KiB",
        regions: &[(0, 0xa_0000), (0x10_0000, 0x2_0000)],
    },
    Layout {
        name: "a hole below 4 GiB",
        regions: &[
            (0, 0x1_0000),
            (3 * GIB - 0x1_0000, 0x1_0000),
            (4 * GIB, 0x1_0000),
        ],
    },
    Layout {
        name: "from 2 GiB",
        regions: &[(2 * GIB, 0x2_0000)],
    },
    Layout {
        name: "touching",
        regions: &[
            (0x1000, 0x1000),
            (0x2000, 0x1000),
            (0x3000, 0x3001),
            (0x6001, 0x1fff),
        ],
    },
    Layout {
        name: "touching, with holes",
        regions: &[
            (0, 0x1000),
            (0x1000, 0x1000),
            (0x2800, 0x1000),
            (0x3800, 0x800),
            (0x4001, 1),
        ],
    },
];

/// For real images, which need room.
const LONG: [Layout; 4] = [
    Layout {
        name: "around 640 KiB",
        regions: &[(0, 0xa_0000), (0x10_0000, 0x700_0000)],
    },
    Layout {
        name: "a hole below 4 GiB",
        regions: &[(0, 0x600_0000), (4 * GIB, 0x600_0000)],
    },
    Layout {
        name: "from 2 GiB",
        regions: &[(2 * GIB, 0x600_0000)],
    },
    Layout {
        name: "touching",
        regions: &[
            (0, 0x110_1000),
            (0x110_1000, 0x3000),
            (0x110_4000, 0x600_0000),
        ],
    },
];

/// How many random questions are asked over each layout.
const RANDOM: u64 = 3000;

#[derive(Default)]
struct Counts {
    cases: BTreeMap<&'static str, u64>,
    accepted: u64,
    /// Loads that both refuse alike, and of which the published crate leaves bytes written.
    left_written: u64,
    unexplained: u64,
}

/// Compares all; answers whether nothing is left unexplained.
pub fn run(files: &[String]) -> bool {
    let mut counts = Counts::default();
    let mut file = temporary();
    for (part, layout) in (0..).zip(&SHORT) {
        let mut rng = Rng::for_part(1, 17, part);
        let pair = Pair::new(layout);
        for case in 0..RANDOM {
            let question = images::question(&mut rng, layout);
            let by_file = (case % 4 == 0).then_some(&mut file);
            pair.compare(&question, by_file, &mut counts);
        }
    }
    for layout in &LONG {
        let pair = Pair::new(layout);
        let (start, _) = layout.regions[0];
        let (last, length) = layout.regions[layout.regions.len() - 1];
        for name in files {
            let image = std::fs::read(name).expect("an image can be read");
            // where it says, at the start of guest memory, and where its end has no room
            let offsets = [
                None,
                Some(start),
                Some(last),
                Some(last + length as u64 - 100_000),
            ];
            for offset in offsets.map(|offset| offset.map(GuestAddress)) {
                for what in [What::Elf, What::BzImage] {
                    let question = Put {
                        what,
                        offset,
                        highmem: None,
                        image: image.clone(),
                    };
                    pair.compare(&question, Some(&mut file), &mut counts);
                }
            }
        }
    }
    let cases = counts.cases.iter();
    let cases: Vec<_> = cases
        .map(|(name, count)| format!("{name} {count}"))
        .collect();
    println!(
        "cases: {}; of real images: {}; accepted: {}; departures: L13 {}; unexplained: {}",
        cases.join(", "),
        files.len() * LONG.len() * 8,
        counts.accepted,
        counts.left_written,
        counts.unexplained
    );
    counts.unexplained == 0
}

fn temporary() -> File {
    let name = format!("compare-layouts-{}", std::process::id());
    let path = std::env::temp_dir().join(name);
    let mut options = File::options();
    let file = options.read(true).write(true).create(true).truncate(true);
    let file = file.open(&path).expect("a temporary file can be made");
    // the open file lives on
    std::fs::remove_file(&path).expect("it can be removed");
    file
}

/// Guest memory of one layout for each crate, with equal content.
struct Pair<'a> {
    layout: &'a Layout,
    theirs: GuestMemoryMmap,
    ours: GuestMemoryMmap,
    before: Vec<Vec<u8>>,
}

impl<'a> Pair<'a> {
    fn new(layout: &'a Layout) -> Self {
        let regions = layout.regions.iter();
        let regions: Vec<_> = regions
            .map(|(start, size)| (GuestAddress(*start), *size))
            .collect();
        let make = || GuestMemoryMmap::from_ranges(&regions).expect("memory can be mapped");
        let mut rng = Rng::new(9);
        let before: Vec<_> = regions.iter().map(|region| rng.bytes(region.1)).collect();
        let pair = Pair {
            layout,
            theirs: make(),
            ours: make(),
            before,
        };
        for (start, bytes) in pair.pieces() {
            write(&pair.theirs, bytes, start);
            write(&pair.ours, bytes, start);
        }
        pair
    }

    fn compare(&self, question: &Put, file: Option<&mut File>, counts: &mut Counts) {
        let (theirs, ours) = match file {
            Some(file) => {
                file.set_len(0)
                    .and_then(|()| file.rewind())
                    .expect("a file is emptied");
                file.write_all(&question.image).expect("a file is written");
                self.put(question, file)
            }
            None => self.put(question, &mut Cursor::new(&question.image)),
        };
        let changed = self.after(&theirs, &ours);
        *counts.cases.entry(kind(&question.what)).or_default() += 1;
        match changed {
            Changed::Alike => counts.accepted += u64::from(ours.is_ok()),
            Changed::LeftWritten => counts.left_written += 1,
            Changed::Otherwise => {
                counts.unexplained += 1;
                println!(
                    "difference: {}, {}, {} bytes, offset {:x?}\n  crate: {theirs:?}\n  regions: {ours:?}",
                    self.layout.name,
                    kind(&question.what),
                    question.image.len(),
                    question.offset,
                );
            }
        }
    }

    fn put<F: Read + ReadVolatile + Seek>(&self, question: &Put, image: &mut F) -> (Told, Told) {
        let theirs = published::put(&self.theirs, question, image);
        (theirs, proved::put(&self.ours, question, image))
    }

    /// Holds what both left together, and puts it back as it was.
    fn after(&self, theirs: &Told, ours: &Told) -> Changed {
        let (mut alike, mut is_untouched) = (true, true);
        let mut their_bytes = [0; PIECE];
        let mut our_bytes = [0; PIECE];
        for (start, before) in self.pieces() {
            let size = before.len();
            let (their_bytes, our_bytes) = (&mut their_bytes[..size], &mut our_bytes[..size]);
            read(&self.theirs, their_bytes, start);
            read(&self.ours, our_bytes, start);
            alike &= their_bytes == our_bytes;
            is_untouched &= our_bytes == before;
            if their_bytes != before {
                write(&self.theirs, before, start);
            }
            if our_bytes != before {
                write(&self.ours, before, start);
            }
        }
        if theirs != ours {
            Changed::Otherwise
        } else if alike {
            Changed::Alike
        } else if ours.is_err() && is_untouched {
            Changed::LeftWritten
        } else {
            Changed::Otherwise
        }
    }

    /// What guest memory has before each question, piece by piece, and where.
    fn pieces(&self) -> impl Iterator<Item = (GuestAddress, &[u8])> {
        let regions = self.layout.regions.iter().zip(&self.before);
        regions.flat_map(|((start, _), bytes)| {
            let places = (*start..).step_by(PIECE).map(GuestAddress);
            places.zip(bytes.chunks(PIECE))
        })
    }
}

const PIECE: usize = 1 << 16;

fn read(memory: &GuestMemoryMmap, bytes: &mut [u8], start: GuestAddress) {
    memory.read_slice(bytes, start).expect("it is there");
}

fn write(memory: &GuestMemoryMmap, bytes: &[u8], start: GuestAddress) {
    memory.write_slice(bytes, start).expect("it is there");
}

enum Changed {
    /// The same answer and the same bytes.
    Alike,
    /// The same refusal, after which the published crate leaves something written: L13.
    LeftWritten,
    Otherwise,
}

fn kind(what: &What) -> &'static str {
    match what {
        What::Elf => "elf",
        What::BzImage => "bzimage",
        What::Line(_) => "load",
    }
}
