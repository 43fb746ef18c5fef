//! What is asked. `docs/SAMPLE.md` has the meaning of each kind but jobs; this is the same in Rust.

use second::map::whole;

/// An address that moves an image, and the lowest entry address; each may be left out.
#[derive(Clone, Copy, Debug, Default, PartialEq, Eq)]
pub struct Options {
    pub offset: Option<u64>,
    pub highmem: Option<u64>,
}

/// The numbers of a map: start, size, start, size, and so on. Where none is given it is that of the whole slice.
pub type Map = Option<Vec<u64>>;

/// An image to load, and guest memory with its map and its first content.
#[derive(Clone, Debug, Default, PartialEq, Eq)]
pub struct Load {
    pub options: Options,
    pub map: Map,
    pub image: Vec<u8>,
    pub guest: Vec<u8>,
}

/// A walk over the notes at a place of an image.
#[derive(Clone, Debug, Default, PartialEq, Eq)]
pub struct Walk {
    pub place: u64,
    pub size: u64,
    pub image: Vec<u8>,
}

/// Calls that make a line, which is then put into guest memory.
#[derive(Clone, Debug, Default, PartialEq, Eq)]
pub struct LineLoad {
    pub map: Map,
    pub address: u64,
    pub guest: Vec<u8>,
    pub calls: Vec<Call>,
}

/// A boot page to build, over a page all of whose bytes are one.
#[derive(Clone, Debug, PartialEq, Eq)]
pub struct PageBuild {
    pub command_line: u32,
    pub ramdisk: u32,
    pub ramdisk_size: u32,
    pub header: Vec<u8>,
    /// Three for each row.
    pub numbers: Vec<u64>,
    pub page: Vec<u8>,
}

/// A page to read: all of its bytes are `fill`, but for those that are put at a place of it.
#[derive(Clone, Debug, PartialEq, Eq)]
pub struct PageRead {
    pub length: u32,
    pub fill: u8,
    pub place: u32,
    pub bytes: Vec<u8>,
}

impl PageRead {
    pub fn page(&self) -> Vec<u8> {
        let mut page = vec![self.fill; self.length as usize];
        let part = page.iter_mut().skip(self.place as usize);
        part.zip(&self.bytes).for_each(|(old, new)| *old = *new);
        page
    }
}

/// A start block to write into guest memory with its lists, four numbers for each row. A map is always given.
#[derive(Clone, Debug, Default, PartialEq, Eq)]
pub struct StartWrite {
    pub map: Vec<u64>,
    pub block: u64,
    pub modules_at: u64,
    pub ranges_at: u64,
    pub flags: u32,
    pub command_line: u64,
    pub rsdp: u64,
    pub modules: Vec<u64>,
    pub ranges: Vec<u64>,
    pub guest: Vec<u8>,
}

/// A start block to check.
#[derive(Clone, Debug, Default, PartialEq, Eq)]
pub struct StartCheck {
    pub map: Vec<u64>,
    pub block: u64,
    pub guest: Vec<u8>,
}

/// A whole boot, over the slices and the list of numbers that the C call takes.
#[derive(Clone, Debug, Default, PartialEq, Eq)]
pub struct Boot {
    pub map: Map,
    /// Format, flags, offset, highmem, entry, whether a limit is given, limit, addresses of line, ramdisk and boot data
    /// (with a device tree the line's offset in it), address of the RSDP, and 0. Any count is asked.
    pub list: Vec<u64>,
    /// How many numbers the answer has room for.
    pub answers: u32,
    pub image: Vec<u8>,
    pub guest: Vec<u8>,
    pub text: Vec<u8>,
    pub init: Vec<u8>,
    pub ramdisk: Vec<u8>,
    /// Three for each row, and four with a start block.
    pub rows: Vec<u64>,
    pub tree: Vec<u8>,
}

/// The indices of a boot's list.
pub mod at {
    pub const FORMAT: usize = 0;
    pub const FLAGS: usize = 1;
    pub const OFFSET: usize = 2;
    pub const HIGHMEM: usize = 3;
    pub const ENTRY: usize = 4;
    pub const HAS_LIMIT: usize = 5;
    pub const LIMIT: usize = 6;
    pub const LINE: usize = 7;
    pub const RAMDISK: usize = 8;
    pub const DATA: usize = 9;
    pub const RSDP: usize = 10;
    pub const RESERVED: usize = 11;
}

/// The entries of a boot.
pub const PAGE_32: u64 = 1;
pub const PAGE_64: u64 = 2;
pub const PVH: u64 = 3;
pub const TREE: u64 = 4;

impl Boot {
    /// A number of the list, and 0 if the list is too short.
    pub fn number(&self, index: usize) -> u64 {
        self.list.get(index).copied().unwrap_or(0)
    }

    /// Offset and highmem, if they are given.
    pub fn options(&self) -> Options {
        let given = |flag, index| (self.number(at::FLAGS) & flag != 0).then(|| self.number(index));
        Options {
            offset: given(1, at::OFFSET),
            highmem: given(2, at::HIGHMEM),
        }
    }

    /// The load of its kernel.
    pub fn load(&self) -> Load {
        Load {
            options: self.options(),
            map: self.map.clone(),
            image: self.image.clone(),
            guest: vec![],
        }
    }
}

/// Whose load is taken in steps.
#[derive(Clone, Copy, Debug, PartialEq, Eq)]
pub enum Loader {
    Elf,
    Bzimage,
    /// The base is the offset, and 0 where none is given.
    Arm64,
}

/// A load in steps. Each call lends what it says of the bytes and of the guest.
#[derive(Clone, Debug, PartialEq, Eq)]
pub struct Steps {
    pub loader: Loader,
    pub options: Options,
    pub map: Vec<u64>,
    /// What the images are taken from.
    pub bytes: Vec<u8>,
    pub guest: Vec<u8>,
    pub calls: Vec<StepCall>,
}

/// One call of a load in steps.
#[derive(Clone, Copy, Debug, PartialEq, Eq)]
pub struct StepCall {
    pub budget: u64,
    /// The image: so many of the bytes from a place on, as far as they go.
    pub place: u32,
    pub length: u32,
    /// How much of the guest is lent, as far as it goes.
    pub guest: u32,
    /// The map is that of all that is lent of the guest, and not the question's.
    pub is_whole: bool,
}

impl Steps {
    pub fn image(&self, call: &StepCall) -> &[u8] {
        let from = self.bytes.len().min(call.place as usize);
        let rest = &self.bytes[from..];
        &rest[..rest.len().min(call.length as usize)]
    }

    /// How much of the guest a call is lent.
    pub fn lent(&self, call: &StepCall) -> usize {
        self.guest.len().min(call.guest as usize)
    }

    pub fn numbers(&self, call: &StepCall) -> Vec<u64> {
        if call.is_whole {
            whole(self.lent(call))
        } else {
            self.map.clone()
        }
    }
}

#[derive(Clone, Debug, PartialEq, Eq)]
pub enum Question {
    Elf(Load),
    Note(Walk),
    Bzimage(Load),
    Line(Vec<Call>),
    LineLoad(LineLoad),
    Words(Words),
    PageBuild(PageBuild),
    PageRead(PageRead),
    Steps(Steps),
    /// The base is the offset, and 0 where none is given.
    Arm64(Load),
    StartWrite(StartWrite),
    StartCheck(StartCheck),
    /// A job of the desk program.
    Job(Vec<u8>),
    Boot(Boot),
}

/// A line to read the words of, and how many places each of the three lists has.
#[derive(Clone, Debug, Default, PartialEq, Eq)]
pub struct Words {
    pub places: [u32; 3],
    pub text: Vec<u8>,
}

/// One call on the line that is carried from call to call.
#[derive(Clone, Debug, PartialEq, Eq)]
pub enum Call {
    New {
        capacity: u32,
    },
    InsertStr(Vec<u8>),
    InsertInitArgs(Vec<u8>),
    Insert {
        key: Vec<u8>,
        value: Vec<u8>,
    },
    InsertMultiple {
        key: Vec<u8>,
        ends: Vec<u32>,
        values: Vec<u8>,
    },
    AddDevice {
        size: u64,
        address: u64,
        irq: u32,
        id: Option<u32>,
    },
    TryFrom {
        capacity: u32,
        text: Vec<u8>,
    },
    AsCstring {
        room: u32,
    },
    Keep,
    IsEqual,
}

/// The areas that cases are counted by, one for each kind of question; building a page and reading one are one area, loads in steps are one for
/// all loaders, and writing a start block and checking one are one.
#[derive(Clone, Copy, Debug, PartialEq, Eq)]
pub enum Area {
    Elf,
    Note,
    Bzimage,
    Line,
    LineLoad,
    Words,
    Page,
    Steps,
    Arm64,
    Start,
    Job,
    Boot,
}

impl Area {
    /// How many there are.
    pub const COUNT: usize = 12;

    pub const ALL: [Area; Area::COUNT] = [
        Area::Elf,
        Area::Note,
        Area::Bzimage,
        Area::Line,
        Area::LineLoad,
        Area::Words,
        Area::Page,
        Area::Steps,
        Area::Arm64,
        Area::Start,
        Area::Job,
        Area::Boot,
    ];

    pub fn name(self) -> &'static str {
        match self {
            Area::Elf => "elf",
            Area::Note => "note",
            Area::Bzimage => "bzimage",
            Area::Line => "line",
            Area::LineLoad => "load",
            Area::Words => "words",
            Area::Page => "page",
            Area::Steps => "steps",
            Area::Arm64 => "arm64",
            Area::Start => "start",
            Area::Job => "job",
            Area::Boot => "boot",
        }
    }

    pub fn named(name: &str) -> Option<Area> {
        Area::ALL.into_iter().find(|area| area.name() == name)
    }
}

impl Question {
    pub fn area(&self) -> Area {
        match self {
            Question::Elf(_) => Area::Elf,
            Question::Note(_) => Area::Note,
            Question::Bzimage(_) => Area::Bzimage,
            Question::Line(_) => Area::Line,
            Question::LineLoad(_) => Area::LineLoad,
            Question::Words(_) => Area::Words,
            Question::PageBuild(_) | Question::PageRead(_) => Area::Page,
            Question::Steps(_) => Area::Steps,
            Question::Arm64(_) => Area::Arm64,
            Question::StartWrite(_) | Question::StartCheck(_) => Area::Start,
            Question::Job(_) => Area::Job,
            Question::Boot(_) => Area::Boot,
        }
    }

    /// The guest's first content, or the page's; a question without a guest has an empty one.
    pub fn guest(&self) -> &[u8] {
        match self {
            Question::Elf(load) | Question::Bzimage(load) | Question::Arm64(load) => &load.guest,
            Question::LineLoad(load) => &load.guest,
            Question::PageBuild(build) => &build.page,
            Question::Steps(steps) => &steps.guest,
            Question::StartWrite(write) => &write.guest,
            Question::StartCheck(check) => &check.guest,
            Question::Boot(boot) => &boot.guest,
            Question::Note(_)
            | Question::Line(_)
            | Question::Words(_)
            | Question::PageRead(_)
            | Question::Job(_) => &[],
        }
    }

    /// The guest's map, where one is given; calls of a load in steps have each their own.
    pub fn map(&self) -> Option<&[u64]> {
        match self {
            Question::Elf(load) | Question::Bzimage(load) | Question::Arm64(load) => {
                load.map.as_deref()
            }
            Question::LineLoad(load) => load.map.as_deref(),
            Question::StartWrite(write) => Some(&write.map),
            Question::StartCheck(check) => Some(&check.map),
            Question::Boot(boot) => boot.map.as_deref(),
            Question::Note(_)
            | Question::Line(_)
            | Question::Words(_)
            | Question::PageBuild(_)
            | Question::PageRead(_)
            | Question::Steps(_)
            | Question::Job(_) => None,
        }
    }

    /// The numbers of the guest's map, whether it is given or that of the whole slice.
    pub fn numbers(&self) -> Vec<u64> {
        let given = self.map().map(<[u64]>::to_vec);
        given.unwrap_or_else(|| whole(self.guest().len()))
    }

    /// The same question over a map; one without a guest stays as it is, and so does a load in steps.
    pub fn over(mut self, map: Map) -> Question {
        match &mut self {
            Question::Elf(load) | Question::Bzimage(load) | Question::Arm64(load) => load.map = map,
            Question::LineLoad(load) => load.map = map,
            Question::StartWrite(write) => {
                write.map = map.unwrap_or_else(|| whole(write.guest.len()));
            }
            Question::StartCheck(check) => {
                check.map = map.unwrap_or_else(|| whole(check.guest.len()));
            }
            Question::Boot(boot) => boot.map = map,
            Question::Note(_)
            | Question::Line(_)
            | Question::Words(_)
            | Question::PageBuild(_)
            | Question::PageRead(_)
            | Question::Steps(_)
            | Question::Job(_) => {}
        }
        self
    }
}
