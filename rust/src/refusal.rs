//! Every refusal of the proved library, and its number.

/// Declares the refusals once, each with its number.
macro_rules! refusals {
    ($(#[doc = $meaning:literal] $name:ident = $number:literal,)*) => {
        /// A refusal of the proved library. Its number is what the C entry points answer.
        #[derive(Clone, Copy, Debug, PartialEq, Eq, Hash)]
        #[repr(u32)]
        pub enum Refusal {
            $(#[doc = $meaning] $name = $number,)*
        }

        impl Refusal {
            /// All of them, by number.
            pub const ALL: &'static [Refusal] = &[$(Refusal::$name,)*];

            /// What it means, in a sentence.
            ///
            /// ```
            /// use rekusoyen::Refusal;
            ///
            /// assert_eq!(Refusal::ReadElfHeader.sentence(), "The image ends inside the ELF header.");
            /// ```
            pub fn sentence(self) -> &'static str {
                match self {
                    $(Refusal::$name => $meaning.trim_start(),)*
                }
            }
        }
    };
}

refusals! {
    /// The image does not begin with the four bytes of an ELF file.
    InvalidElfMagicNumber = 1,
    /// The image is not little-endian.
    BigEndianElfOnLittle = 2,
    /// A program header has another size than 56.
    InvalidProgramHeaderSize = 3,
    /// The program headers begin inside the ELF header.
    InvalidProgramHeaderOffset = 4,
    /// The entry address is below the start of high memory.
    InvalidEntryAddress = 5,
    /// A sum does not fit into 64 bits, or the size of a note's name or descriptor, rounded up, into 32.
    Overflow = 6,
    /// The image ends inside the ELF header.
    ReadElfHeader = 7,
    /// The image ends inside the program headers.
    ReadProgramHeader = 8,
    /// The address of a segment does not fit into 64 bits.
    InvalidProgramHeaderAddress = 9,
    /// A segment's bytes are not all in the image, or have no room in guest memory.
    ReadKernelImage = 10,
    /// The image ends inside a note.
    ReadNoteHeader = 11,
    /// The descriptor of the PVH note is shorter than an address.
    InvalidPvhNote = 12,
    /// The end of a segment does not fit into 64 bits.
    MemoryOverflow = 13,
    /// A segment has more bytes in the file than in memory.
    InvalidProgramHeaderFileSize = 14,
    /// The image has no bzImage's setup header.
    InvalidBzImage = 21,
    /// The image is shorter than its setup sectors.
    Underflow = 22,
    /// The kernel's own load address is below the start of high memory.
    InvalidKernelStartAddress = 23,
    /// The kernel's bytes have no room in guest memory.
    ReadBzImageCompressedKernel = 24,
    /// The line cannot be written: it has init arguments alone, or a zero byte.
    InvalidCommandLine = 31,
    /// The line has no room in guest memory at its address.
    CommandLineOverflow = 32,
    /// A capacity is 0, above the limit, or less than a text needs.
    InvalidCapacity = 41,
    /// A text has a byte that is not printable ASCII.
    InvalidAscii = 42,
    /// A key has a space.
    HasSpace = 43,
    /// A key has an equals sign.
    HasEquals = 44,
    /// A key came without a value.
    MissingVal = 45,
    /// A device has size 0.
    MmioSize = 46,
    /// The text has no room in the line.
    TooLarge = 47,
    /// A value with a space is not in quotes.
    NoQuoteSpace = 48,
    /// A value has a quote in its middle.
    InvalidQuote = 49,
    /// The line has init arguments alone.
    NoBootArgsInserted = 50,
    /// The line has a zero byte.
    NullTerminator = 51,
    /// The image or guest memory has more than 2^40 bytes.
    SliceTooLong = 60,
    /// A list of ends is not rising or does not end where the values do, or a list of rows has part of a row or a number that does not fit its field, or a list holds no state.
    BadList = 61,
    /// A lent output has no room, or another size than it must have.
    NoRoom = 62,
    /// The budget of a step is 0.
    NoBudget = 63,
    /// The length of the image or of guest memory, or the map, is not that of the load's first step.
    LentChanged = 64,
    /// The job's table of contents or its bodies are not as they must be.
    BadJob = 70,
    /// A quote of the line is not closed.
    UnclosedQuote = 71,
    /// A list has fewer places than the line has words.
    TooFewPlaces = 72,
    /// The boot page has another size than 4,096 bytes.
    BadPageSize = 73,
    /// The memory map has more than 128 rows.
    TooManyRows = 74,
    /// A row of the memory map is empty, ends at 2^64 or above, or overlaps an earlier one.
    BadRow = 75,
    /// A part of the start block leaves guest memory or one range of its map, overlaps another, or a list has 2^32 rows or more.
    BadPart = 76,
    /// A map is not good: its ranges must be 16 at most, not empty, rising, not touching, and within guest memory.
    BadMap = 77,
    /// The start block has another magic number than 336EC578 hex.
    BadStartMagic = 78,
    /// The start block has another version than 1.
    BadStartVersion = 79,
    /// A reserved field of the start block or of a row of its lists is not 0.
    BadStartReserved = 80,
    /// The image is shorter than the header of an arm64 Image.
    ShortImage = 81,
    /// The image has not the magic number of an arm64 Image.
    BadImageMagic = 82,
    /// The arm64 Image is big-endian.
    BigEndianImage = 83,
    /// The arm64 Image says no size.
    NoImageSize = 84,
    /// The base address is not a multiple of 2 MiB.
    UnalignedBase = 85,
    /// The address of the arm64 Image does not fit into 64 bits.
    ImageStartWraps = 86,
    /// The file of the arm64 Image has no room in one range of guest memory.
    NoRoomForImage = 87,
    /// The end of the arm64 Image does not fit into 64 bits.
    ImageEndWraps = 88,
    /// The line is longer than the kernel takes.
    LineTooLong = 91,
    /// An image of this format is not entered in this way.
    WrongEntry = 92,
    /// The bzImage has no 64-bit entry.
    No64BitEntry = 93,
    /// The image has no PVH entry, and the boot is a PVH boot.
    NoPvhEntry = 94,
    /// The device tree does not hold the line and its zero at the offset that was given.
    LineNotInTree = 95,
    /// The kernel's memory is not in one range of guest memory.
    KernelOutside = 96,
    /// The ramdisk is not in one range of guest memory.
    RamdiskOutside = 97,
    /// The boot page or the device tree is not in one range of guest memory.
    BootDataOutside = 98,
    /// The ramdisk ends above the highest address that the kernel takes.
    RamdiskTooHigh = 99,
    /// The kernel's memory and the line share a byte.
    KernelMeetsLine = 100,
    /// The kernel's memory and the ramdisk share a byte.
    KernelMeetsRamdisk = 101,
    /// The kernel's memory shares a byte with the boot page, the start block or the device tree.
    KernelMeetsBootData = 102,
    /// The line and the ramdisk share a byte.
    LineMeetsRamdisk = 103,
    /// The line shares a byte with the boot page, the start block or the device tree.
    LineMeetsBootData = 104,
    /// The ramdisk shares a byte with the boot page, the start block or the device tree.
    RamdiskMeetsBootData = 105,
    /// The kernel's memory is not all in rows of type 1 of the guest's memory map.
    KernelNotInRows = 106,
    /// The line is not all in rows of type 1 of the guest's memory map.
    LineNotInRows = 107,
    /// The ramdisk is not all in rows of type 1 of the guest's memory map.
    RamdiskNotInRows = 108,
}

impl Refusal {
    /// The number of the refusal.
    pub fn number(self) -> u32 {
        self as u32
    }
}

/// What a C entry point answered: 0 is accepted.
pub(crate) fn answered(number: u32) -> Result<(), Refusal> {
    if number == 0 {
        return Ok(());
    }
    match Refusal::ALL
        .iter()
        .find(|refusal| refusal.number() == number)
    {
        Some(refusal) => Err(*refusal),
        None => unreachable!("the library answers listed numbers only, and answered {number}"),
    }
}
