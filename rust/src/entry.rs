//! The C entry points of the proved library: a slice is a pointer and a length, and the answer is 0 or a refusal's
//! number. `c/rekusoyen.h` of the repository says what each one does and which bytes and numbers it writes; the names
//! that begin with `rekusoyen_raw_` take a list of numbers for a struct of that header.
//!
//! The modules [`loader`](crate::loader) and [`cmdline`](crate::cmdline) are the safe way to them.
//!
//! # Safety
//!
//! Of every function here: each pointer is valid for as many elements as the length after it says, to read, and to
//! write if it is `mut`; what is `mut` overlaps no other argument; and nobody else uses it during the call.

/// How many bytes hold a line.
pub const LINE_SIZE: usize = 24 + 2 * LIMIT;

/// The greatest capacity of a line, its closing zero counted.
pub const LIMIT: usize = 16384;

/// How many bytes a bzImage's setup header has.
pub const SETUP_HEADER_SIZE: usize = 123;

/// How many bytes the boot page has.
pub const PAGE_SIZE: usize = 4096;

/// The most rows of a boot page's memory map.
pub const PAGE_ROWS: usize = 128;

/// How many numbers a boot page's values are.
pub const PAGE_NUMBERS: usize = 4;

/// How many numbers the rows of a boot page take.
pub const PAGE_READ_ROWS: usize = 3 * PAGE_ROWS;

/// The format of an image without a magic number of the other three.
pub const UNKNOWN: u32 = 0;

/// The format ELF.
pub const ELF: u32 = 1;

/// The format bzImage.
pub const BZIMAGE: u32 = 2;

/// The format arm64 Image.
pub const ARM64: u32 = 3;

/// The flag of a load to which an offset is given.
pub const OFFSET_GIVEN: u32 = 1;

/// The flag of a load to which the start of high memory is given.
pub const HIGHMEM_GIVEN: u32 = 2;

/// The flag of a boot to which a limit of the line is given.
pub const LIMIT_GIVEN: u32 = 4;

/// The flag of a boot by zero page in 64-bit mode.
pub const ENTRY_64_BIT: u32 = 8;

/// PVH: there is no note header, an offset was given, or the image is no ELF image.
pub const PVH_IGNORED: u64 = 0;

/// The notes have no PVH entry.
pub const PVH_NOT_PRESENT: u64 = 1;

/// The notes have one, and its address is returned.
pub const PVH_PRESENT: u64 = 2;

/// How many numbers an accepted load returns.
pub const KERNEL_NUMBERS: usize = 6;

/// How many numbers an accepted plan returns.
pub const PLAN_NUMBERS: usize = KERNEL_NUMBERS + 1;

/// How many numbers a part of a load has.
pub const PART_NUMBERS: usize = 3;

/// How many numbers an accepted boot returns.
pub const BOOTED_NUMBERS: usize = KERNEL_NUMBERS + 1;

/// How many numbers hold the state of a load in steps.
pub const STATE_NUMBERS: usize = 50;

/// How many numbers a step returns.
pub const STEP_NUMBERS: usize = 3 + KERNEL_NUMBERS;

/// How many numbers a note walk returns.
pub const NOTE_NUMBERS: usize = 5;

/// How many bytes an image or guest memory has at most.
pub const LONGEST_SLICE: u64 = 1 << 40;

/// How many ranges a map of guest memory has at most.
pub const MAP_RANGES: usize = 16;

/// How many numbers a start block has.
pub const START_BLOCK_NUMBERS: usize = 10;

/// How many numbers a row of either of its lists has.
pub const START_ROW_NUMBERS: usize = 4;

/// The most bytes of a valid job of the desk program.
pub const JOB_LIMIT: usize = 16384;

/// How many bytes take the text of a job.
pub const JOB_TEXT_SIZE: usize = 80;

crate::assembly::entry_points! {
    /// The format of an image by its magic number: [`ELF`], [`BZIMAGE`], [`ARM64`] or [`UNKNOWN`].
    pub fn rekusoyen_kind(image: *const u8, image_len: usize) -> u32;

    /// Loads an image of a format. `map` has the ranges of guest memory, start and size in turn. `kernel` has
    /// [`KERNEL_NUMBERS`] numbers: the load address, the kernel's end, PVH, its entry address, and the offset and
    /// size of the note descriptor that gives it.
    pub fn rekusoyen_raw_load(
        guest: *mut u8,
        guest_len: usize,
        map: *const u64,
        map_len: usize,
        image: *const u8,
        image_len: usize,
        format: u32,
        flags: u32,
        offset: u64,
        highmem: u64,
        kernel: *mut u64,
        kernel_len: usize,
    ) -> u32;

    /// What [`rekusoyen_raw_load`] would answer over guest memory of this size with this map. `plan` has
    /// [`PLAN_NUMBERS`] numbers: those of a load, then the number of parts.
    pub fn rekusoyen_raw_plan(
        memory_size: u64,
        map: *const u64,
        map_len: usize,
        image: *const u8,
        image_len: usize,
        format: u32,
        flags: u32,
        offset: u64,
        highmem: u64,
        plan: *mut u64,
        plan_len: usize,
    ) -> u32;

    /// Part `index` of that load. `part` has [`PART_NUMBERS`] numbers: the guest address, the offset in the image and
    /// the size; all 0 if the part has no bytes or there is no such part.
    pub fn rekusoyen_raw_part(
        memory_size: u64,
        map: *const u64,
        map_len: usize,
        image: *const u8,
        image_len: usize,
        format: u32,
        flags: u32,
        offset: u64,
        index: u64,
        part: *mut u64,
        part_len: usize,
    ) -> u32;

    /// Begins a load in steps: writes its state, [`STATE_NUMBERS`] numbers.
    pub fn rekusoyen_raw_begin(
        state: *mut u64,
        state_len: usize,
        format: u32,
        flags: u32,
        offset: u64,
        highmem: u64,
    ) -> u32;

    /// A step of a load, which copies at most `budget` bytes. `step` has [`STEP_NUMBERS`] numbers: the bytes copied,
    /// 1 if the load answers, the number of the answer, and those of a load.
    pub fn rekusoyen_raw_step(
        guest: *mut u8,
        guest_len: usize,
        map: *const u64,
        map_len: usize,
        image: *const u8,
        image_len: usize,
        state: *mut u64,
        state_len: usize,
        budget: u64,
        step: *mut u64,
        step_len: usize,
    ) -> u32;

    /// Walks the notes of an ELF image. `note` has [`NOTE_NUMBERS`] numbers: PVH, its entry address, how many note
    /// headers were read, and the offset and size of the descriptor that gives it.
    pub fn rekusoyen_raw_elf_note(
        image: *const u8,
        image_len: usize,
        p_offset: u64,
        p_filesz: u64,
        note: *mut u64,
        note_len: usize,
    ) -> u32;

    /// The setup header of a bzImage, [`SETUP_HEADER_SIZE`] bytes, with the low 32 bits of the load address in it.
    pub fn rekusoyen_setup_header(
        image: *const u8,
        image_len: usize,
        load: u64,
        header: *mut u8,
        header_len: usize,
    ) -> u32;

    /// What [`rekusoyen_line_load`] would answer over guest memory of this size with this map.
    pub fn rekusoyen_line_plan(
        memory_size: u64,
        map: *const u64,
        map_len: usize,
        address: u64,
        line: *const u8,
        line_len: usize,
    ) -> u32;

    /// Builds the boot page in [`PAGE_SIZE`] bytes; `header` has [`SETUP_HEADER_SIZE`] bytes, and `rows` three numbers for each row.
    pub fn rekusoyen_page_build(
        page: *mut u8,
        page_len: usize,
        header: *const u8,
        header_len: usize,
        command_line: u32,
        ramdisk: u32,
        ramdisk_size: u32,
        rows: *const u64,
        rows_len: usize,
    ) -> u32;

    /// Reads a boot page. `out` has [`PAGE_NUMBERS`] numbers: how many rows, the command line's address, the
    /// ramdisk's address and size; `rows` has [`PAGE_READ_ROWS`] numbers, and `header` [`SETUP_HEADER_SIZE`] bytes.
    pub fn rekusoyen_raw_page_read(
        page: *const u8,
        page_len: usize,
        out: *mut u64,
        out_len: usize,
        rows: *mut u64,
        rows_len: usize,
        header: *mut u8,
        header_len: usize,
    ) -> u32;

    /// Makes an empty line in [`LINE_SIZE`] bytes.
    pub fn rekusoyen_line_new(line: *mut u8, line_len: usize, capacity: u64) -> u32;

    /// Makes a line from its whole text.
    pub fn rekusoyen_line_try_from(
        line: *mut u8,
        line_len: usize,
        text: *const u8,
        text_len: usize,
        capacity: u64,
    ) -> u32;

    /// Puts `key=value` after the boot text.
    pub fn rekusoyen_line_insert(
        line: *mut u8,
        line_len: usize,
        key: *const u8,
        key_len: usize,
        value: *const u8,
        value_len: usize,
    ) -> u32;

    /// Puts `key=value,value..` after the boot text. `ends` says where in `values` each value ends.
    pub fn rekusoyen_line_insert_multiple(
        line: *mut u8,
        line_len: usize,
        key: *const u8,
        key_len: usize,
        values: *const u8,
        values_len: usize,
        ends: *const usize,
        ends_len: usize,
    ) -> u32;

    /// Puts a text after the boot text, without the blanks at its ends.
    pub fn rekusoyen_line_insert_str(
        line: *mut u8,
        line_len: usize,
        slug: *const u8,
        slug_len: usize,
    ) -> u32;

    /// Puts a text after the init text, without the blanks at its ends.
    pub fn rekusoyen_line_insert_init_args(
        line: *mut u8,
        line_len: usize,
        slug: *const u8,
        slug_len: usize,
    ) -> u32;

    /// Puts the text of a virtio MMIO device after the boot text; `id` is used if `has_id` is not 0.
    pub fn rekusoyen_line_add_virtio_mmio_device(
        line: *mut u8,
        line_len: usize,
        size: u64,
        address: u64,
        irq: u32,
        has_id: u32,
        id: u32,
    ) -> u32;

    /// Writes the line and its closing zero; `count` has one number, for how many bytes that took.
    pub fn rekusoyen_raw_line_as_cstring(
        line: *const u8,
        line_len: usize,
        out: *mut u8,
        out_len: usize,
        count: *mut u64,
        count_len: usize,
    ) -> u32;

    /// Compares two lines by what would be written of them; `out` has one number, 1 if they are equal and else 0.
    pub fn rekusoyen_raw_line_equal(
        a: *const u8,
        a_len: usize,
        b: *const u8,
        b_len: usize,
        out: *mut u64,
        out_len: usize,
    ) -> u32;

    /// Writes the line and its closing zero into guest memory.
    pub fn rekusoyen_line_load(
        guest: *mut u8,
        guest_len: usize,
        map: *const u64,
        map_len: usize,
        address: u64,
        line: *const u8,
        line_len: usize,
    ) -> u32;

    /// Reads the words of a line without its zero into three lists: where each starts, the index after its last byte,
    /// and where its key ends. `out` has one number: how many words there are, or the index of a quote that is not
    /// closed.
    pub fn rekusoyen_raw_line_words(
        text: *const u8,
        text_len: usize,
        starts: *mut u64,
        starts_len: usize,
        ends: *mut u64,
        ends_len: usize,
        splits: *mut u64,
        splits_len: usize,
        out: *mut u64,
        out_len: usize,
    ) -> u32;

    /// Writes the PVH start block and its lists, four numbers a row, into guest memory. A refusal leaves it as it was.
    pub fn rekusoyen_start_write(
        guest: *mut u8,
        guest_len: usize,
        map: *const u64,
        map_len: usize,
        block: u64,
        modules_at: u64,
        ranges_at: u64,
        flags: u32,
        command_line: u64,
        rsdp: u64,
        modules: *const u64,
        modules_len: usize,
        ranges: *const u64,
        ranges_len: usize,
    ) -> u32;

    /// Checks the start block at an address: 0 if it is accepted, else the number of what is wrong first.
    pub fn rekusoyen_start_check(
        guest: *const u8,
        guest_len: usize,
        map: *const u64,
        map_len: usize,
        block: u64,
    ) -> u32;

    /// Reads the ten numbers of a start block into a list of ten; a byte past the end of guest memory is read as 0.
    pub fn rekusoyen_raw_start_block(
        guest: *const u8,
        guest_len: usize,
        block: u64,
        numbers: *mut u64,
        numbers_len: usize,
    ) -> u32;

    /// Reads rows of modules, four numbers each, as many numbers as the list takes.
    pub fn rekusoyen_start_modules(
        guest: *const u8,
        guest_len: usize,
        modules: u64,
        numbers: *mut u64,
        numbers_len: usize,
    );

    /// Reads rows of a memory map in the same way, four numbers each.
    pub fn rekusoyen_start_ranges(
        guest: *const u8,
        guest_len: usize,
        ranges: u64,
        numbers: *mut u64,
        numbers_len: usize,
    );

    /// Puts all pieces of a boot by zero page into guest memory. `rows` has three numbers for each row. `booted` has
    /// [`BOOTED_NUMBERS`] numbers: those of a load, then the address at which the kernel is entered.
    pub fn rekusoyen_raw_boot_zero_page(
        guest: *mut u8,
        guest_len: usize,
        map: *const u64,
        map_len: usize,
        image: *const u8,
        image_len: usize,
        format: u32,
        flags: u32,
        offset: u64,
        highmem: u64,
        limit: u32,
        text: *const u8,
        text_len: usize,
        init: *const u8,
        init_len: usize,
        ramdisk: *const u8,
        ramdisk_len: usize,
        rows: *const u64,
        rows_len: usize,
        line: u32,
        ramdisk_at: u32,
        page: u32,
        booted: *mut u64,
        booted_len: usize,
    ) -> u32;

    /// The same by PVH. `rows` has four numbers for each row.
    pub fn rekusoyen_raw_boot_pvh(
        guest: *mut u8,
        guest_len: usize,
        map: *const u64,
        map_len: usize,
        image: *const u8,
        image_len: usize,
        format: u32,
        flags: u32,
        offset: u64,
        highmem: u64,
        limit: u32,
        text: *const u8,
        text_len: usize,
        init: *const u8,
        init_len: usize,
        ramdisk: *const u8,
        ramdisk_len: usize,
        rows: *const u64,
        rows_len: usize,
        line: u64,
        ramdisk_at: u64,
        block: u32,
        rsdp: u64,
        booted: *mut u64,
        booted_len: usize,
    ) -> u32;

    /// The same with a device tree, which holds the text and a zero at an offset.
    pub fn rekusoyen_raw_boot_tree(
        guest: *mut u8,
        guest_len: usize,
        map: *const u64,
        map_len: usize,
        image: *const u8,
        image_len: usize,
        format: u32,
        flags: u32,
        offset: u64,
        highmem: u64,
        limit: u32,
        text: *const u8,
        text_len: usize,
        ramdisk: *const u8,
        ramdisk_len: usize,
        tree: *const u8,
        tree_len: usize,
        line_offset: u64,
        ramdisk_at: u64,
        tree_at: u64,
        booted: *mut u64,
        booted_len: usize,
    ) -> u32;

    /// What [`rekusoyen_raw_boot_zero_page`] would answer over guest memory of this size with this map.
    pub fn rekusoyen_raw_boot_zero_page_plan(
        memory_size: u64,
        map: *const u64,
        map_len: usize,
        image: *const u8,
        image_len: usize,
        format: u32,
        flags: u32,
        offset: u64,
        highmem: u64,
        limit: u32,
        text: *const u8,
        text_len: usize,
        init: *const u8,
        init_len: usize,
        ramdisk_len: u64,
        rows: *const u64,
        rows_len: usize,
        line: u32,
        ramdisk_at: u32,
        page: u32,
        booted: *mut u64,
        booted_len: usize,
    ) -> u32;

    /// What [`rekusoyen_raw_boot_pvh`] would answer over guest memory of this size with this map.
    pub fn rekusoyen_raw_boot_pvh_plan(
        memory_size: u64,
        map: *const u64,
        map_len: usize,
        image: *const u8,
        image_len: usize,
        format: u32,
        flags: u32,
        offset: u64,
        highmem: u64,
        limit: u32,
        text: *const u8,
        text_len: usize,
        init: *const u8,
        init_len: usize,
        ramdisk_len: u64,
        rows: *const u64,
        rows_len: usize,
        line: u64,
        ramdisk_at: u64,
        block: u32,
        rsdp: u64,
        booted: *mut u64,
        booted_len: usize,
    ) -> u32;

    /// What [`rekusoyen_raw_boot_tree`] would answer over guest memory of this size with this map.
    pub fn rekusoyen_raw_boot_tree_plan(
        memory_size: u64,
        map: *const u64,
        map_len: usize,
        image: *const u8,
        image_len: usize,
        format: u32,
        flags: u32,
        offset: u64,
        highmem: u64,
        limit: u32,
        text: *const u8,
        text_len: usize,
        ramdisk_len: u64,
        tree: *const u8,
        tree_len: usize,
        line_offset: u64,
        ramdisk_at: u64,
        tree_at: u64,
        booted: *mut u64,
        booted_len: usize,
    ) -> u32;

    /// Checks that a line is no longer than the kernel takes.
    pub fn rekusoyen_line_check(
        image: *const u8,
        image_len: usize,
        format: u32,
        flags: u32,
        limit: u32,
        text: *const u8,
        text_len: usize,
        init: *const u8,
        init_len: usize,
    ) -> u32;

    /// 1 if so many bytes have room at an address, or if there are none; else 0.
    pub fn rekusoyen_has_room(
        memory_size: u64,
        map: *const u64,
        map_len: usize,
        address: u64,
        size: u64,
    ) -> u32;

    /// Writes bytes into guest memory.
    pub fn rekusoyen_put(
        guest: *mut u8,
        guest_len: usize,
        map: *const u64,
        map_len: usize,
        address: u64,
        bytes: *const u8,
        bytes_len: usize,
    ) -> u32;

    /// The lowest address at which a piece fits; `address` has one number.
    pub fn rekusoyen_raw_place(
        memory_size: u64,
        map: *const u64,
        map_len: usize,
        placed: *const u64,
        placed_len: usize,
        low: u64,
        high: u64,
        align: u64,
        size: u64,
        address: *mut u64,
        address_len: usize,
    ) -> u32;

    /// The highest address at which it fits.
    pub fn rekusoyen_raw_place_high(
        memory_size: u64,
        map: *const u64,
        map_len: usize,
        placed: *const u64,
        placed_len: usize,
        low: u64,
        high: u64,
        align: u64,
        size: u64,
        address: *mut u64,
        address_len: usize,
    ) -> u32;

    /// Does a job of the desk program. `text` has [`JOB_TEXT_SIZE`] bytes: what that program prints, and zeros after it.
    pub fn rekusoyen_job(
        job: *const u8,
        job_len: usize,
        text: *mut u8,
        text_len: usize,
    ) -> u32;
}
