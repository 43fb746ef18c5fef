/*
 * The proved kernel loader for C and C++: ELF images with their PVH note, bzImages, arm64 Images, the kernel command
 * line, and a whole boot by one call. A program includes this header and links the library, static or shared, which
 * `make -C c` builds and installs: `cc program.c $(pkg-config --cflags --libs rekusoyen)`; or it takes the library's
 * text as one more source file, rust/assembly/rekusoyen.S.
 *
 * Answers. Every function that returns a uint32_t, but rekusoyen_kind and rekusoyen_has_room, returns
 * REKUSOYEN_ACCEPTED or one refusal. Its comment lists its refusals in the order in which they are checked, without the
 * prefix REKUSOYEN_: the first whose condition holds is the answer. What a comment does not name as changed is as it
 * was before the call.
 *
 * Results. A function that returns more than an answer writes it to a struct of numbers with names, or to one number.
 * Such a function is `static inline`, over one of the same name with the prefix rekusoyen_raw_, which takes the struct
 * as a list of its numbers with the length of the list: REKUSOYEN_.._NUMBERS, or 1. Before everything else a raw
 * function that returns an answer refuses a list of another length with NO_ROOM; the inline functions pass the right
 * one. The raw functions are for bindings of other languages.
 *
 * What the caller must ensure. A slice is two arguments, a pointer and the number of its elements. The library trusts
 * them, in a refused call too:
 *   - The pointer is valid for all its elements: to read, and if it is not const to write. The same is true of a
 *     result.
 *   - If the length is 0, nothing is read or written through the pointer, and any pointer will do, NULL too. NULL with
 *     another length never will.
 *   - What is not const overlaps no other argument. Const arguments may overlap each other.
 *   - During the call nothing else, the guest included, writes to an argument, nor reads one that is not const.
 *   - A list of uint64_t or size_t is aligned as its element type requires. Bytes need no alignment.
 * Everything else is checked: every number, every length and every byte gets an answer.
 *
 * What else the library does. It keeps nothing between calls, has no global state, allocates nothing, makes no system
 * call, and calls nothing but memcpy, memmove and memset, which the program provides. Calls may run on many threads at
 * once, each on its own buffers; const arguments may be shared.
 */
#ifndef REKUSOYEN_H
#define REKUSOYEN_H

#include <stddef.h>
#include <stdint.h>

#if SIZE_MAX != UINT64_MAX
#error "the library is made for processors whose size_t has 64 bits"
#endif

#ifdef __cplusplus
extern "C" {
#endif

/* What a function answers. */
enum rekusoyen_answer {
    REKUSOYEN_ACCEPTED = 0,

    /* ELF */
    REKUSOYEN_INVALID_ELF_MAGIC_NUMBER = 1,        /* the image does not begin with 7F, then ELF */
    REKUSOYEN_BIG_ENDIAN_ELF_ON_LITTLE = 2,        /* byte 5 is not 1: the numbers are not little-endian */
    REKUSOYEN_INVALID_PROGRAM_HEADER_SIZE = 3,     /* e_phentsize is not 56 */
    REKUSOYEN_INVALID_PROGRAM_HEADER_OFFSET = 4,   /* e_phoff is below 64 */
    REKUSOYEN_INVALID_ENTRY_ADDRESS = 5,           /* e_entry is below the start of high memory */
    REKUSOYEN_OVERFLOW = 6,                        /* offset + e_entry is 2^64 or more, or a note's size is too great */
    REKUSOYEN_READ_ELF_HEADER = 7,                 /* the image has fewer than 64 bytes */
    REKUSOYEN_READ_PROGRAM_HEADER = 8,             /* the program headers pass the image */
    REKUSOYEN_INVALID_PROGRAM_HEADER_ADDRESS = 9,  /* offset + p_paddr is 2^64 or more */
    REKUSOYEN_READ_KERNEL_IMAGE = 10,              /* a segment's bytes pass the image, or are in no memory range */
    REKUSOYEN_READ_NOTE_HEADER = 11,               /* a note passes the image */
    REKUSOYEN_INVALID_PVH_NOTE = 12,               /* the PVH note's descriptor has fewer than 4 bytes */
    REKUSOYEN_MEMORY_OVERFLOW = 13,                /* a segment's address + p_memsz is 2^64 or more */
    REKUSOYEN_INVALID_PROGRAM_HEADER_FILE_SIZE = 14, /* a segment's p_filesz is above its p_memsz */

    /* bzImage */
    REKUSOYEN_INVALID_BZ_IMAGE = 21,               /* not a bzImage of protocol 2.00 or later that is loaded high */
    REKUSOYEN_UNDERFLOW = 22,                      /* the image ends before its setup does */
    REKUSOYEN_INVALID_KERNEL_START_ADDRESS = 23,   /* code32_start is below the start of high memory */
    REKUSOYEN_READ_BZ_IMAGE_COMPRESSED_KERNEL = 24, /* the kernel lies within no range of guest memory */

    /* a line put into guest memory */
    REKUSOYEN_INVALID_COMMAND_LINE = 31,           /* writing it is refused for its text */
    REKUSOYEN_COMMAND_LINE_OVERFLOW = 32,          /* it and its zero lie within no range of guest memory */

    /* a line built */
    REKUSOYEN_INVALID_CAPACITY = 41,               /* capacity not 1 to 16384, text too long, or bytes of no line */
    REKUSOYEN_INVALID_ASCII = 42,                  /* a byte outside 32 to 126 */
    REKUSOYEN_HAS_SPACE = 43,                      /* a space in a key */
    REKUSOYEN_HAS_EQUALS = 44,                     /* an equals sign in a key */
    REKUSOYEN_MISSING_VAL = 45,                    /* a list without values */
    REKUSOYEN_MMIO_SIZE = 46,                      /* a device of size 0 */
    REKUSOYEN_TOO_LARGE = 47,                      /* no room left within the capacity */
    REKUSOYEN_NO_QUOTE_SPACE = 48,                 /* a space in a value that is not quoted */
    REKUSOYEN_INVALID_QUOTE = 49,                  /* a quote strictly inside a value */

    /* a line written */
    REKUSOYEN_NO_BOOT_ARGS_INSERTED = 50,          /* init text without boot text */
    REKUSOYEN_NULL_TERMINATOR = 51,                /* a zero byte in the text */

    /* limits of the arguments */
    REKUSOYEN_SLICE_TOO_LONG = 60,                 /* an image or guest memory of more than 2^40 bytes */
    REKUSOYEN_BAD_LIST = 61,                       /* ends that fall or do not end with the values; part of a row, or
                                                    * a number that does not fit its field; an unknown format or
                                                    * entry; a state that no call wrote */
    REKUSOYEN_NO_ROOM = 62,                        /* a buffer of a wrong size, or one too short for the line */

    /* a load in steps */
    REKUSOYEN_NO_BUDGET = 63,                      /* a budget of 0 */
    REKUSOYEN_LENT_CHANGED = 64,                   /* image length, memory size or map is not the first step's */

    /* a job of the desk program */
    REKUSOYEN_BAD_JOB = 70,                        /* a job that breaks a rule: only the desk program answers it */

    /* the words of a line */
    REKUSOYEN_UNCLOSED_QUOTE = 71,                 /* the number of quotes is odd */
    REKUSOYEN_TOO_FEW_PLACES = 72,                 /* a list has fewer places than the line has words */

    /* the boot page */
    REKUSOYEN_BAD_PAGE_SIZE = 73,                  /* a page that has not 4096 bytes */
    REKUSOYEN_TOO_MANY_ROWS = 74,                  /* more than 128 rows */
    REKUSOYEN_BAD_ROW = 75,                        /* a row that is empty, ends at 2^64 or above, or overlaps another */

    /* the PVH start block */
    REKUSOYEN_BAD_PART = 76,                       /* a part that is not in one range of guest memory, or overlaps
                                                    * another, or a list of 2^32 rows or more */

    /* guest memory */
    REKUSOYEN_BAD_MAP = 77,                        /* a map that is not valid: see the map of guest memory below */

    /* a start block that is checked */
    REKUSOYEN_BAD_START_MAGIC = 78,                /* the block's magic number is not 336EC578 hex */
    REKUSOYEN_BAD_START_VERSION = 79,              /* the block's version is not 1 */
    REKUSOYEN_BAD_START_RESERVED = 80,             /* a reserved field of the block or of a row is not 0 */

    /* arm64 */
    REKUSOYEN_SHORT_IMAGE = 81,                    /* an image of fewer than 64 bytes */
    REKUSOYEN_BAD_IMAGE_MAGIC = 82,                /* the magic number is not 644D5241 hex */
    REKUSOYEN_BIG_ENDIAN_IMAGE = 83,               /* bit 0 of the flags is set */
    REKUSOYEN_NO_IMAGE_SIZE = 84,                  /* the image size is 0 */
    REKUSOYEN_UNALIGNED_BASE = 85,                 /* the base is not a multiple of 2 MiB */
    REKUSOYEN_IMAGE_START_WRAPS = 86,              /* base and text offset add up to 2^64 or more */
    REKUSOYEN_NO_ROOM_FOR_IMAGE = 87,              /* the file has no room in one range of guest memory */
    REKUSOYEN_IMAGE_END_WRAPS = 88,                /* start and image size add up to 2^64 or more */

    /* a whole boot */
    REKUSOYEN_LINE_TOO_LONG = 91,                  /* a line longer than the kernel takes */
    REKUSOYEN_WRONG_ENTRY = 92,                    /* an image of this format is not entered in this way */
    REKUSOYEN_NO_64_BIT_ENTRY = 93,                /* a bzImage whose xloadflags have no 64-bit entry */
    REKUSOYEN_NO_PVH_ENTRY = 94,                   /* a PVH boot of an image without a PVH entry */
    REKUSOYEN_LINE_NOT_IN_TREE = 95,               /* the device tree has not the line and its zero at the offset */
    REKUSOYEN_KERNEL_OUTSIDE = 96,                 /* kernel memory that is not in one range of guest memory */
    REKUSOYEN_RAMDISK_OUTSIDE = 97,                /* a ramdisk that is not in one range of guest memory */
    REKUSOYEN_BOOT_DATA_OUTSIDE = 98,              /* a page or device tree that is not in one range of guest memory */
    REKUSOYEN_RAMDISK_TOO_HIGH = 99,               /* a ramdisk that ends above initrd_addr_max */
    REKUSOYEN_KERNEL_MEETS_LINE = 100,             /* kernel memory and the line share a byte */
    REKUSOYEN_KERNEL_MEETS_RAMDISK = 101,          /* kernel memory and the ramdisk share a byte */
    REKUSOYEN_KERNEL_MEETS_BOOT_DATA = 102,        /* kernel memory shares a byte with page, start block or tree */
    REKUSOYEN_LINE_MEETS_RAMDISK = 103,            /* the line and the ramdisk share a byte */
    REKUSOYEN_LINE_MEETS_BOOT_DATA = 104,          /* the line shares a byte with page, start block or tree */
    REKUSOYEN_RAMDISK_MEETS_BOOT_DATA = 105,       /* the ramdisk shares a byte with page, start block or tree */
    REKUSOYEN_KERNEL_NOT_IN_ROWS = 106,            /* kernel memory outside the memory map's rows of type 1 */
    REKUSOYEN_LINE_NOT_IN_ROWS = 107,              /* a line outside the memory map's rows of type 1 */
    REKUSOYEN_RAMDISK_NOT_IN_ROWS = 108            /* a ramdisk outside the memory map's rows of type 1 */
};

/* Every answer with what it means: ROW(NAME, SENTENCE), the name without its prefix. For tables of a program's own. */
#define REKUSOYEN_ANSWERS(ROW) \
    ROW(ACCEPTED, "The call was accepted.") \
    ROW(INVALID_ELF_MAGIC_NUMBER, "The image does not begin with the four bytes of an ELF file.") \
    ROW(BIG_ENDIAN_ELF_ON_LITTLE, "The image is not little-endian.") \
    ROW(INVALID_PROGRAM_HEADER_SIZE, "A program header has another size than 56.") \
    ROW(INVALID_PROGRAM_HEADER_OFFSET, "The program headers begin inside the ELF header.") \
    ROW(INVALID_ENTRY_ADDRESS, "The entry address is below the start of high memory.") \
    ROW(OVERFLOW, "A sum does not fit into 64 bits, or the size of a note's name or descriptor, rounded up, into 32.") \
    ROW(READ_ELF_HEADER, "The image ends inside the ELF header.") \
    ROW(READ_PROGRAM_HEADER, "The image ends inside the program headers.") \
    ROW(INVALID_PROGRAM_HEADER_ADDRESS, "The address of a segment does not fit into 64 bits.") \
    ROW(READ_KERNEL_IMAGE, "A segment's bytes are not all in the image, or have no room in guest memory.") \
    ROW(READ_NOTE_HEADER, "The image ends inside a note.") \
    ROW(INVALID_PVH_NOTE, "The descriptor of the PVH note is shorter than an address.") \
    ROW(MEMORY_OVERFLOW, "The end of a segment does not fit into 64 bits.") \
    ROW(INVALID_PROGRAM_HEADER_FILE_SIZE, "A segment has more bytes in the file than in memory.") \
    ROW(INVALID_BZ_IMAGE, "The image has no bzImage's setup header.") \
    ROW(UNDERFLOW, "The image is shorter than its setup sectors.") \
    ROW(INVALID_KERNEL_START_ADDRESS, "The kernel's own load address is below the start of high memory.") \
    ROW(READ_BZ_IMAGE_COMPRESSED_KERNEL, "The kernel's bytes have no room in guest memory.") \
    ROW(INVALID_COMMAND_LINE, "The line cannot be written: it has init arguments alone, or a zero byte.") \
    ROW(COMMAND_LINE_OVERFLOW, "The line has no room in guest memory at its address.") \
    ROW(INVALID_CAPACITY, "A capacity is 0, above the limit, or less than a text needs.") \
    ROW(INVALID_ASCII, "A text has a byte that is not printable ASCII.") \
    ROW(HAS_SPACE, "A key has a space.") \
    ROW(HAS_EQUALS, "A key has an equals sign.") \
    ROW(MISSING_VAL, "A key came without a value.") \
    ROW(MMIO_SIZE, "A device has size 0.") \
    ROW(TOO_LARGE, "The text has no room in the line.") \
    ROW(NO_QUOTE_SPACE, "A value with a space is not in quotes.") \
    ROW(INVALID_QUOTE, "A value has a quote in its middle.") \
    ROW(NO_BOOT_ARGS_INSERTED, "The line has init arguments alone.") \
    ROW(NULL_TERMINATOR, "The line has a zero byte.") \
    ROW(SLICE_TOO_LONG, "The image or guest memory has more than 2^40 bytes.") \
    ROW(BAD_LIST, "A list of ends is not rising or does not end where the values do, or a list of rows has part of a row or a number that does not fit its field, or a list holds no state.") \
    ROW(NO_ROOM, "A lent output has no room, or another size than it must have.") \
    ROW(NO_BUDGET, "The budget of a step is 0.") \
    ROW(LENT_CHANGED, "The length of the image or of guest memory, or the map, is not that of the load's first step.") \
    ROW(BAD_JOB, "The job's table of contents or its bodies are not as they must be.") \
    ROW(UNCLOSED_QUOTE, "A quote of the line is not closed.") \
    ROW(TOO_FEW_PLACES, "A list has fewer places than the line has words.") \
    ROW(BAD_PAGE_SIZE, "The boot page has another size than 4,096 bytes.") \
    ROW(TOO_MANY_ROWS, "The memory map has more than 128 rows.") \
    ROW(BAD_ROW, "A row of the memory map is empty, ends at 2^64 or above, or overlaps an earlier one.") \
    ROW(BAD_PART, "A part of the start block leaves guest memory or one range of its map, overlaps another, or a list has 2^32 rows or more.") \
    ROW(BAD_MAP, "A map is not good: its ranges must be 16 at most, not empty, rising, not touching, and within guest memory.") \
    ROW(BAD_START_MAGIC, "The start block has another magic number than 336EC578 hex.") \
    ROW(BAD_START_VERSION, "The start block has another version than 1.") \
    ROW(BAD_START_RESERVED, "A reserved field of the start block or of a row of its lists is not 0.") \
    ROW(SHORT_IMAGE, "The image is shorter than the header of an arm64 Image.") \
    ROW(BAD_IMAGE_MAGIC, "The image has not the magic number of an arm64 Image.") \
    ROW(BIG_ENDIAN_IMAGE, "The arm64 Image is big-endian.") \
    ROW(NO_IMAGE_SIZE, "The arm64 Image says no size.") \
    ROW(UNALIGNED_BASE, "The base address is not a multiple of 2 MiB.") \
    ROW(IMAGE_START_WRAPS, "The address of the arm64 Image does not fit into 64 bits.") \
    ROW(NO_ROOM_FOR_IMAGE, "The file of the arm64 Image has no room in one range of guest memory.") \
    ROW(IMAGE_END_WRAPS, "The end of the arm64 Image does not fit into 64 bits.") \
    ROW(LINE_TOO_LONG, "The line is longer than the kernel takes.") \
    ROW(WRONG_ENTRY, "An image of this format is not entered in this way.") \
    ROW(NO_64_BIT_ENTRY, "The bzImage has no 64-bit entry.") \
    ROW(NO_PVH_ENTRY, "The image has no PVH entry, and the boot is a PVH boot.") \
    ROW(LINE_NOT_IN_TREE, "The device tree does not hold the line and its zero at the offset that was given.") \
    ROW(KERNEL_OUTSIDE, "The kernel's memory is not in one range of guest memory.") \
    ROW(RAMDISK_OUTSIDE, "The ramdisk is not in one range of guest memory.") \
    ROW(BOOT_DATA_OUTSIDE, "The boot page or the device tree is not in one range of guest memory.") \
    ROW(RAMDISK_TOO_HIGH, "The ramdisk ends above the highest address that the kernel takes.") \
    ROW(KERNEL_MEETS_LINE, "The kernel's memory and the line share a byte.") \
    ROW(KERNEL_MEETS_RAMDISK, "The kernel's memory and the ramdisk share a byte.") \
    ROW(KERNEL_MEETS_BOOT_DATA, "The kernel's memory shares a byte with the boot page, the start block or the device tree.") \
    ROW(LINE_MEETS_RAMDISK, "The line and the ramdisk share a byte.") \
    ROW(LINE_MEETS_BOOT_DATA, "The line shares a byte with the boot page, the start block or the device tree.") \
    ROW(RAMDISK_MEETS_BOOT_DATA, "The ramdisk shares a byte with the boot page, the start block or the device tree.") \
    ROW(KERNEL_NOT_IN_ROWS, "The kernel's memory is not all in rows of type 1 of the guest's memory map.") \
    ROW(LINE_NOT_IN_ROWS, "The line is not all in rows of type 1 of the guest's memory map.") \
    ROW(RAMDISK_NOT_IN_ROWS, "The ramdisk is not all in rows of type 1 of the guest's memory map.")

/* The name of an answer without its prefix, as "READ_KERNEL_IMAGE"; NULL of a number that no function answers. */
static inline const char *rekusoyen_answer_name(uint32_t answer)
{
    switch (answer) {
#define REKUSOYEN_ROW(name, sentence) case REKUSOYEN_##name: return #name;
    REKUSOYEN_ANSWERS(REKUSOYEN_ROW)
#undef REKUSOYEN_ROW
    default: return NULL;
    }
}

/* What an answer means, in a sentence; NULL of a number that no function answers. */
static inline const char *rekusoyen_answer_sentence(uint32_t answer)
{
    switch (answer) {
#define REKUSOYEN_ROW(name, sentence) case REKUSOYEN_##name: return sentence;
    REKUSOYEN_ANSWERS(REKUSOYEN_ROW)
#undef REKUSOYEN_ROW
    default: return NULL;
    }
}

/*
 * The stack that a call uses at most, without what memcpy, memmove and memset themselves use: a load of an image, its
 * plan or a part of it, a note walk, a boot page or a start block; a load in steps, its begin and a step; a call on a
 * line; a whole boot, its plan, and the calls for its pieces; and a job, which has its guest memory there. The tests of
 * this header measure every function (c/tests/stack.c).
 */
#define REKUSOYEN_LOAD_STACK_SIZE ((size_t)2048)
#define REKUSOYEN_STEP_STACK_SIZE ((size_t)8192)
#define REKUSOYEN_LINE_STACK_SIZE ((size_t)4096)
#define REKUSOYEN_BOOT_STACK_SIZE ((size_t)8192)
#define REKUSOYEN_JOB_STACK_SIZE ((size_t)262144)

/* ---- guest memory */

/* The greatest length of an image and of guest memory. Texts have none. */
#define REKUSOYEN_LONGEST_SLICE ((uint64_t)1 << 40)

/*
 * Guest memory is a slice, whose first byte is at guest address 0, and a map of it: the ranges of the slice in which
 * there is memory. All else is a hole, and no call changes a byte there. A map is a list of numbers: the start of a
 * range and its size in bytes, the start and the size of the next, and so on. A map is valid if
 *   - it has 0 to REKUSOYEN_MAP_RANGES ranges, of two numbers each;
 *   - no range is empty, and each ends within the slice;
 *   - each begins after the end of the one before, with a byte or more between them: ranges that touch are one range.
 * Guest memory without holes has the one range of start 0 and size guest_len, and no range if guest_len is 0. No range
 * over a slice that is not empty is a valid map, too, in which nothing has room.
 *
 * Bytes have room at an address if all of them are within one range.
 */
#define REKUSOYEN_MAP_RANGES 16

/* ---- loads */

/* The formats of an image. */
#define REKUSOYEN_UNKNOWN 0u
#define REKUSOYEN_ELF 1u
#define REKUSOYEN_BZIMAGE 2u
#define REKUSOYEN_ARM64 3u

/* Flags of a load: which of its two addresses are given. Other bits, and addresses not given, are not looked at. */
#define REKUSOYEN_OFFSET_GIVEN 1u
#define REKUSOYEN_HIGHMEM_GIVEN 2u

/* PVH, as a load or a note walk returns it. */
#define REKUSOYEN_PVH_IGNORED 0u     /* no note header, or an offset was given; every bzImage and arm64 Image */
#define REKUSOYEN_PVH_NOT_PRESENT 1u /* the notes have no PVH entry */
#define REKUSOYEN_PVH_PRESENT 2u     /* the notes have one, and its address is returned */

/* What an accepted load returns. */
#define REKUSOYEN_KERNEL_NUMBERS 6
struct rekusoyen_kernel {
    uint64_t load;       /* the load address */
    uint64_t end;        /* the kernel's end */
    uint64_t pvh;        /* the PVH code; if it is not REKUSOYEN_PVH_PRESENT, the next three are 0 */
    uint64_t pvh_entry;  /* the PVH address */
    uint64_t pvh_offset; /* the offset in the image of the descriptor that it was read from */
    uint64_t pvh_size;   /* the size of that descriptor, as its note header has it */
};

/*
 * The three formats. Each says what offset and highmem mean if they are given, what a load returns, which refusals it
 * has after those that all loads have, its parts, which are the image bytes that it copies, and its footprint: the only
 * image bytes that its plan depends on, as far as the image goes. Every number in an image has its least byte first.
 *
 * REKUSOYEN_ELF
 *   offset     is added to every segment's p_paddr and to the load address
 *   highmem    e_entry, before the offset is added, must not be below it
 *   load       e_entry, plus the offset
 *   end        the greatest address + p_memsz of the loadable segments, 0 without any; it may be past guest memory
 *   pvh        of all program headers of type 4 (notes), in file order, the first PVH entry that rekusoyen_elf_note
 *              finds in the p_filesz bytes at p_offset. Note headers after it are still walked, and may refuse the
 *              load, but change nothing else. If none has an entry PVH is not present. Without a note header, or if an
 *              offset is given, PVH is ignored, and no notes are walked
 *   refusals   READ_ELF_HEADER                   image_len is below 64
 *              INVALID_ELF_MAGIC_NUMBER, BIG_ENDIAN_ELF_ON_LITTLE, INVALID_PROGRAM_HEADER_SIZE,
 *              INVALID_PROGRAM_HEADER_OFFSET
 *              INVALID_ENTRY_ADDRESS             highmem is given, and e_entry is below it
 *              OVERFLOW                          offset + e_entry is 2^64 or more
 *              READ_PROGRAM_HEADER               e_phnum is above 0, and the program headers pass the image
 *              and then of each program header in turn, of a loadable one that is not empty in both sizes:
 *              INVALID_PROGRAM_HEADER_FILE_SIZE  p_filesz is above p_memsz
 *              INVALID_PROGRAM_HEADER_ADDRESS    offset + p_paddr is 2^64 or more
 *              READ_KERNEL_IMAGE                 p_filesz is above 0, and its bytes pass the image, or have no room
 *              MEMORY_OVERFLOW                   its address + p_memsz is 2^64 or more
 *              and of one with notes, if no offset is given: READ_NOTE_HEADER, OVERFLOW and INVALID_PVH_NOTE as of
 *              rekusoyen_elf_note
 *   parts      one for each program header, in file order. That of type 1 (loadable) with p_filesz above 0 is its
 *              p_filesz bytes, which go to p_paddr plus the offset; guest memory after them, up to p_memsz, is not
 *              cleared. One of type 1 with p_filesz 0 and p_memsz above 0 is memory only: it counts for the kernel's
 *              end, nothing is copied, and guest memory need not have it. All others have no bytes
 *   footprint  0 to 63; the program headers, e_phnum times 56 bytes from e_phoff on; and, if no offset is given, of
 *              each program header of type 4 with p_filesz above 0 the p_filesz + 19 bytes from p_offset on. A note
 *              begins within its p_filesz bytes, and of a note 20 bytes are looked at: its header, its name and the
 *              first 4 bytes of its descriptor
 *   time       grows with the bytes that are copied, with the program headers, and with the note headers that are
 *              looked at. These can be many more than the image has: every program header of type 4 is walked, and all
 *              may be over the same notes. One walk looks at (p_filesz + 11) / 12 note headers at most, a load at 65535
 *              times as many; an image of 4 MiB can make it look at 2,863 million, which can take half a minute
 *              (docs/SPEED.md). A program that takes untrusted images can set a limit before the load: read the program
 *              headers, add up p_filesz over those of type 4, and refuse an image whose sum is above it. A Linux kernel
 *              has one such header, of some hundred bytes; with a limit of 1 MiB a load looks at 147,455 note headers
 *              at most. A load in steps looks at all of them in its first step
 *
 * REKUSOYEN_BZIMAGE. The setup has setup_sects sectors (0 means 4) and one more, of 512 bytes each. All image bytes
 * after it are the kernel. Image bytes past the end count as 0 if the setup header is read from there.
 *   offset     is the load address, in place of the image's code32_start
 *   highmem    the image's code32_start must not be below it, whatever the offset is
 *   load       code32_start, or the offset
 *   end        the load address + the kernel's size
 *   refusals   INVALID_BZ_IMAGE                 the 4 bytes at 202 hex are not HdrS, or the version at 206 hex is below
 *                                               0200 hex, or bit 0 of loadflags at 211 hex is 0
 *              UNDERFLOW                        the image is shorter than its setup
 *              INVALID_KERNEL_START_ADDRESS     highmem is given, and code32_start is below it
 *              READ_BZ_IMAGE_COMPRESSED_KERNEL  the kernel has a byte or more, and has no room at the load address
 *   parts      one: the kernel, which goes to the load address
 *   footprint  1F1 hex to 26B hex, the setup header
 * rekusoyen_setup_header gives the setup header that a boot page needs.
 *
 * REKUSOYEN_ARM64. The file, not compressed, goes whole, with its header, to base + text offset. The header has 64
 * bytes: the text offset at 8, the image size at 16 and the flags at 24, 8 bytes each, and the magic number at 56, 4
 * bytes.
 *   offset     is the base, a multiple of 2 MiB; the base is 0 if it is not given
 *   highmem    is not looked at
 *   load       base + text offset
 *   end        the load address + the image size, where the memory ends that the kernel needs. It may be past guest
 *              memory, and below the file's last byte
 *   refusals   SHORT_IMAGE        image_len is below 64
 *              BAD_IMAGE_MAGIC    the magic number is not 644D5241 hex
 *              BIG_ENDIAN_IMAGE   bit 0 of the flags is 1; no other bit is looked at
 *              NO_IMAGE_SIZE      the image size is 0
 *              UNALIGNED_BASE     base is not a multiple of 2 MiB
 *              IMAGE_START_WRAPS  base + text offset is 2^64 or more
 *              NO_ROOM_FOR_IMAGE  the file's bytes have no room at the load address
 *              IMAGE_END_WRAPS    base + text offset + image size is 2^64 or more
 *   parts      one: the whole file. Memory after it, up to the image size, is not cleared
 *   footprint  0 to 63
 */

/*
 * The format of an image by its magic number: REKUSOYEN_ELF if it begins with 7F hex and ELF; else REKUSOYEN_BZIMAGE if
 * HdrS is at 202 hex; else REKUSOYEN_ARM64 if the number at 56 is 644D5241 hex; else REKUSOYEN_UNKNOWN. Nothing else is
 * checked, and nothing is refused: a load may still refuse the image.
 */
uint32_t rekusoyen_kind(const uint8_t *image, size_t image_len);

/*
 * Loads an image into guest memory: copies its parts, in their order.
 *
 *   guest            guest memory, its first byte at guest address 0
 *   map              its ranges
 *   image            the whole file
 *   format           of the image: a load does not guess it
 *   flags            which of offset and highmem are given
 *   offset, highmem  as the format has it
 *   kernel           the result
 *
 * Refusals:
 *   BAD_LIST        the format is none of the three
 *   SLICE_TOO_LONG  image_len or guest_len is above REKUSOYEN_LONGEST_SLICE
 *   BAD_MAP         the map is not valid
 * and then those of the format.
 *
 * Leaves, accepted: in guest the bytes of every part, a later one over an earlier; in kernel the result. Leaves,
 * refused: guest and kernel as they were. Nothing is copied before the whole load is accepted.
 */
uint32_t rekusoyen_raw_load(
    uint8_t *guest, size_t guest_len, const uint64_t *map, size_t map_len, const uint8_t *image, size_t image_len,
    uint32_t format, uint32_t flags, uint64_t offset, uint64_t highmem, uint64_t *kernel, size_t kernel_len);
static inline uint32_t rekusoyen_load(
    uint8_t *guest, size_t guest_len,
    const uint64_t *map, size_t map_len,
    const uint8_t *image, size_t image_len,
    uint32_t format, uint32_t flags, uint64_t offset, uint64_t highmem,
    struct rekusoyen_kernel *kernel)
{
    return rekusoyen_raw_load(
        guest, guest_len, map, map_len, image, image_len, format, flags, offset, highmem,
        (uint64_t *)kernel, REKUSOYEN_KERNEL_NUMBERS);
}

/*
 * The plan of a load: what the load would answer, and how many parts it has. No guest memory is passed, only its size
 * and its map: a program whose guest memory is not one slice, or whose image is not in memory, copies the parts itself.
 * Copied one after the other, in the order of their indices, the parts of an accepted load leave guest memory as the
 * load leaves it. Every part is in the image, and in one range of guest memory. A refused load copies nothing.
 *
 *   memory_size  how many bytes guest memory has; of memory in regions, the end of the last one
 *   image        the whole file, or as many bytes, of which only those of the footprint matter: two images of one
 *                length with the same bytes there have the same plan and the same parts
 *   plan         the result
 * All others as of rekusoyen_load.
 *
 * Refusals: those of rekusoyen_load, with memory_size in place of guest_len.
 *
 * Leaves, accepted: in plan the result. Leaves, refused: plan as it was.
 */
#define REKUSOYEN_PLAN_NUMBERS 7
struct rekusoyen_plan {
    struct rekusoyen_kernel kernel; /* what the load would return */
    uint64_t parts;                 /* the number of its parts */
};
uint32_t rekusoyen_raw_plan(
    uint64_t memory_size, const uint64_t *map, size_t map_len, const uint8_t *image, size_t image_len, uint32_t format,
    uint32_t flags, uint64_t offset, uint64_t highmem, uint64_t *plan, size_t plan_len);
static inline uint32_t rekusoyen_plan(
    uint64_t memory_size,
    const uint64_t *map, size_t map_len,
    const uint8_t *image, size_t image_len,
    uint32_t format, uint32_t flags, uint64_t offset, uint64_t highmem,
    struct rekusoyen_plan *plan)
{
    return rekusoyen_raw_plan(
        memory_size, map, map_len, image, image_len, format, flags, offset, highmem,
        (uint64_t *)plan, REKUSOYEN_PLAN_NUMBERS);
}

/*
 * A part of a load, by its index. Only the plan says whether the load is accepted: highmem is not passed here, and a
 * part of a refused load is not to be copied.
 *
 * Refusals:
 *   BAD_LIST  the format is none of the three
 *
 * Leaves, accepted: in part the result, which is all 0 if the part has no bytes, and if index is not below the number
 * of parts. Leaves, refused: part as it was.
 */
#define REKUSOYEN_PART_NUMBERS 3
struct rekusoyen_part {
    uint64_t address; /* in guest memory */
    uint64_t offset;  /* in the image */
    uint64_t size;
};
uint32_t rekusoyen_raw_part(
    uint64_t memory_size, const uint64_t *map, size_t map_len, const uint8_t *image, size_t image_len, uint32_t format,
    uint32_t flags, uint64_t offset, uint64_t index, uint64_t *part, size_t part_len);
static inline uint32_t rekusoyen_part(
    uint64_t memory_size,
    const uint64_t *map, size_t map_len,
    const uint8_t *image, size_t image_len,
    uint32_t format, uint32_t flags, uint64_t offset, uint64_t index,
    struct rekusoyen_part *part)
{
    return rekusoyen_raw_part(
        memory_size, map, map_len, image, image_len, format, flags, offset, index,
        (uint64_t *)part, REKUSOYEN_PART_NUMBERS);
}

/*
 * Begins a load in steps, each with a budget of bytes: writes the state of a load that has not started, over whatever
 * the numbers held. The state is the caller's; the library keeps nothing else. It may be copied, and the load continues
 * from the copy. Format, flags, offset and highmem are those of rekusoyen_load, and the state keeps them.
 *
 * Refusals:
 *   BAD_LIST  the format is none of the three
 *
 * Leaves, refused: state as it was.
 */
#define REKUSOYEN_STATE_NUMBERS 50
struct rekusoyen_state {
    uint64_t numbers[REKUSOYEN_STATE_NUMBERS];
};
uint32_t rekusoyen_raw_begin(
    uint64_t *state, size_t state_len, uint32_t format, uint32_t flags, uint64_t offset, uint64_t highmem);
static inline uint32_t rekusoyen_begin(
    struct rekusoyen_state *state, uint32_t format, uint32_t flags, uint64_t offset, uint64_t highmem)
{
    return rekusoyen_raw_begin(state->numbers, REKUSOYEN_STATE_NUMBERS, format, flags, offset, highmem);
}

/*
 * A step of a load: copies exactly the smaller of its budget and what is still to be written, parts in their order and
 * each from its first byte. Headers and notes cost nothing; the first step looks at all of them before it copies
 * anything, and a load that is refused copies nothing.
 *
 *   guest, map, image  as of rekusoyen_load; their lengths and the map are the same in every step
 *   state              what rekusoyen_begin or the last step wrote
 *   budget             how many bytes may be copied
 *   step               the result
 *
 * The load answers in the first step at which the budgets add up to all bytes that rekusoyen_load would write, and its
 * answer is that of rekusoyen_load. Each step after that repeats the answer and copies nothing. Between two steps guest
 * memory is as rekusoyen_load would have left it after as many bytes. If the image's bytes change between steps, or
 * someone else writes to guest memory, a step still copies no more than its budget and changes no byte in a hole; what
 * it copies is then not what rekusoyen_load would have.
 *
 * Refusals of the call, which is then no step:
 *   BAD_LIST        the state holds a number that no call writes there: no stage, option, format, PVH code or answer
 *   SLICE_TOO_LONG  image_len or guest_len is above REKUSOYEN_LONGEST_SLICE
 *   BAD_MAP         the map is not valid
 *   NO_BUDGET       the budget is 0
 *   LENT_CHANGED    image_len, guest_len or the map is not the first step's
 *
 * Leaves, accepted: in guest the bytes copied, in state the new state, in step the result. Leaves, refused: all as it
 * was.
 */
#define REKUSOYEN_STEP_NUMBERS 9
struct rekusoyen_step {
    uint64_t copied;                /* how many bytes this step copied */
    uint64_t answered;              /* 1 if the load answers, else 0 */
    uint64_t answer;                /* the load's answer; 0 if it has not answered */
    struct rekusoyen_kernel kernel; /* what the load returns; all 0 if it is not accepted or has not answered */
};
uint32_t rekusoyen_raw_step(
    uint8_t *guest, size_t guest_len, const uint64_t *map, size_t map_len, const uint8_t *image, size_t image_len,
    uint64_t *state, size_t state_len, uint64_t budget, uint64_t *step, size_t step_len);
static inline uint32_t rekusoyen_step(
    uint8_t *guest, size_t guest_len,
    const uint64_t *map, size_t map_len,
    const uint8_t *image, size_t image_len,
    struct rekusoyen_state *state, uint64_t budget,
    struct rekusoyen_step *step)
{
    return rekusoyen_raw_step(
        guest, guest_len, map, map_len, image, image_len, state->numbers, REKUSOYEN_STATE_NUMBERS, budget,
        (uint64_t *)step, REKUSOYEN_STEP_NUMBERS);
}

/*
 * Walks over the notes of an ELF image until the one that holds the PVH entry: type 18, and the name `Xen` and a zero.
 *
 *   image     the whole file
 *   p_offset  where in the image the notes begin
 *   p_filesz  their size: a note that begins within it is read, as far as the image goes
 *   note      the result
 *
 * Refusals:
 *   SLICE_TOO_LONG    image_len is above REKUSOYEN_LONGEST_SLICE
 * and then of each note in turn:
 *   READ_NOTE_HEADER  its header of 12 bytes passes the image; or its name does, if its type is 18 and its name size 4
 *   OVERFLOW          it is not the PVH note, and its name size or its descriptor size is above FFFFFFFC hex
 * and of the PVH note:
 *   INVALID_PVH_NOTE  its descriptor size is below 4
 *   READ_NOTE_HEADER  the first 4 bytes of its descriptor pass the image
 *
 * Leaves, accepted: in note the result. Leaves, refused: note as it was.
 */
#define REKUSOYEN_NOTE_NUMBERS 5
struct rekusoyen_note {
    uint64_t pvh;        /* REKUSOYEN_PVH_NOT_PRESENT or REKUSOYEN_PVH_PRESENT */
    uint64_t pvh_entry;  /* as in struct rekusoyen_kernel, and the last two */
    uint64_t headers;    /* how many note headers were read, at most one for each twelve bytes begun of p_filesz */
    uint64_t pvh_offset;
    uint64_t pvh_size;
};
uint32_t rekusoyen_raw_elf_note(
    const uint8_t *image, size_t image_len, uint64_t p_offset, uint64_t p_filesz, uint64_t *note, size_t note_len);
static inline uint32_t rekusoyen_elf_note(
    const uint8_t *image, size_t image_len,
    uint64_t p_offset, uint64_t p_filesz,
    struct rekusoyen_note *note)
{
    return rekusoyen_raw_elf_note(image, image_len, p_offset, p_filesz, (uint64_t *)note, REKUSOYEN_NOTE_NUMBERS);
}

/*
 * The setup header of a bzImage, for a kernel that is loaded at an address. It is read from any image: whether this is
 * a bzImage is not checked.
 *
 *   image   the whole file
 *   load    the load address that rekusoyen_load, rekusoyen_plan or rekusoyen_step returned
 *   header  REKUSOYEN_SETUP_HEADER_SIZE bytes
 *
 * Refusals:
 *   NO_ROOM         header_len is not REKUSOYEN_SETUP_HEADER_SIZE
 *   SLICE_TOO_LONG  image_len is above REKUSOYEN_LONGEST_SLICE
 *
 * Leaves, accepted: in header the bytes of the image from 1F1 hex on, 0 past its end, but in code32_start, at 214 hex
 * of the image, the low 32 bits of the load address, least byte first. Leaves, refused: header as it was.
 */
#define REKUSOYEN_SETUP_HEADER_SIZE 123
uint32_t rekusoyen_setup_header(
    const uint8_t *image, size_t image_len,
    uint64_t load,
    uint8_t *header, size_t header_len);

/* ---- the boot page */

/*
 * The boot page is the zero page of the Linux boot protocol: what a bzImage is given when it starts. A row of its
 * memory map is three numbers: the address and the size of a range of guest memory, of 8 bytes each, and its type, of 4
 * bytes. Rows are given as one list of numbers, three for each row.
 */
#define REKUSOYEN_PAGE_SIZE 4096
#define REKUSOYEN_PAGE_ROWS 128

/* How many numbers the list for the rows of a page that is read has. */
#define REKUSOYEN_PAGE_READ_ROWS (3 * REKUSOYEN_PAGE_ROWS)

/*
 * Builds the boot page.
 *
 *   page          REKUSOYEN_PAGE_SIZE bytes
 *   header        REKUSOYEN_SETUP_HEADER_SIZE bytes: the setup header, as rekusoyen_setup_header leaves it
 *   command_line  the guest address of the command line
 *   ramdisk       the guest address of the initial ramdisk, and 0 without one
 *   ramdisk_size  its size
 *   rows          the rows of the memory map, in any order
 *
 * Refusals:
 *   NO_ROOM        header_len is not REKUSOYEN_SETUP_HEADER_SIZE
 *   BAD_PAGE_SIZE  page_len is not REKUSOYEN_PAGE_SIZE
 *   BAD_LIST       rows_len is not a multiple of 3, or a type is 2^32 or more
 *   TOO_MANY_ROWS  there are more than REKUSOYEN_PAGE_ROWS rows
 *   BAD_ROW        a row has size 0, or its address + size is 2^64 or more, or it has an address in common with an
 *                  earlier one
 *
 * Leaves, accepted: in page zeros, and over them the header at 1F1 hex; FF hex at 210 hex (the loader type);
 * command_line at 228 hex, ramdisk at 218 hex and ramdisk_size at 21C hex, 4 bytes each; the count of rows at 1E8 hex,
 * one byte; the rows from 2D0 hex on, 20 bytes each. Every number has its least byte first. Leaves, refused: page as it
 * was.
 */
uint32_t rekusoyen_page_build(
    uint8_t *page, size_t page_len,
    const uint8_t *header, size_t header_len,
    uint32_t command_line, uint32_t ramdisk, uint32_t ramdisk_size,
    const uint64_t *rows, size_t rows_len);

/*
 * Reads a boot page, no matter who wrote it. The rows are not checked.
 *
 *   page    REKUSOYEN_PAGE_SIZE bytes
 *   values  the result
 *   rows    REKUSOYEN_PAGE_READ_ROWS numbers, for those of the rows
 *   header  REKUSOYEN_SETUP_HEADER_SIZE bytes: the setup header
 *
 * Refusals:
 *   NO_ROOM        rows_len is not REKUSOYEN_PAGE_READ_ROWS, or header_len is not REKUSOYEN_SETUP_HEADER_SIZE
 *   BAD_PAGE_SIZE  page_len is not REKUSOYEN_PAGE_SIZE
 *   TOO_MANY_ROWS  the count of rows is above REKUSOYEN_PAGE_ROWS
 *
 * Leaves, accepted: in values the result; in rows, from its first number on, three numbers for each row, and the others
 * as they were; in header the bytes of the page from 1F1 hex on. Leaves, refused: values, rows and header as they were.
 */
#define REKUSOYEN_PAGE_NUMBERS 4
struct rekusoyen_page {
    uint64_t rows;         /* how many rows the memory map has */
    uint64_t command_line; /* the guest address of the command line */
    uint64_t ramdisk;      /* the guest address of the initial ramdisk */
    uint64_t ramdisk_size; /* its size */
};
uint32_t rekusoyen_raw_page_read(
    const uint8_t *page, size_t page_len, uint64_t *values, size_t values_len, uint64_t *rows, size_t rows_len,
    uint8_t *header, size_t header_len);
static inline uint32_t rekusoyen_page_read(
    const uint8_t *page, size_t page_len,
    struct rekusoyen_page *values,
    uint64_t *rows, size_t rows_len,
    uint8_t *header, size_t header_len)
{
    return rekusoyen_raw_page_read(
        page, page_len, (uint64_t *)values, REKUSOYEN_PAGE_NUMBERS, rows, rows_len, header, header_len);
}

/* ---- the PVH start block */

/*
 * A monitor that enters a guest by PVH gives it a start block of REKUSOYEN_START_BLOCK_SIZE bytes with a list of
 * modules and a memory map. A row of either list is REKUSOYEN_START_ROW_NUMBERS numbers: of a module address, size,
 * address of its command line, reserved, 8 bytes each; of the memory map address and size of 8 bytes, type and reserved
 * of 4.
 */
#define REKUSOYEN_START_MAGIC 0x336EC578u
#define REKUSOYEN_START_BLOCK_SIZE 56
#define REKUSOYEN_START_BLOCK_NUMBERS 10
#define REKUSOYEN_START_ROW_NUMBERS 4
#define REKUSOYEN_START_MODULE_SIZE 32
#define REKUSOYEN_START_RANGE_SIZE 24

/*
 * Writes the start block and its lists into guest memory.
 *
 *   guest, map    guest memory and its map, as of a load
 *   block         the guest address of the block
 *   modules_at    the guest address of the list of modules
 *   ranges_at     the guest address of the memory map
 *   flags         the block's flags
 *   command_line  the guest address of the command line, and 0 without one
 *   rsdp          the guest address of the RSDP, and 0 without one
 *   modules       the numbers of the modules, four each
 *   ranges        the numbers of the memory map, four for each row
 *
 * Refusals:
 *   SLICE_TOO_LONG  guest_len is above REKUSOYEN_LONGEST_SLICE
 *   BAD_MAP         the map is not valid
 *   BAD_LIST        modules_len or ranges_len is not a multiple of 4, a type is 2^32 or more, or a reserved number is
 *                   not 0
 *   BAD_PART        a list has 2^32 rows or more; the block or a list with rows does not lie within one range; or two
 *                   of them overlap
 *
 * Leaves, accepted: at block magic, version 1, flags, count of modules (4 bytes each), modules_at, command_line, rsdp,
 * ranges_at (8 each), count of rows, 0 (4 each); the rows at their addresses; all else as it was. Every number has its
 * least byte first. Leaves, refused: guest as it was.
 */
uint32_t rekusoyen_start_write(
    uint8_t *guest, size_t guest_len,
    const uint64_t *map, size_t map_len,
    uint64_t block, uint64_t modules_at, uint64_t ranges_at, uint32_t flags, uint64_t command_line, uint64_t rsdp,
    const uint64_t *modules, size_t modules_len,
    const uint64_t *ranges, size_t ranges_len);

/*
 * Checks the start block at an address, no matter who wrote it. ACCEPTED is answered of a valid block only: the block
 * and each list that has rows are within one range, magic and version are right, and every reserved field, of the rows
 * too, is 0. It is not checked whether they overlap.
 *
 * Refusals, of which the first that applies is answered:
 *   SLICE_TOO_LONG      guest_len is above REKUSOYEN_LONGEST_SLICE
 *   BAD_MAP             the map is not valid
 *   BAD_PART            the block is not within one range
 *   BAD_START_MAGIC     the magic number is not REKUSOYEN_START_MAGIC
 *   BAD_START_VERSION   the version is not 1
 *   BAD_START_RESERVED  the block's reserved field is not 0
 *   BAD_PART, BAD_START_RESERVED of the modules, then of the memory map: the list has rows and is not within one range;
 *                       the reserved field of a row is not 0
 */
uint32_t rekusoyen_start_check(
    const uint8_t *guest, size_t guest_len,
    const uint64_t *map, size_t map_len,
    uint64_t block);

/*
 * Read the numbers of a block, rows of modules, and rows of a memory map at an address, in the order of their fields;
 * of rows as many numbers as the list has elements. A byte past the end of guest memory is read as 0. They check
 * nothing: their caller first checks the block. rekusoyen_raw_start_block answers NO_ROOM, and leaves start as it was,
 * if start_len is not REKUSOYEN_START_BLOCK_NUMBERS.
 */
struct rekusoyen_start {
    uint64_t magic, version, flags;
    uint64_t modules; /* how many modules there are */
    uint64_t modules_at, command_line, rsdp, ranges_at;
    uint64_t ranges; /* how many rows the memory map has */
    uint64_t reserved;
};
uint32_t rekusoyen_raw_start_block(
    const uint8_t *guest, size_t guest_len, uint64_t block, uint64_t *start, size_t start_len);
static inline void rekusoyen_start_block(
    const uint8_t *guest, size_t guest_len, uint64_t block, struct rekusoyen_start *start)
{
    (void)rekusoyen_raw_start_block(guest, guest_len, block, (uint64_t *)start, REKUSOYEN_START_BLOCK_NUMBERS);
}
void rekusoyen_start_modules(
    const uint8_t *guest, size_t guest_len, uint64_t modules, uint64_t *numbers, size_t numbers_len);
void rekusoyen_start_ranges(
    const uint8_t *guest, size_t guest_len, uint64_t ranges, uint64_t *numbers, size_t numbers_len);

/* ---- lines */

/*
 * A kernel command line is stored in REKUSOYEN_LINE_SIZE bytes of the caller, which may copy, move and drop them. They
 * hold three numbers of 8 bytes, least byte first (the length of the boot text, the length of the init text, the
 * capacity), then the boot text in REKUSOYEN_LINE_LIMIT bytes and the init text in as many.
 *
 * The counted size of a line is the length of its boot text + 1, and if there is init text 4 + its length more: what
 * the written line takes with its zero.
 *
 * Bytes hold a line if the capacity is 1 to REKUSOYEN_LINE_LIMIT and the counted size is at most the capacity; the
 * texts may have any bytes. Every call but rekusoyen_line_new and rekusoyen_line_try_from checks this, no matter who
 * wrote the bytes; what an accepted call leaves holds a line.
 *
 * A call works on the bytes in place. Bytes after the end of a text are not looked at, and stay as they are until a
 * longer text covers them. In a new line they are zeros, and no call changes them to anything but text.
 *
 * Every refused call leaves all its arguments as they were. An accepted call that changes a line changes the text that
 * its comment names, from its first new byte on, and the length of that text.
 */
#define REKUSOYEN_LINE_LIMIT 16384
#define REKUSOYEN_LINE_SIZE (24 + 2 * REKUSOYEN_LINE_LIMIT)

/*
 * Makes an empty line, over whatever the bytes held.
 *
 *   line      REKUSOYEN_LINE_SIZE bytes
 *   capacity  the greatest counted size
 *
 * Refusals:
 *   NO_ROOM           line_len is not REKUSOYEN_LINE_SIZE
 *   INVALID_CAPACITY  capacity is 0 or above REKUSOYEN_LINE_LIMIT
 *
 * Leaves, accepted: in line a line of this capacity without text.
 */
uint32_t rekusoyen_line_new(uint8_t *line, size_t line_len, uint64_t capacity);

/*
 * Makes a line from its whole text, over whatever the bytes held. The text is split at the first space-dash-dash-space
 * that has an even number of double quotes before it; what lies before is the boot text and what lies after the init
 * text, each without the blanks (bytes 9 to 13 and 32) at its ends. Where nothing splits it, it is all boot text. No
 * other test is made of its bytes.
 *
 *   line      REKUSOYEN_LINE_SIZE bytes
 *   text      the text, without a closing zero
 *   capacity  the greatest counted size
 *
 * Refusals:
 *   NO_ROOM           line_len is not REKUSOYEN_LINE_SIZE
 *   INVALID_CAPACITY  capacity is 0 or above REKUSOYEN_LINE_LIMIT, or the counted size of the two texts is above it
 *
 * Leaves, accepted: in line a line of this capacity with the two texts.
 */
uint32_t rekusoyen_line_try_from(
    uint8_t *line, size_t line_len,
    const uint8_t *text, size_t text_len,
    uint64_t capacity);

/*
 * Puts key=value after the boot text, with a space between if there is boot text.
 *
 *   line   a line
 *   key    may be empty
 *   value  may be empty; it is quoted if it has two bytes or more and a double quote at each end
 *
 * Refusals:
 *   NO_ROOM           line_len is not REKUSOYEN_LINE_SIZE
 *   INVALID_CAPACITY  the bytes hold no line
 *   INVALID_ASCII     key has a byte outside 32 to 126
 *   HAS_SPACE         key has a space
 *   HAS_EQUALS        key has an equals sign
 *   INVALID_ASCII     value has a byte outside 32 to 126
 *   INVALID_QUOTE     value has a quote strictly between its first byte and its last
 *   NO_QUOTE_SPACE    value has a space and is not quoted
 *   TOO_LARGE         the counted size after it would be above the capacity
 *
 * Leaves, accepted: in line the boot text, a space if it was not empty, key, equals sign and value.
 */
uint32_t rekusoyen_line_insert(
    uint8_t *line, size_t line_len,
    const uint8_t *key, size_t key_len,
    const uint8_t *value, size_t value_len);

/*
 * Puts key=value,value.. after the boot text, with a space between if there is boot text.
 *
 *   line    a line
 *   key     may be empty
 *   values  the values, one after the other with nothing between
 *   ends    where each value ends in values, counted from its start: each begins where the one before it ends
 *
 * Refusals:
 *   NO_ROOM           line_len is not REKUSOYEN_LINE_SIZE
 *   INVALID_CAPACITY  the bytes hold no line
 *   BAD_LIST          ends is not empty, and an end is below the one before it, or the last is not values_len
 *   INVALID_ASCII, HAS_SPACE, HAS_EQUALS of key, as of rekusoyen_line_insert
 *   MISSING_VAL       ends is empty
 *   INVALID_ASCII, INVALID_QUOTE, NO_QUOTE_SPACE of each value in turn, as of rekusoyen_line_insert
 *   TOO_LARGE         the counted size after it would be above the capacity
 *
 * Leaves, accepted: in line the boot text, a space if it was not empty, key, equals sign and the values with commas
 * between.
 */
uint32_t rekusoyen_line_insert_multiple(
    uint8_t *line, size_t line_len,
    const uint8_t *key, size_t key_len,
    const uint8_t *values, size_t values_len,
    const size_t *ends, size_t ends_len);

/*
 * Puts a slug after the boot text, with a space between if there is boot text. The slug is taken without the blanks
 * (bytes 9 to 13 and 32) at its ends. An empty one is accepted: after boot text it adds the one space.
 *
 *   line  a line
 *   slug  any text
 *
 * Refusals:
 *   NO_ROOM           line_len is not REKUSOYEN_LINE_SIZE
 *   INVALID_CAPACITY  the bytes hold no line
 *   INVALID_ASCII     the slug without the blanks at its ends has a byte outside 32 to 126
 *   TOO_LARGE         the counted size after it would be above the capacity
 *
 * Leaves, accepted: in line the boot text, a space if it was not empty, and the slug without the blanks at its ends.
 */
uint32_t rekusoyen_line_insert_str(uint8_t *line, size_t line_len, const uint8_t *slug, size_t slug_len);

/*
 * The same for the init text: the slug goes after it, with a space between if there is init text.
 *
 *   line  a line
 *   slug  any text
 *
 * Refusals: those of rekusoyen_line_insert_str, in its order. If there is no init text, an empty slug too needs 4
 * bytes of room, as the separator takes.
 *
 * Leaves, accepted: in line the init text, a space if it was not empty, and the slug without the blanks at its ends.
 */
uint32_t rekusoyen_line_insert_init_args(uint8_t *line, size_t line_len, const uint8_t *slug, size_t slug_len);

/*
 * Puts virtio_mmio.device=SIZE@0xADDRESS:IRQ, and :ID if there is one, after the boot text, with a space between if
 * there is boot text. SIZE is written in G, M or K, by the largest that divides it, else in bytes. ADDRESS is
 * hexadecimal, in small letters; all else is decimal. This takes at most 80 bytes.
 *
 *   line     a line
 *   size     of the device's memory, in bytes
 *   address  where that begins
 *   irq      its interrupt
 *   has_id   0 for a device without an ID, any other number for one with an ID
 *   id       its ID; not looked at if it has none
 *
 * Refusals:
 *   NO_ROOM           line_len is not REKUSOYEN_LINE_SIZE
 *   INVALID_CAPACITY  the bytes hold no line
 *   MMIO_SIZE         size is 0
 *   TOO_LARGE         the counted size after it would be above the capacity
 *
 * Leaves, accepted: in line the boot text, a space if it was not empty, and the device.
 */
uint32_t rekusoyen_line_add_virtio_mmio_device(
    uint8_t *line, size_t line_len,
    uint64_t size, uint64_t address, uint32_t irq, uint32_t has_id, uint32_t id);

/*
 * Writes the line as a C string: the boot text, if there is init text space-dash-dash-space and the init text, and a
 * zero.
 *
 *   line   a line
 *   out    for the text and its zero; as many bytes as the line's capacity are always enough
 *   count  how many bytes were written, with the zero
 *
 * Refusals:
 *   NO_ROOM                line_len is not REKUSOYEN_LINE_SIZE
 *   INVALID_CAPACITY       the bytes hold no line
 *   NO_BOOT_ARGS_INSERTED  there is init text and no boot text
 *   NULL_TERMINATOR        there is a zero byte within the text
 *   NO_ROOM                out_len is below what would be written
 *
 * Leaves, accepted: in out the text and its zero from the first byte on, the bytes after them as they were; in count
 * the count.
 */
uint32_t rekusoyen_raw_line_as_cstring(
    const uint8_t *line, size_t line_len, uint8_t *out, size_t out_len, uint64_t *count, size_t count_len);
static inline uint32_t rekusoyen_line_as_cstring(
    const uint8_t *line, size_t line_len,
    uint8_t *out, size_t out_len,
    uint64_t *count)
{
    return rekusoyen_raw_line_as_cstring(line, line_len, out, out_len, count, 1);
}

/*
 * Are two lines equal? They are if both would be written, given room, as the same text, or both be refused for the
 * same reason. So the capacity does not count, and all lines with only init text are equal.
 *
 *   a, b   two lines, or one line twice
 *   equal  1 if they are equal, else 0
 *
 * Refusals:
 *   NO_ROOM           a_len is not REKUSOYEN_LINE_SIZE
 *   INVALID_CAPACITY  the bytes of a hold no line
 *   NO_ROOM           b_len is not REKUSOYEN_LINE_SIZE
 *   INVALID_CAPACITY  the bytes of b hold no line
 *
 * Leaves, accepted: in equal the result.
 */
uint32_t rekusoyen_raw_line_equal(
    const uint8_t *a, size_t a_len, const uint8_t *b, size_t b_len, uint64_t *equal, size_t equal_len);
static inline uint32_t rekusoyen_line_equal(
    const uint8_t *a, size_t a_len,
    const uint8_t *b, size_t b_len,
    uint64_t *equal)
{
    return rekusoyen_raw_line_equal(a, a_len, b, b_len, equal, 1);
}

/*
 * Writes the line into guest memory, as rekusoyen_line_as_cstring writes it.
 *
 *   guest    guest memory, its first byte at guest address 0
 *   map      its ranges
 *   address  where the text begins
 *   line     a line
 *
 * Refusals:
 *   NO_ROOM                line_len is not REKUSOYEN_LINE_SIZE
 *   INVALID_CAPACITY       the bytes hold no line
 *   SLICE_TOO_LONG         guest_len is above REKUSOYEN_LONGEST_SLICE
 *   BAD_MAP                the map is not valid
 *   INVALID_COMMAND_LINE   rekusoyen_line_as_cstring would answer NO_BOOT_ARGS_INSERTED or NULL_TERMINATOR
 *   COMMAND_LINE_OVERFLOW  the text and its zero have no room at the address
 *
 * Leaves, accepted: in guest the text and its zero from the address on.
 */
uint32_t rekusoyen_line_load(
    uint8_t *guest, size_t guest_len,
    const uint64_t *map, size_t map_len,
    uint64_t address,
    const uint8_t *line, size_t line_len);

/*
 * What rekusoyen_line_load would answer over guest memory of this size with this map. Nothing is written, and no guest
 * memory is passed.
 *
 *   memory_size  how many bytes guest memory has; of memory in regions, the end of the last one
 *   map          its ranges
 *   address      where the text would begin
 *   line         a line
 *
 * Refusals: those of rekusoyen_line_load, with memory_size in place of guest_len.
 */
uint32_t rekusoyen_line_plan(
    uint64_t memory_size,
    const uint64_t *map, size_t map_len,
    uint64_t address,
    const uint8_t *line, size_t line_len);

/* ---- words */

/*
 * Reads the words of a line, by a rule of this library and not by the kernel's own. Words are separated by runs of
 * spaces (byte 32 and no other), and none is empty. A double quote opens a stretch in which spaces do not separate
 * words and equals signs do not split them; the next one closes it. The first equals sign of a word outside quotes
 * splits its key from its value.
 *
 *   text    a whole line without its closing zero, of any length and any bytes, from rekusoyen_line_as_cstring or not
 *   starts  the offset of each word's first byte
 *   ends    the offset after its last byte
 *   splits  the offset of its first equals sign outside quotes, or its end if it has none. The key goes from the start
 *           up to the split, the value from the offset after the split up to the end
 *   count   how many words there are
 *
 * A line of n bytes has at most (n + 1) / 2 words. Time grows only with the length. A line of 16,384 quotes, or of any
 * other number, uses no more stack than an empty one: measured on x86-64, less than 256 bytes.
 *
 * Refusals:
 *   UNCLOSED_QUOTE  the number of quotes is odd; count has the offset of the last one, which none closes
 *   TOO_FEW_PLACES  starts_len, ends_len or splits_len is below the number of words
 *
 * Leaves, accepted: in the three lists the words in their order from the first element on, later ones as they were; in
 * count the count. Leaves, refused: starts, ends and splits as they were; count as it was, but for the offset of an
 * unclosed quote.
 */
uint32_t rekusoyen_raw_line_words(
    const uint8_t *text, size_t text_len, uint64_t *starts, size_t starts_len, uint64_t *ends, size_t ends_len,
    uint64_t *splits, size_t splits_len, uint64_t *count, size_t count_len);
static inline uint32_t rekusoyen_line_words(
    const uint8_t *text, size_t text_len,
    uint64_t *starts, size_t starts_len,
    uint64_t *ends, size_t ends_len,
    uint64_t *splits, size_t splits_len,
    uint64_t *count)
{
    return rekusoyen_raw_line_words(
        text, text_len, starts, starts_len, ends, ends_len, splits, splits_len, count, 1);
}

/* ---- a whole boot */

/*
 * A boot puts all its pieces into guest memory by one call: the kernel, the command line, a ramdisk, and the boot data
 * that names them. Everything is checked before anything is written. After an accepted boot each piece is there, whole,
 * at the same time; after a refused one guest memory is as it was.
 *
 * The memory that a piece uses:
 *   kernel     the bytes that its load copies, and the memory that the kernel takes: of ELF p_memsz bytes of every
 *              loadable segment; of a bzImage of protocol 2.10 or later init_size bytes from the runtime start on,
 *              which is pref_address if relocatable_kernel is 0, else the greater of load address and pref_address,
 *              rounded up to a multiple of kernel_alignment (0 counts as 1); of an arm64 Image image size bytes from
 *              the load address on
 *   line       the boot text, if there is init text space-dash-dash-space and the init text, and a zero. In a boot with
 *              a device tree the line is in the tree, and no piece of its own
 *   ramdisk    its bytes; one of no bytes is apart from everything and needs no room
 *   boot data  the zero page, or the start block with its list of modules and its memory map, one after the other, or
 *              the device tree
 *
 * How a kernel is entered:
 *
 * REKUSOYEN_ENTRY_ZERO_PAGE. A bzImage in 32-bit mode, or with the flag REKUSOYEN_ENTRY_64_BIT a bzImage or ELF image
 * in 64-bit mode. The page is what rekusoyen_page_build builds of the image's setup header, as rekusoyen_setup_header
 * leaves it, the addresses of line and ramdisk, and the rows; for ELF the setup header has boot_flag AA55 hex, HdrS and
 * a kernel_alignment of 16 MiB, and all else is 0. All addresses are below 2^32.
 *   entry      the load address; of a bzImage in 64-bit mode 200 hex more
 *   refusals   WRONG_ENTRY       an arm64 Image, or ELF in 32-bit mode
 *              NO_64_BIT_ENTRY   a bzImage in 64-bit mode of a protocol below 2.12 or without bit 0 of xloadflags
 *              WRONG_ENTRY       32-bit mode, and a load address of 2^32 or more
 *
 * REKUSOYEN_ENTRY_PVH. An ELF image with a PVH entry, in 32-bit mode. The start block is what rekusoyen_start_write
 * writes of flags 0, the addresses of line and RSDP, one module for the ramdisk (its address, its size, 0, 0) or none
 * if it has no bytes, and the rows; the modules follow the block, the memory map follows them. The block's address is
 * below 2^32.
 *   entry      the PVH entry
 *   refusals   NO_PVH_ENTRY      the load returns no PVH entry
 *              WRONG_ENTRY       it is 2^32 or more
 *
 * REKUSOYEN_ENTRY_TREE. An arm64 Image. The tree is the caller's, with the whole line and its zero at an offset in it.
 *   entry      the load address
 *   refusals   WRONG_ENTRY       another image than an arm64 Image
 */
#define REKUSOYEN_ENTRY_ZERO_PAGE 1u
#define REKUSOYEN_ENTRY_PVH 2u
#define REKUSOYEN_ENTRY_TREE 3u

/* Flags of a boot, with those of a load: whether a limit is given, and whether the kernel is entered in 64-bit mode. */
#define REKUSOYEN_LIMIT_GIVEN 4u
#define REKUSOYEN_ENTRY_64_BIT 8u

/* The two texts of a line, without a zero; init_len is 0 if there is no init text. */
struct rekusoyen_texts {
    const uint8_t *boot;
    size_t boot_len;
    const uint8_t *init;
    size_t init_len;
};

/*
 * The two texts of a line that is stored in bytes. They are in the line: it must outlive them, and not change.
 *
 * Refusals:
 *   NO_ROOM           line_len is not REKUSOYEN_LINE_SIZE
 *   INVALID_CAPACITY  the bytes hold no line
 *
 * Leaves, accepted: in texts the two texts. Leaves, refused: texts as it was.
 */
static inline uint32_t rekusoyen_line_texts(const uint8_t *line, size_t line_len, struct rekusoyen_texts *texts)
{
    /* the plan of a load into no memory checks the line first, and then refuses it with another answer */
    const uint32_t answer = rekusoyen_line_plan(0, NULL, 0, 0, line, line_len);
    size_t lengths[2] = {0, 0};
    int i;
    if (answer == REKUSOYEN_NO_ROOM || answer == REKUSOYEN_INVALID_CAPACITY)
        return answer;
    for (i = 0; i < 16; i++)
        lengths[i / 8] |= (size_t)line[i] << (8 * (i % 8));
    texts->boot = line + 24;
    texts->boot_len = lengths[0];
    texts->init = line + 24 + REKUSOYEN_LINE_LIMIT;
    texts->init_len = lengths[1];
    return REKUSOYEN_ACCEPTED;
}

/* A boot. Fields that its entry does not name are not looked at, unless a comment says so. */
struct rekusoyen_boot {
    const uint8_t *image; /* the whole file */
    size_t image_len;
    uint32_t format;          /* of the image */
    uint32_t entry;           /* REKUSOYEN_ENTRY_ZERO_PAGE, REKUSOYEN_ENTRY_PVH or REKUSOYEN_ENTRY_TREE */
    uint32_t flags;           /* which of offset, highmem and limit are given; by zero page, the mode */
    uint32_t limit;           /* the most bytes of a line, its zero not counted, for ELF and arm64: 2047 if not given */
    uint64_t offset, highmem; /* as of rekusoyen_load */
    struct rekusoyen_texts line; /* with a device tree its boot text is the whole line, and there is no init text */
    const uint8_t *ramdisk;      /* not looked at by rekusoyen_boot_plan, but its length is */
    size_t ramdisk_len;          /* 0 without one */
    const uint64_t *rows; /* of the memory map that the guest is given: by zero page three numbers each, by PVH four */
    size_t rows_len;
    const uint8_t *tree; /* the device tree */
    size_t tree_len;
    uint64_t line_at;    /* the guest address of the line; with a device tree, the offset of the line in the tree */
    uint64_t ramdisk_at; /* the guest address of the ramdisk, and 0 without one */
    uint64_t data_at;    /* the guest address of the zero page, of the start block, or of the device tree */
    uint64_t rsdp;       /* by PVH: the guest address of the RSDP, and 0 without one */
};

/* What an accepted boot returns. */
#define REKUSOYEN_BOOTED_NUMBERS 7
struct rekusoyen_booted {
    struct rekusoyen_kernel kernel; /* what the load of the kernel returns */
    uint64_t entry;                 /* the address at which the kernel is entered */
};

/* The raw calls of a boot and of its plan, one for each entry. The inline functions below are one call for all. */
uint32_t rekusoyen_raw_boot_zero_page(
    uint8_t *guest, size_t guest_len, const uint64_t *map, size_t map_len, const uint8_t *image, size_t image_len,
    uint32_t format, uint32_t flags, uint64_t offset, uint64_t highmem, uint32_t limit, const uint8_t *text,
    size_t text_len, const uint8_t *init, size_t init_len, const uint8_t *ramdisk, size_t ramdisk_len,
    const uint64_t *rows, size_t rows_len, uint32_t line, uint32_t ramdisk_at, uint32_t page, uint64_t *booted,
    size_t booted_len);
uint32_t rekusoyen_raw_boot_pvh(
    uint8_t *guest, size_t guest_len, const uint64_t *map, size_t map_len, const uint8_t *image, size_t image_len,
    uint32_t format, uint32_t flags, uint64_t offset, uint64_t highmem, uint32_t limit, const uint8_t *text,
    size_t text_len, const uint8_t *init, size_t init_len, const uint8_t *ramdisk, size_t ramdisk_len,
    const uint64_t *rows, size_t rows_len, uint64_t line, uint64_t ramdisk_at, uint32_t block, uint64_t rsdp,
    uint64_t *booted, size_t booted_len);
uint32_t rekusoyen_raw_boot_tree(
    uint8_t *guest, size_t guest_len, const uint64_t *map, size_t map_len, const uint8_t *image, size_t image_len,
    uint32_t format, uint32_t flags, uint64_t offset, uint64_t highmem, uint32_t limit, const uint8_t *text,
    size_t text_len, const uint8_t *ramdisk, size_t ramdisk_len, const uint8_t *tree, size_t tree_len,
    uint64_t line_offset, uint64_t ramdisk_at, uint64_t tree_at, uint64_t *booted, size_t booted_len);
uint32_t rekusoyen_raw_boot_zero_page_plan(
    uint64_t memory_size, const uint64_t *map, size_t map_len, const uint8_t *image, size_t image_len,
    uint32_t format, uint32_t flags, uint64_t offset, uint64_t highmem, uint32_t limit, const uint8_t *text,
    size_t text_len, const uint8_t *init, size_t init_len, uint64_t ramdisk_len, const uint64_t *rows, size_t rows_len,
    uint32_t line, uint32_t ramdisk_at, uint32_t page, uint64_t *booted, size_t booted_len);
uint32_t rekusoyen_raw_boot_pvh_plan(
    uint64_t memory_size, const uint64_t *map, size_t map_len, const uint8_t *image, size_t image_len,
    uint32_t format, uint32_t flags, uint64_t offset, uint64_t highmem, uint32_t limit, const uint8_t *text,
    size_t text_len, const uint8_t *init, size_t init_len, uint64_t ramdisk_len, const uint64_t *rows, size_t rows_len,
    uint64_t line, uint64_t ramdisk_at, uint32_t block, uint64_t rsdp, uint64_t *booted, size_t booted_len);
uint32_t rekusoyen_raw_boot_tree_plan(
    uint64_t memory_size, const uint64_t *map, size_t map_len, const uint8_t *image, size_t image_len,
    uint32_t format, uint32_t flags, uint64_t offset, uint64_t highmem, uint32_t limit, const uint8_t *text,
    size_t text_len, uint64_t ramdisk_len, const uint8_t *tree, size_t tree_len, uint64_t line_offset,
    uint64_t ramdisk_at, uint64_t tree_at, uint64_t *booted, size_t booted_len);

/* Whether the raw call of the boot's entry can be given its fields: see the first refusal of rekusoyen_boot. */
static inline int rekusoyen_boot_fits(const struct rekusoyen_boot *boot)
{
    switch (boot->entry) {
    case REKUSOYEN_ENTRY_ZERO_PAGE: return ((boot->line_at | boot->ramdisk_at | boot->data_at) >> 32) == 0;
    case REKUSOYEN_ENTRY_PVH: return (boot->data_at >> 32) == 0;
    case REKUSOYEN_ENTRY_TREE: return boot->line.init_len == 0;
    default: return 0;
    }
}

/*
 * Puts all pieces of a boot into guest memory: the kernel, the line, the ramdisk, and page, start block or tree.
 *
 *   guest   guest memory, its first byte at guest address 0
 *   map     its ranges
 *   boot    the boot; what it points to overlaps neither guest nor booted
 *   booted  the result
 *
 * Refusals:
 *   BAD_LIST              the entry is none of the three; by zero page an address is 2^32 or more; by PVH the start
 *                         block's is; with a device tree there is init text
 *   BAD_LIST, SLICE_TOO_LONG, BAD_MAP and those of the format, as of rekusoyen_load
 *   WRONG_ENTRY, NO_64_BIT_ENTRY, NO_PVH_ENTRY, as the entry above has them
 *   INVALID_COMMAND_LINE  there is init text and no boot text, or a zero byte within the text
 *   COMMAND_LINE_OVERFLOW, by zero page and PVH: the line has no room at its address
 *   LINE_NOT_IN_TREE, with a device tree: the tree does not hold the text and a zero at the offset
 *   BAD_LIST, TOO_MANY_ROWS, BAD_ROW, by zero page: as of rekusoyen_page_build
 *   BAD_LIST, BAD_PART, by PVH: as of rekusoyen_start_write
 *   RAMDISK_TOO_HIGH, by zero page: the ramdisk ends above initrd_addr_max, which is 37FFFFFF hex for a protocol below
 *                         2.03 and FFFFFFFF hex for ELF, or it has 2^32 bytes or more
 *   LINE_TOO_LONG         the line has more bytes, its zero not counted, than the kernel takes: cmdline_size of a
 *                         bzImage of protocol 2.06 or later, 255 of an older one, the limit for ELF and arm64
 *   KERNEL_OUTSIDE        a range of memory that the kernel takes has no room
 *   RAMDISK_OUTSIDE       the ramdisk has no room
 *   BOOT_DATA_OUTSIDE     page, start block or tree has no room
 *   KERNEL_MEETS_LINE, KERNEL_MEETS_RAMDISK, KERNEL_MEETS_BOOT_DATA, LINE_MEETS_RAMDISK, LINE_MEETS_BOOT_DATA,
 *   RAMDISK_MEETS_BOOT_DATA: two pieces share a byte
 *   KERNEL_NOT_IN_ROWS, LINE_NOT_IN_ROWS, RAMDISK_NOT_IN_ROWS, by zero page and PVH: a range of the kernel's, the line
 *                         or the ramdisk has bytes, and is not within one row of type 1
 *
 * Leaves, accepted: in guest the bytes of every piece; in booted the result. Leaves, refused: guest and booted as they
 * were.
 */
static inline uint32_t rekusoyen_boot(
    uint8_t *guest, size_t guest_len,
    const uint64_t *map, size_t map_len,
    const struct rekusoyen_boot *boot,
    struct rekusoyen_booted *booted)
{
    uint64_t *const numbers = (uint64_t *)booted;
    const struct rekusoyen_texts *const line = &boot->line;
    if (!rekusoyen_boot_fits(boot))
        return REKUSOYEN_BAD_LIST;
    switch (boot->entry) {
    case REKUSOYEN_ENTRY_ZERO_PAGE:
        return rekusoyen_raw_boot_zero_page(
            guest, guest_len, map, map_len, boot->image, boot->image_len, boot->format, boot->flags, boot->offset,
            boot->highmem, boot->limit, line->boot, line->boot_len, line->init, line->init_len, boot->ramdisk,
            boot->ramdisk_len, boot->rows, boot->rows_len, (uint32_t)boot->line_at, (uint32_t)boot->ramdisk_at,
            (uint32_t)boot->data_at, numbers, REKUSOYEN_BOOTED_NUMBERS);
    case REKUSOYEN_ENTRY_PVH:
        return rekusoyen_raw_boot_pvh(
            guest, guest_len, map, map_len, boot->image, boot->image_len, boot->format, boot->flags, boot->offset,
            boot->highmem, boot->limit, line->boot, line->boot_len, line->init, line->init_len, boot->ramdisk,
            boot->ramdisk_len, boot->rows, boot->rows_len, boot->line_at, boot->ramdisk_at, (uint32_t)boot->data_at,
            boot->rsdp, numbers, REKUSOYEN_BOOTED_NUMBERS);
    default:
        return rekusoyen_raw_boot_tree(
            guest, guest_len, map, map_len, boot->image, boot->image_len, boot->format, boot->flags, boot->offset,
            boot->highmem, boot->limit, line->boot, line->boot_len, boot->ramdisk, boot->ramdisk_len, boot->tree,
            boot->tree_len, boot->line_at, boot->ramdisk_at, boot->data_at, numbers, REKUSOYEN_BOOTED_NUMBERS);
    }
}

/*
 * What rekusoyen_boot would answer over guest memory of this size with this map. Nothing is written, and no guest
 * memory is passed: a program whose guest memory is not one slice copies the pieces itself, the kernel by
 * rekusoyen_part.
 *
 *   memory_size  how many bytes guest memory has; of memory in regions, the end of the last one
 *   map          its ranges
 *   boot         the boot; of the ramdisk only the length is looked at
 *   booted       the result
 *
 * Refusals: those of rekusoyen_boot, with memory_size in place of guest_len.
 *
 * Leaves, accepted: in booted the result. Leaves, refused: booted as it was.
 */
static inline uint32_t rekusoyen_boot_plan(
    uint64_t memory_size,
    const uint64_t *map, size_t map_len,
    const struct rekusoyen_boot *boot,
    struct rekusoyen_booted *booted)
{
    uint64_t *const numbers = (uint64_t *)booted;
    const struct rekusoyen_texts *const line = &boot->line;
    if (!rekusoyen_boot_fits(boot))
        return REKUSOYEN_BAD_LIST;
    switch (boot->entry) {
    case REKUSOYEN_ENTRY_ZERO_PAGE:
        return rekusoyen_raw_boot_zero_page_plan(
            memory_size, map, map_len, boot->image, boot->image_len, boot->format, boot->flags, boot->offset,
            boot->highmem, boot->limit, line->boot, line->boot_len, line->init, line->init_len, boot->ramdisk_len,
            boot->rows, boot->rows_len, (uint32_t)boot->line_at, (uint32_t)boot->ramdisk_at, (uint32_t)boot->data_at,
            numbers, REKUSOYEN_BOOTED_NUMBERS);
    case REKUSOYEN_ENTRY_PVH:
        return rekusoyen_raw_boot_pvh_plan(
            memory_size, map, map_len, boot->image, boot->image_len, boot->format, boot->flags, boot->offset,
            boot->highmem, boot->limit, line->boot, line->boot_len, line->init, line->init_len, boot->ramdisk_len,
            boot->rows, boot->rows_len, boot->line_at, boot->ramdisk_at, (uint32_t)boot->data_at, boot->rsdp, numbers,
            REKUSOYEN_BOOTED_NUMBERS);
    default:
        return rekusoyen_raw_boot_tree_plan(
            memory_size, map, map_len, boot->image, boot->image_len, boot->format, boot->flags, boot->offset,
            boot->highmem, boot->limit, line->boot, line->boot_len, boot->ramdisk_len, boot->tree, boot->tree_len,
            boot->line_at, boot->ramdisk_at, boot->data_at, numbers, REKUSOYEN_BOOTED_NUMBERS);
    }
}

/* ---- pieces of a boot, for a program that lays them out itself */

/*
 * Is a line no longer than the kernel takes? Nothing else of the line or the image is checked.
 *
 *   image  the whole file; of a bzImage the version and cmdline_size are looked at
 *   flags  whether a limit is given
 *   limit  the most bytes of a line, its zero not counted, for ELF and arm64: 2047 if not given
 *   text   the boot text
 *   init   the init text
 *
 * Refusals:
 *   BAD_LIST       the format is none of the three
 *   LINE_TOO_LONG  as of rekusoyen_boot
 */
uint32_t rekusoyen_line_check(
    const uint8_t *image, size_t image_len,
    uint32_t format, uint32_t flags, uint32_t limit,
    const uint8_t *text, size_t text_len,
    const uint8_t *init, size_t init_len);

/*
 * Have so many bytes room at an address? 1 if all of them are within one range of guest memory, or if there are none;
 * else 0. It is not checked that the map is valid: the first REKUSOYEN_MAP_RANGES ranges of any list count as they are.
 */
uint32_t rekusoyen_has_room(
    uint64_t memory_size,
    const uint64_t *map, size_t map_len,
    uint64_t address, uint64_t size);

/*
 * Writes bytes, such as a ramdisk or a device tree, into guest memory.
 *
 *   guest    guest memory, its first byte at guest address 0
 *   map      its ranges
 *   address  where the bytes begin
 *   bytes    the bytes; none are accepted at every address
 *
 * Refusals:
 *   SLICE_TOO_LONG  guest_len is above REKUSOYEN_LONGEST_SLICE
 *   BAD_MAP         the map is not valid
 *   NO_ROOM         the bytes have no room at the address
 *
 * Leaves, accepted: in guest the bytes from the address on. Leaves, refused: guest as it was.
 */
uint32_t rekusoyen_put(
    uint8_t *guest, size_t guest_len,
    const uint64_t *map, size_t map_len,
    uint64_t address,
    const uint8_t *bytes, size_t bytes_len);

/*
 * Where to put a piece: the lowest address, or of rekusoyen_place_high the highest, at which it fits. It fits at a
 * multiple of align from low on if it ends at high at the latest, has room, and shares no byte with a range that is
 * placed already. With more memory the lowest address may be lower, and the highest higher.
 *
 *   memory_size  how many bytes guest memory has
 *   map          its ranges. It is not checked that the map is valid, as of rekusoyen_has_room
 *   placed       ranges, start and size in turn, of any number and in any order; a single number at the end is not
 *                looked at
 *   low, high    the first address of the bounds, and the one after the last
 *   align        0 counts as 1
 *   size         of the piece. One of no bytes needs no room and shares no byte
 *   address      the result
 *
 * Refusals:
 *   NO_ROOM  it fits nowhere
 *
 * Leaves, accepted: in address the result. Leaves, refused: address as it was.
 */
uint32_t rekusoyen_raw_place(
    uint64_t memory_size, const uint64_t *map, size_t map_len, const uint64_t *placed, size_t placed_len, uint64_t low,
    uint64_t high, uint64_t align, uint64_t size, uint64_t *address, size_t address_len);
static inline uint32_t rekusoyen_place(
    uint64_t memory_size,
    const uint64_t *map, size_t map_len,
    const uint64_t *placed, size_t placed_len,
    uint64_t low, uint64_t high, uint64_t align, uint64_t size,
    uint64_t *address)
{
    return rekusoyen_raw_place(
        memory_size, map, map_len, placed, placed_len, low, high, align, size, address, 1);
}
uint32_t rekusoyen_raw_place_high(
    uint64_t memory_size, const uint64_t *map, size_t map_len, const uint64_t *placed, size_t placed_len, uint64_t low,
    uint64_t high, uint64_t align, uint64_t size, uint64_t *address, size_t address_len);
static inline uint32_t rekusoyen_place_high(
    uint64_t memory_size,
    const uint64_t *map, size_t map_len,
    const uint64_t *placed, size_t placed_len,
    uint64_t low, uint64_t high, uint64_t align, uint64_t size,
    uint64_t *address)
{
    return rekusoyen_raw_place_high(
        memory_size, map, map_len, placed, placed_len, low, high, align, size, address, 1);
}

/* ---- a job of the desk program */

/* The most bytes of a valid job, and the bytes for its text. */
#define REKUSOYEN_JOB_LIMIT 16384
#define REKUSOYEN_JOB_TEXT_SIZE 80

/*
 * Does a job: an image, with or without a line, after a table of contents. The image is loaded into 16,384 zero bytes
 * of the call's own, the line is put at the kernel's end, and the text says what came of it.
 *
 *   job   the job, of any length; one that is not valid has the text `refused 70`
 *   text  REKUSOYEN_JOB_TEXT_SIZE bytes
 *
 * Refusals:
 *   NO_ROOM  text_len is not REKUSOYEN_JOB_TEXT_SIZE
 *
 * Leaves, accepted: in text what the desk program prints, lines that each end with a line feed, and zeros after them.
 */
uint32_t rekusoyen_job(const uint8_t *job, size_t job_len, uint8_t *text, size_t text_len);

#ifdef __cplusplus
}
#endif

#endif
