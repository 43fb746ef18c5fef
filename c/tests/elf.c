/* Loads of ELF images. */
#include "loads.h"
#include "tests.h"

#include <string.h>

/* A load of an image with these program headers. */
struct elf_load {
    struct program_header headers[3];
    size_t count;
    struct load load;
};

/* The bytes that the program headers below speak of: some to load, and notes. */
enum { TEXT = 0, PVH_NOTE = 16, LONG_NOTE = 36, OTHER_NOTE = 60, SHORT_NOTE = 80, HUGE_NOTE = 96, CUT_NOTE = 108 };

static struct image body(void)
{
    struct image body = {{0}, 0};
    append(&body, "sixteen bytes ..", 16);
    append_note(&body, PVH_NOTE_TYPE, "Xen", 4, "\x00\x00\x10\x00", 4);
    append_note(&body, PVH_NOTE_TYPE, "Xen", 4, "\x00\x00\x20\x00\x01", 5);
    append_note(&body, PVH_NOTE_TYPE, "GNU", 4, "\x00\x00\x20\x00", 4);
    append_note(&body, PVH_NOTE_TYPE, "Xen", 4, "", 0);
    append_note(&body, 1, "", 0, "", 0);
    put_number(&body, HUGE_NOTE, 4, 0xfffffffd);
    append(&body, "only 11 B..", 11);
    return body;
}

#define PVH_ADDRESS 0x100000

/* What is returned of a PVH note that was used, in an image with so many program headers. */
#define USED(count, note, address, size) \
    .pvh = REKUSOYEN_PVH_PRESENT, .pvh_entry = (address), \
    .pvh_offset = ELF_HEADER_SIZE + (count) * PROGRAM_HEADER_SIZE + (note) + 16, .pvh_size = (size)

#define TOP UINT64_MAX

#define LOADS_16 {LOADABLE, TEXT, 16, 3, 8}
#define LOADS_40 {LOADABLE, TEXT + 4, 40, 5, 5}
#define ARRIVES_16 {16, "six", 3}
#define ARRIVES_40 {40, "een b", 5}

/* e_entry is 16 in all of them. */
static const struct elf_load loads[] = {
    {{LOADS_16}, 1, {"one segment", 0, 0, 0, 32, REKUSOYEN_ACCEPTED, AT(16, 24), {ARRIVES_16}}},
    {{LOADS_16}, 1, {"the kernel's end past guest memory", 0, 0, 0, 19, REKUSOYEN_ACCEPTED, AT(16, 24), {ARRIVES_16}}},
    {{LOADS_16}, 1, {"an offset", REKUSOYEN_OFFSET_GIVEN, 4, 0, 32, REKUSOYEN_ACCEPTED, AT(20, 28), {{20, "six", 3}}}},
    {{LOADS_16}, 1, {"addresses without their flag", ~3u, TOP, TOP, 32, REKUSOYEN_ACCEPTED, AT(16, 24), {ARRIVES_16}}},
    {{LOADS_16}, 1,
     {"highmem at the entry", REKUSOYEN_HIGHMEM_GIVEN, 0, 16, 32, REKUSOYEN_ACCEPTED, AT(16, 24), {ARRIVES_16}}},
    {{{0}}, 0, {"no program headers", 0, 0, 0, 0, REKUSOYEN_ACCEPTED, AT(16, 0), {{0}}}},
    {{LOADS_16, {LOADABLE, TEXT + 8, 18, 2, 2}}, 2,
     {"a later segment over an earlier", 0, 0, 0, 32, REKUSOYEN_ACCEPTED, AT(16, 24), {ARRIVES_16, {18, "by", 2}}}},
    {{{LOADABLE, TEXT, TOP, 0, 0}, {DYNAMIC, TEXT, 0, 8, 99}, LOADS_16}, 3,
     {"a segment that is empty in both sizes, and one that is not loadable", REKUSOYEN_OFFSET_GIVEN, 4, 0, 32,
      REKUSOYEN_ACCEPTED, AT(20, 28), {{20, "six", 3}}}},
    {{LOADS_16, {LOADABLE, TOP, 30, 0, 70}}, 2,
     {"memory without file bytes, past guest memory", 0, 0, 0, 32, REKUSOYEN_ACCEPTED, AT(16, 100), {ARRIVES_16}}},
    {{LOADS_16, {LOADABLE, TEXT, 0, 0, 4}}, 2,
     {"memory without file bytes below the end", 0, 0, 0, 32, REKUSOYEN_ACCEPTED, AT(16, 24), {ARRIVES_16}}},
    {{LOADS_16, {LOADABLE, TEXT, TOP - 1, 0, 1}}, 2,
     {"memory without file bytes up to the last address", 0, 0, 0, 32, REKUSOYEN_ACCEPTED, AT(16, TOP), {ARRIVES_16}}},
    {{{NOTES, PVH_NOTE, 0, 20, 0}, LOADS_16}, 2,
     {"a PVH note", 0, 0, 0, 32, REKUSOYEN_ACCEPTED,
      {.load = 16, .end = 24, USED(2, PVH_NOTE, PVH_ADDRESS, 4)}, {ARRIVES_16}}},
    {{{NOTES, PVH_NOTE, 0, 20, 0}, LOADS_16}, 2,
     {"a PVH note and an offset", REKUSOYEN_OFFSET_GIVEN, 0, 0, 32, REKUSOYEN_ACCEPTED, AT(16, 24), {ARRIVES_16}}},
    {{{NOTES, OTHER_NOTE, 0, 20, 0}, LOADS_16, {NOTES, PVH_NOTE, 0, 20, 0}}, 3,
     {"a PVH note after another", 0, 0, 0, 32, REKUSOYEN_ACCEPTED,
      {.load = 16, .end = 24, USED(3, PVH_NOTE, PVH_ADDRESS, 4)}, {ARRIVES_16}}},
    {{{NOTES, OTHER_NOTE, 0, 20, 0}, LOADS_16}, 2,
     {"notes without a PVH note", 0, 0, 0, 32, REKUSOYEN_ACCEPTED,
      {.load = 16, .end = 24, .pvh = REKUSOYEN_PVH_NOT_PRESENT}, {ARRIVES_16}}},
    {{{NOTES, PVH_NOTE, 0, 20, 0}, LOADS_16, {NOTES, OTHER_NOTE, 0, 20, 0}}, 3,
     {"a PVH note before another", 0, 0, 0, 32, REKUSOYEN_ACCEPTED,
      {.load = 16, .end = 24, USED(3, PVH_NOTE, PVH_ADDRESS, 4)}, {ARRIVES_16}}},
    {{{NOTES, LONG_NOTE, 0, 24, 0}, LOADS_16, {NOTES, PVH_NOTE, 0, 20, 0}}, 3,
     {"the first of two PVH notes", 0, 0, 0, 32, REKUSOYEN_ACCEPTED,
      {.load = 16, .end = 24, USED(3, LONG_NOTE, 0x200000, 5)}, {ARRIVES_16}}},

    /* nothing is written, neither the segments before the refused program header nor those after it */
    {{LOADS_16, {LOADABLE, TEXT, TOP - 3, 3, 3}, LOADS_40}, 3,
     {"an address that does not fit", REKUSOYEN_OFFSET_GIVEN, 4, 0, 64, REKUSOYEN_INVALID_PROGRAM_HEADER_ADDRESS,
      NOTHING}},
    {{LOADS_16, {LOADABLE, CUT_NOTE, 0, 12, 12}, LOADS_40}, 3,
     {"bytes past the image", 0, 0, 0, 64, REKUSOYEN_READ_KERNEL_IMAGE, NOTHING}},
    {{LOADS_16, {LOADABLE, TEXT, 0, TOP - 200, TOP - 200}, LOADS_40}, 3,
     {"a size that would wrap into the image", 0, 0, 0, 64, REKUSOYEN_READ_KERNEL_IMAGE, NOTHING}},
    {{LOADS_16, {LOADABLE, TEXT, 62, 3, 3}, LOADS_40}, 3,
     {"bytes past guest memory", 0, 0, 0, 64, REKUSOYEN_READ_KERNEL_IMAGE, NOTHING}},
    {{LOADS_16, {LOADABLE, TEXT, TOP, 3, 3}, LOADS_40}, 3,
     {"an address that would wrap into guest memory", 0, 0, 0, 64, REKUSOYEN_READ_KERNEL_IMAGE, NOTHING}},
    {{LOADS_16, {LOADABLE, TEXT + 8, 32, 4, TOP - 31}, LOADS_40}, 3,
     {"a memory size that does not fit", 0, 0, 0, 64, REKUSOYEN_MEMORY_OVERFLOW, NOTHING}},
    {{LOADS_16, {LOADABLE, TEXT, TOP - 1, 0, 2}, LOADS_40}, 3,
     {"memory without file bytes whose end does not fit", 0, 0, 0, 64, REKUSOYEN_MEMORY_OVERFLOW, NOTHING}},
    {{LOADS_16, {LOADABLE, TEXT, TOP - 3, 0, TOP}, LOADS_40}, 3,
     {"memory without file bytes whose address does not fit", REKUSOYEN_OFFSET_GIVEN, 4, 0, 64,
      REKUSOYEN_INVALID_PROGRAM_HEADER_ADDRESS, NOTHING}},
    {{LOADS_16, {LOADABLE, TEXT, 24, 3, 2}, LOADS_40}, 3,
     {"more bytes in the file than in memory", 0, 0, 0, 64, REKUSOYEN_INVALID_PROGRAM_HEADER_FILE_SIZE, NOTHING}},
    {{LOADS_16, {LOADABLE, TEXT, TOP - 3, 1, 0}, LOADS_40}, 3,
     {"more bytes in the file than in memory, and an address that does not fit", REKUSOYEN_OFFSET_GIVEN, 4, 0, 64,
      REKUSOYEN_INVALID_PROGRAM_HEADER_FILE_SIZE, NOTHING}},
    {{LOADS_16, {NOTES, CUT_NOTE, 0, 1, 0}, LOADS_40}, 3,
     {"a note past the image", 0, 0, 0, 64, REKUSOYEN_READ_NOTE_HEADER, NOTHING}},
    {{LOADS_16, {NOTES, HUGE_NOTE, 0, 12, 0}, LOADS_40}, 3,
     {"a note of a huge size", 0, 0, 0, 64, REKUSOYEN_OVERFLOW, NOTHING}},
    {{{NOTES, PVH_NOTE, 0, 20, 0}, LOADS_16, {NOTES, CUT_NOTE, 0, 1, 0}}, 3,
     {"a note past the image after a PVH note", 0, 0, 0, 64, REKUSOYEN_READ_NOTE_HEADER, NOTHING}},
    {{LOADS_16, {NOTES, SHORT_NOTE, 0, 16, 0}, LOADS_40}, 3,
     {"a PVH note without an address", 0, 0, 0, 64, REKUSOYEN_INVALID_PVH_NOTE, NOTHING}},
    {{LOADS_16, {NOTES, SHORT_NOTE, 0, 16, 0}, LOADS_40}, 3,
     {"notes that would be refused, and an offset", REKUSOYEN_OFFSET_GIVEN, 0, 0, 64, REKUSOYEN_ACCEPTED,
      AT(16, 45), {ARRIVES_16, ARRIVES_40}}},
};

/* Every defect at once, and each repaired in turn: the refusals come in the order in which they are checked. */
static void check_order(void)
{
    struct load load = {"every defect, repaired in turn", 3, TOP, 17, 18, REKUSOYEN_ACCEPTED, AT(16, TOP), {{0}}};
    struct image whole = small_elf(), image = {{0}, ELF_HEADER_SIZE - 1};
    const size_t header = ELF_HEADER_SIZE;
    put_number(&image, E_ENTRY, 8, 16);
    put_number(&image, E_PHNUM, 2, 1);
    check_next(REKUSOYEN_ELF, &load, &image, REKUSOYEN_READ_ELF_HEADER);
    image.size = ELF_HEADER_SIZE;
    check_next(REKUSOYEN_ELF, &load, &image, REKUSOYEN_INVALID_ELF_MAGIC_NUMBER);
    memcpy(image.bytes, whole.bytes, 4);
    check_next(REKUSOYEN_ELF, &load, &image, REKUSOYEN_BIG_ENDIAN_ELF_ON_LITTLE);
    put_number(&image, EI_DATA, 1, 1);
    check_next(REKUSOYEN_ELF, &load, &image, REKUSOYEN_INVALID_PROGRAM_HEADER_SIZE);
    put_number(&image, E_PHENTSIZE, 2, PROGRAM_HEADER_SIZE);
    put_number(&image, E_PHOFF, 8, ELF_HEADER_SIZE - 1);
    check_next(REKUSOYEN_ELF, &load, &image, REKUSOYEN_INVALID_PROGRAM_HEADER_OFFSET);
    put_number(&image, E_PHOFF, 8, ELF_HEADER_SIZE);
    check_next(REKUSOYEN_ELF, &load, &image, REKUSOYEN_INVALID_ENTRY_ADDRESS);
    load.highmem = 16;
    check_next(REKUSOYEN_ELF, &load, &image, REKUSOYEN_OVERFLOW);
    load.offset = TOP - 16;
    check_next(REKUSOYEN_ELF, &load, &image, REKUSOYEN_READ_PROGRAM_HEADER);
    image.size = whole.size - 1;
    memcpy(image.bytes + header, whole.bytes + header, whole.size - header);
    put_number(&image, header + P_PADDR, 8, 17);
    put_number(&image, header + P_MEMSZ, 8, 2);
    check_next(REKUSOYEN_ELF, &load, &image, REKUSOYEN_INVALID_PROGRAM_HEADER_FILE_SIZE);
    put_number(&image, header + P_MEMSZ, 8, TOP);
    check_next(REKUSOYEN_ELF, &load, &image, REKUSOYEN_INVALID_PROGRAM_HEADER_ADDRESS);
    load.offset = 0;
    check_next(REKUSOYEN_ELF, &load, &image, REKUSOYEN_READ_KERNEL_IMAGE);
    image.size = whole.size;
    check_next(REKUSOYEN_ELF, &load, &image, REKUSOYEN_READ_KERNEL_IMAGE);
    load.guest_len = 20;
    check_next(REKUSOYEN_ELF, &load, &image, REKUSOYEN_MEMORY_OVERFLOW);
    put_number(&image, header + P_MEMSZ, 8, TOP - 17);
    load.written[0] = (struct written){17, "\xaa\xbb\xcc", 3};
    check_next(REKUSOYEN_ELF, &load, &image, REKUSOYEN_ACCEPTED);
}

void test_elf(void)
{
    const struct image text = body();
    CHECK(text.size == CUT_NOTE + 11, "the body ends at %zu", text.size);
    for (size_t i = 0; i < sizeof loads / sizeof loads[0]; i++) {
        struct image image = elf_image(16, loads[i].headers, loads[i].count, text.bytes, text.size);
        check_load(REKUSOYEN_ELF, &loads[i].load, &image);
    }
    check_order();
}
