/* Images and guest memory of 2^40 bytes and of one more. The system keeps only the pages that are written. */
#include "lines.h"
#include "loads.h"
#include "tests.h"

#include <stdio.h>
#include <string.h>
#include <sys/mman.h>

#define LONGEST ((size_t)REKUSOYEN_LONGEST_SLICE)
#define EDGE ((size_t)65536)
#define MAPPED (LONGEST + EDGE)
#define MARK 0x3c

/* A mapping, and what its edges should hold: EDGE bytes from its start on, EDGE before and after the longest length. */
struct mapping {
    uint8_t *bytes;
    uint8_t start[EDGE], end[2 * EDGE];
};

static uint8_t *end_of(const struct mapping *mapping)
{
    return mapping->bytes + LONGEST - EDGE;
}

/* Takes what the edges hold now for what they should hold. */
static void keep(struct mapping *mapping)
{
    memcpy(mapping->start, mapping->bytes, sizeof mapping->start);
    memcpy(mapping->end, end_of(mapping), sizeof mapping->end);
}

static int map(struct mapping *mapping)
{
    mapping->bytes = mmap(
        NULL, MAPPED, PROT_READ | PROT_WRITE, MAP_PRIVATE | MAP_ANONYMOUS | MAP_NORESERVE, -1, 0);
    if (mapping->bytes == MAP_FAILED) {
        perror("a mapping of more than 2^40 bytes, which this test needs, cannot be made here");
        return 0;
    }
    memset(end_of(mapping), MARK, 2 * EDGE);
    keep(mapping);
    return 1;
}

static void check_edges(const char *what, const struct mapping *mapping)
{
    CHECK(memcmp(mapping->start, mapping->bytes, sizeof mapping->start) == 0, "%s: the start of the mapping", what);
    CHECK(memcmp(mapping->end, end_of(mapping), sizeof mapping->end) == 0, "%s: the end of the mapping", what);
}

/* Puts an image at the start of a mapping, for a call to read. */
static void put_image(struct mapping *mapping, const struct image *image)
{
    memset(mapping->bytes, 0, EDGE);
    memcpy(mapping->bytes, image->bytes, image->size);
    keep(mapping);
}

/* A load in a format from the first bytes of a mapping, which hold an image. */
static void load_from(
    const char *what, const struct mapping *image, size_t image_len, const struct format *format, uint32_t expected)
{
    const int accepted = expected == REKUSOYEN_ACCEPTED;
    uint8_t loaded[GUEST];
    struct lent guest = lend_filled(GUEST), kernel = lend_list(REKUSOYEN_KERNEL_NUMBERS);
    memcpy(loaded, guest.before, GUEST);
    if (accepted)
        memcpy(loaded + ADDRESS, format->image.bytes + format->from, SIZE);
    uint32_t answer = rekusoyen_load(
        guest.bytes, GUEST, WHOLE(GUEST), image->bytes, image_len, format->number, 0, 0, 0, (void *)kernel.bytes);
    CHECK_ANSWER(what, answer, expected);
    CHECK_LEFT(what, &guest, loaded);
    CHECK_LEFT(what, &kernel, accepted ? (const void *)&format->kernel : kernel.before);
    check_edges(what, image);
}

static void check_walk(const struct mapping *image, size_t image_len, uint32_t expected)
{
    const struct rekusoyen_note note = {.pvh = REKUSOYEN_PVH_NOT_PRESENT, .headers = 1};
    struct lent out = lend_list(REKUSOYEN_NOTE_NUMBERS);
    uint32_t answer = rekusoyen_elf_note(image->bytes, image_len, LONGEST - NOTE_HEADER_SIZE, 1, (void *)out.bytes);
    CHECK_ANSWER("a walk", answer, expected);
    CHECK_LEFT("a walk", &out, expected == REKUSOYEN_ACCEPTED ? (const void *)&note : out.before);
    check_edges("a walk", image);
}

/* The image is the mapping, and of the longest length all its bytes count: a bzImage or an arm64 Image has no room. */
static void check_images(struct mapping *mapping)
{
    static const uint32_t others[] = {
        0, REKUSOYEN_INVALID_ELF_MAGIC_NUMBER, REKUSOYEN_INVALID_BZ_IMAGE, REKUSOYEN_BAD_IMAGE_MAGIC};
    for (EACH_FORMAT(number)) {
        const struct format format = format_of(number);
        put_image(mapping, &format.image);
        for (EACH_FORMAT(other)) {
            const struct format named = format_of(other);
            load_from("a long image", mapping, LONGEST + 1, &named, REKUSOYEN_SLICE_TOO_LONG);
            load_from(
                "the longest image", mapping, LONGEST, &named,
                other != number            ? others[other]
                : number == REKUSOYEN_ELF ? REKUSOYEN_ACCEPTED
                                           : format.no_room);
        }
        CHECK(rekusoyen_kind(mapping->bytes, LONGEST + 1) == number, "the kind of a long image");
        struct lent header = lend_filled(REKUSOYEN_SETUP_HEADER_SIZE);
        CHECK_ANSWER(
            "a header", rekusoyen_setup_header(mapping->bytes, LONGEST + 1, 0, header.bytes, header.size),
            REKUSOYEN_SLICE_TOO_LONG);
        CHECK_KEPT("a header", &header);
        struct image expected = format.image;
        memset(expected.bytes + expected.size, 0, sizeof expected.bytes - expected.size);
        put_number(&expected, CODE32_START, 4, 0);
        header = lend_filled(REKUSOYEN_SETUP_HEADER_SIZE);
        CHECK_ANSWER(
            "a header", rekusoyen_setup_header(mapping->bytes, LONGEST, 0, header.bytes, header.size),
            REKUSOYEN_ACCEPTED);
        CHECK_LEFT("a header", &header, expected.bytes + SETUP_HEADER);
        check_edges("a header", mapping);
    }
    memset(end_of(mapping) + EDGE - NOTE_HEADER_SIZE, 0, NOTE_HEADER_SIZE);
    keep(mapping);
    check_walk(mapping, LONGEST + 1, REKUSOYEN_SLICE_TOO_LONG);
    check_walk(mapping, LONGEST, REKUSOYEN_ACCEPTED);
}

/* Some bytes should be the last of the longest guest memory now. */
static void check_last(const char *what, struct mapping *mapping, const void *bytes, size_t size)
{
    memcpy(mapping->end + EDGE - size, bytes, size);
    check_edges(what, mapping);
}

/* A load to the last bytes of the longest guest memory, which are as before if it is refused. */
static void load_into(struct mapping *guest, size_t guest_len, const struct format *format, uint32_t expected)
{
    const uint64_t last = LONGEST - SIZE, size = format->kernel.end - format->kernel.load;
    const int is_bzimage = format->number == REKUSOYEN_BZIMAGE;
    const struct rekusoyen_kernel result = AT(last, last + size);
    struct image whole = format->image;
    if (format->number == REKUSOYEN_ELF) {
        put_number(&whole, E_ENTRY, 8, last);
        put_number(&whole, ELF_HEADER_SIZE + P_PADDR, 8, last);
    } else if (format->number == REKUSOYEN_ARM64) {
        put_number(&whole, TEXT_OFFSET, 8, last);
    }
    struct lent image = lend_bytes(whole.bytes, whole.size), kernel = lend_list(REKUSOYEN_KERNEL_NUMBERS);
    uint32_t answer = rekusoyen_load(
        guest->bytes, guest_len, WHOLE(guest_len), image.bytes, image.size, format->number,
        is_bzimage ? REKUSOYEN_OFFSET_GIVEN : 0, last, 0, (void *)kernel.bytes);
    CHECK_ANSWER(format->name, answer, expected);
    CHECK_KEPT(format->name, &image);
    CHECK_LEFT(format->name, &kernel, expected == REKUSOYEN_ACCEPTED ? (const void *)&result : kernel.before);
    if (expected == REKUSOYEN_ACCEPTED)
        check_last(format->name, guest, whole.bytes + format->from, SIZE);
    else
        check_edges(format->name, guest);
}

static void load_line_into(struct mapping *guest, size_t guest_len, const struct line *content, uint32_t expected)
{
    struct lent line = lend_bytes(content->bytes, sizeof content->bytes);
    CHECK_ANSWER(
        "a line load",
        rekusoyen_line_load(guest->bytes, guest_len, WHOLE(guest_len), LONGEST - 3, line.bytes, line.size), expected);
    CHECK_KEPT("a line load", &line);
    if (expected == REKUSOYEN_ACCEPTED)
        check_last("a line load", guest, "ab", 3);
    else
        check_edges("a line load", guest);
}

/* Guest memory is the mapping: of the longest length its last bytes are written, of one more it is untouched. */
static void check_guests(struct mapping *mapping)
{
    const struct text none = T(""), two = T("ab");
    const struct line line = line_of(two, none, 3), init_only = line_of(none, two, 9), no_line = {{1}};
    for (EACH_FORMAT(number)) {
        const struct format format = format_of(number);
        load_into(mapping, LONGEST, &format, REKUSOYEN_ACCEPTED);
        load_line_into(mapping, LONGEST, &line, REKUSOYEN_ACCEPTED);
        load_into(mapping, LONGEST + 1, &format, REKUSOYEN_SLICE_TOO_LONG);
    }
    load_line_into(mapping, LONGEST + 1, &line, REKUSOYEN_SLICE_TOO_LONG);
    load_line_into(mapping, LONGEST + 1, &init_only, REKUSOYEN_SLICE_TOO_LONG);
    load_line_into(mapping, LONGEST + 1, &no_line, REKUSOYEN_INVALID_CAPACITY);
}

/* A whole boot of a long image or into long guest memory; and bytes that are put at its end. */
static void check_boots(struct mapping *mapping)
{
    static const uint64_t longest[] = {0, LONGEST}, small[] = {0, GUEST};
    for (uint32_t entry = REKUSOYEN_ENTRY_ZERO_PAGE; entry <= REKUSOYEN_ENTRY_TREE; entry++)
        for (EACH_FORMAT(number)) {
            const struct format format = format_of(number);
            struct lent list = lend_list(REKUSOYEN_BOOTED_NUMBERS), guest = lend_filled(GUEST);
            struct rekusoyen_booted *const booted = (void *)list.bytes;
            struct rekusoyen_boot boot = {
                .image = format.image.bytes, .image_len = format.image.size, .format = number, .entry = entry};
            const uint32_t expected = REKUSOYEN_SLICE_TOO_LONG;
            CHECK_ANSWER("guest", rekusoyen_boot(mapping->bytes, LONGEST + 1, longest, 2, &boot, booted), expected);
            CHECK_ANSWER("memory", rekusoyen_boot_plan(LONGEST + 1, longest, 2, &boot, booted), expected);
            boot.image = mapping->bytes;
            boot.image_len = LONGEST + 1;
            CHECK_ANSWER("image", rekusoyen_boot(guest.bytes, GUEST, small, 2, &boot, booted), expected);
            CHECK_ANSWER("image", rekusoyen_boot_plan(GUEST, small, 2, &boot, booted), expected);
            CHECK_KEPT("refused", &list);
            CHECK_KEPT("refused", &guest);
            check_edges("a boot", mapping);
        }
    CHECK_ANSWER(
        "put", rekusoyen_put(mapping->bytes, LONGEST + 1, longest, 2, 0, (const uint8_t *)"end", 3),
        REKUSOYEN_SLICE_TOO_LONG);
    check_edges("put", mapping);
    CHECK_ANSWER(
        "put", rekusoyen_put(mapping->bytes, LONGEST, longest, 2, LONGEST - 3, (const uint8_t *)"end", 3),
        REKUSOYEN_ACCEPTED);
    check_last("put", mapping, "end", 3);
}

/* A map that is not valid is refused after an unknown format and a long slice, and before the image or the line. */
static void check_order(const struct mapping *mapping)
{
    const struct text none = T(""), two = T("ab");
    const struct line init_only = line_of(none, two, 9);
    static const struct {
        size_t guest_len;
        uint32_t answer;
    } lengths[] = {{LONGEST + 1, REKUSOYEN_SLICE_TOO_LONG}, {LONGEST, REKUSOYEN_BAD_MAP}};
    for (size_t i = 0; i < sizeof lengths / sizeof lengths[0]; i++) {
        const size_t length = lengths[i].guest_len;
        const uint64_t past[] = {0, length + 1};
        struct lent list = lend_list(REKUSOYEN_PLAN_NUMBERS);
        uint64_t *const numbers = numbers_of(&list);
        for (uint32_t format = REKUSOYEN_UNKNOWN; format <= REKUSOYEN_ARM64; format++) {
            const uint32_t expected = format == REKUSOYEN_UNKNOWN ? REKUSOYEN_BAD_LIST : lengths[i].answer;
            uint32_t answer = rekusoyen_raw_load(
                mapping->bytes, length, past, 2, NULL, 0, format, 0, 0, 0, numbers, REKUSOYEN_KERNEL_NUMBERS);
            CHECK_ANSWER("load", answer, expected);
            answer = rekusoyen_raw_plan(length, past, 2, NULL, 0, format, 0, 0, 0, numbers, REKUSOYEN_PLAN_NUMBERS);
            CHECK_ANSWER("plan", answer, expected);
        }
        CHECK_ANSWER("note", rekusoyen_raw_elf_note(mapping->bytes, length, 0, 0, numbers, 1), REKUSOYEN_NO_ROOM);
        CHECK_ANSWER(
            "line", rekusoyen_line_load(mapping->bytes, length, past, 2, 0, init_only.bytes, sizeof init_only.bytes),
            lengths[i].answer);
        CHECK_KEPT("refused", &list);
        check_edges("refused", mapping);
    }
}

void test_long_slices(void)
{
    static struct mapping mapping;
    const int mapped = map(&mapping);
    CHECK(mapped, "no slices of more than 2^40 bytes were lent");
    if (!mapped)
        return;
    check_images(&mapping);
    check_guests(&mapping);
    check_boots(&mapping);
    check_order(&mapping);
    CHECK(munmap(mapping.bytes, MAPPED) == 0, "the mapping is given back");
}
