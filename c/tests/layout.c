/* The calls for single pieces of a boot: rekusoyen_line_check, _line_texts, _has_room, _put, _place and _place_high. */
#include "boot_setup.h"
#include "lines.h"
#include "tests.h"

#include <string.h>

#define TOP UINT64_MAX

/* Guest memory of two ranges with a hole between them. */
enum { SIZE = 100, HOLE = 40, AFTER = 50 };
static const uint64_t two_ranges[] = {0, HOLE, AFTER, SIZE - AFTER};

/* ---- the line */

static void check_line(
    const char *what, const struct image *content, uint32_t format, uint32_t flags, uint32_t limit, size_t text_len,
    size_t init_len, uint32_t expected)
{
    struct lent image = lend_bytes(content->bytes, content->size), text = lend_filled(text_len);
    struct lent init = lend_filled(init_len);
    uint32_t answer = rekusoyen_line_check(
        image.bytes, image.size, format, flags, limit, text.bytes, text.size, init.bytes, init.size);
    CHECK_ANSWER(what, answer, expected);
    CHECK_KEPT(what, &image);
    CHECK_KEPT(what, &text);
    CHECK_KEPT(what, &init);
}

static void check_line_lengths(void)
{
    struct image image = setup_by(BY_PAGE_32).image;
    const uint32_t given = REKUSOYEN_LIMIT_GIVEN;
    put_number(&image, CMDLINE_SIZE, 4, 20);
    check_line("cmdline_size", &image, REKUSOYEN_BZIMAGE, given, 0, 20, 0, REKUSOYEN_ACCEPTED);
    check_line("cmdline_size", &image, REKUSOYEN_BZIMAGE, given, 99, 21, 0, REKUSOYEN_LINE_TOO_LONG);
    check_line("with init text", &image, REKUSOYEN_BZIMAGE, 0, 0, 9, 7, REKUSOYEN_ACCEPTED);
    check_line("with init text", &image, REKUSOYEN_BZIMAGE, 0, 0, 9, 8, REKUSOYEN_LINE_TOO_LONG);
    put_number(&image, VERSION, 2, 0x205);
    check_line("before 2.06", &image, REKUSOYEN_BZIMAGE, 0, 0, 255, 0, REKUSOYEN_ACCEPTED);
    check_line("before 2.06", &image, REKUSOYEN_BZIMAGE, 0, 0, 256, 0, REKUSOYEN_LINE_TOO_LONG);
    image.size = 0;
    check_line("no image", &image, REKUSOYEN_BZIMAGE, 0, 0, 255, 0, REKUSOYEN_ACCEPTED);
    check_line("no image", &image, REKUSOYEN_BZIMAGE, 0, 0, 256, 0, REKUSOYEN_LINE_TOO_LONG);
    for (uint32_t format = REKUSOYEN_ELF; format <= REKUSOYEN_ARM64; format += REKUSOYEN_ARM64 - REKUSOYEN_ELF) {
        check_line("Linux's own", &image, format, ~given, 0, 2047, 0, REKUSOYEN_ACCEPTED);
        check_line("Linux's own", &image, format, ~given, UINT32_MAX, 2048, 0, REKUSOYEN_LINE_TOO_LONG);
        check_line("a limit", &image, format, given, 0, 0, 0, REKUSOYEN_ACCEPTED);
        check_line("a limit", &image, format, given, 0, 1, 0, REKUSOYEN_LINE_TOO_LONG);
        check_line("a limit", &image, format, given, UINT32_MAX, 5000, 1, REKUSOYEN_ACCEPTED);
    }
    check_line("no format", &image, REKUSOYEN_UNKNOWN, 0, 0, 5000, 0, REKUSOYEN_BAD_LIST);
    check_line("no format", &image, REKUSOYEN_ARM64 + 1, 0, 0, 0, 0, REKUSOYEN_BAD_LIST);
}

static void check_line_texts(void)
{
    const struct text boot = T("quiet ro"), init = T("single"), none = T("");
    const struct line lines[] = {line_of(boot, init, 100), line_of(boot, none, 9), line_of(none, none, 1)};
    for (size_t i = 0; i < 3; i++) {
        struct lent line = lend_bytes(lines[i].bytes, sizeof lines[i].bytes);
        struct rekusoyen_texts texts = {NULL, 0, NULL, 0};
        CHECK_ANSWER("texts", rekusoyen_line_texts(line.bytes, line.size, &texts), REKUSOYEN_ACCEPTED);
        CHECK(texts.boot_len == (i < 2 ? boot.size : 0), "line %zu: boot_len is %zu", i, texts.boot_len);
        CHECK(texts.init_len == (i < 1 ? init.size : 0), "line %zu: init_len is %zu", i, texts.init_len);
        CHECK(memcmp(texts.boot, boot.bytes, texts.boot_len) == 0, "line %zu: the boot text", i);
        CHECK(memcmp(texts.init, init.bytes, texts.init_len) == 0, "line %zu: the init text", i);
        CHECK_KEPT("texts", &line);
    }
    struct line line = line_of(boot, none, 8);
    struct rekusoyen_texts texts = {NULL, 1, NULL, 2};
    CHECK_ANSWER(
        "no line", rekusoyen_line_texts(line.bytes, sizeof line.bytes, &texts), REKUSOYEN_INVALID_CAPACITY);
    CHECK_ANSWER("one byte less", rekusoyen_line_texts(line.bytes, REKUSOYEN_LINE_SIZE - 1, &texts), REKUSOYEN_NO_ROOM);
    CHECK(texts.boot == NULL && texts.boot_len == 1 && texts.init_len == 2, "a refusal leaves the texts");
}

/* ---- room, and bytes that are put there */

static void check_room(void)
{
    static const struct {
        uint64_t address, size;
        int has;
    } rooms[] = {
        {0, HOLE, 1},        {0, HOLE + 1, 0},        {HOLE - 1, 1, 1}, {HOLE - 1, 2, 0},
        {HOLE, 1, 0},        {AFTER - 1, 2, 0},       {AFTER, 50, 1},   {AFTER, 51, 0},
        {SIZE - 1, 1, 1},    {SIZE, 1, 0},            {TOP, 1, 0},      {1, TOP, 0},
        {TOP, TOP, 0},       {TOP, 0, 1},             {HOLE, 0, 1},     {SIZE, 0, 1},
    };
    for (size_t i = 0; i < sizeof rooms / sizeof rooms[0]; i++) {
        struct lent map = lend_numbers(two_ranges, 4), guest = lend_filled(SIZE);
        const uint64_t address = rooms[i].address, size = rooms[i].size;
        CHECK(
            rekusoyen_has_room(SIZE, numbers_of(&map), 4, address, size) == (uint32_t)rooms[i].has,
            "the room of %zu bytes at %zu", (size_t)size, (size_t)address);
        if (size <= SIZE) {
            struct lent bytes = lend_filled(size), expected = lend_filled(SIZE);
            memset(bytes.bytes, 0xd4, size);
            if (rooms[i].has)
                memset(expected.bytes + (size != 0 ? address : 0), 0xd4, size);
            CHECK_ANSWER(
                "put", rekusoyen_put(guest.bytes, SIZE, numbers_of(&map), 4, address, bytes.bytes, size),
                rooms[i].has ? REKUSOYEN_ACCEPTED : REKUSOYEN_NO_ROOM);
            CHECK_LEFT("put", &guest, expected.bytes);
            CHECK_LEFT("put", &expected, expected.bytes);
            CHECK_LEFT("put", &bytes, bytes.bytes);
        } else {
            CHECK_KEPT("room", &guest);
        }
        CHECK_KEPT("room", &map);
    }
    CHECK(rekusoyen_has_room(HOLE - 1, two_ranges, 4, 0, HOLE) == 0, "memory that ends before its map");
    CHECK(rekusoyen_has_room(0, NULL, 0, 0, 1) == 0, "no memory");
    CHECK(rekusoyen_has_room(0, NULL, 0, 5, 0) == 1, "no bytes in no memory");
    struct lent guest = lend_filled(SIZE);
    CHECK_ANSWER("a bad map", rekusoyen_put(guest.bytes, SIZE - 1, two_ranges, 4, 0, NULL, 0), REKUSOYEN_BAD_MAP);
    CHECK_ANSWER("no map", rekusoyen_put(guest.bytes, SIZE, NULL, 0, 0, guest.before, 1), REKUSOYEN_NO_ROOM);
    CHECK_ANSWER("no guest", rekusoyen_put(NULL, 0, NULL, 0, 7, NULL, 0), REKUSOYEN_ACCEPTED);
    CHECK_KEPT("put", &guest);
}

/* ---- where to put a piece */

static const struct place {
    const char *what;
    uint64_t low, high, align, size;
    size_t placed_len;
    uint64_t placed[7];
    int fits;
    uint64_t lowest, highest;
} places[] = {
    {"all of a range", 0, TOP, 1, 50, 0, {0}, 1, AFTER, AFTER},
    {"in both ranges", 0, TOP, 1, 8, 0, {0}, 1, 0, 92},
    {"more than a range", 0, TOP, 1, 51, 0, {0}, 0, 0, 0},
    {"an alignment", 1, TOP, 16, 8, 0, {0}, 1, 16, 80},
    {"an alignment of 0", 3, TOP, 0, 8, 0, {0}, 1, 3, 92},
    {"an alignment of no power of two", 1, TOP, 7, 8, 0, {0}, 1, 7, 91},
    {"an alignment past all memory", 1, TOP, 128, 8, 0, {0}, 0, 0, 0},
    {"within the hole", HOLE, AFTER, 1, 1, 0, {0}, 0, 0, 0},
    {"bounds as large as the piece", 5, 13, 1, 8, 0, {0}, 1, 5, 5},
    {"bounds that are smaller", 5, 12, 1, 8, 0, {0}, 0, 0, 0},
    {"bounds in falling order", 30, 5, 1, 1, 0, {0}, 0, 0, 0},
    {"between what is placed", 0, HOLE, 1, 8, 4, {0, 8, 16, 24}, 1, 8, 8},
    {"one byte too few between them", 0, HOLE, 1, 8, 4, {0, 9, 16, 24}, 0, 0, 0},
    {"placed in any order, and over each other", 0, HOLE, 1, 8, 6, {20, 20, 5, 10, 0, 12}, 0, 0, 0},
    {"an empty range is not met", 0, HOLE, 1, HOLE, 2, {20, 0}, 1, 0, 0},
    {"a single number is not looked at", 0, HOLE, 1, 8, 3, {0, 10, 10}, 1, 10, 32},
    {"a range that passes 2^64", 0, HOLE, 1, 8, 2, {20, TOP}, 1, 0, 12},
    {"no bytes, within the hole and what is placed", 42, 44, 1, 0, 2, {0, 100}, 1, 42, 44},
    {"no bytes past all memory", TOP, TOP, 1, 0, 0, {0}, 1, TOP, TOP},
};

static void check_places(void)
{
    for (size_t i = 0; i < sizeof places / sizeof places[0]; i++) {
        const struct place *const p = &places[i];
        for (int is_high = 0; is_high < 2; is_high++) {
            struct lent map = lend_numbers(two_ranges, 4), placed = lend_numbers(p->placed, p->placed_len);
            struct lent address = lend_list(1);
            uint32_t (*const place)(
                uint64_t, const uint64_t *, size_t, const uint64_t *, size_t, uint64_t, uint64_t, uint64_t, uint64_t,
                uint64_t *) = is_high ? rekusoyen_place_high : rekusoyen_place;
            uint32_t answer =
                place(SIZE, numbers_of(&map), 4, numbers_of(&placed), p->placed_len, p->low, p->high, p->align,
                      p->size, numbers_of(&address));
            CHECK_ANSWER(p->what, answer, p->fits ? REKUSOYEN_ACCEPTED : REKUSOYEN_NO_ROOM);
            const uint64_t expected = is_high ? p->highest : p->lowest;
            CHECK_LEFT(p->what, &address, p->fits ? (const void *)&expected : address.before);
            CHECK_KEPT(p->what, &map);
            CHECK_KEPT(p->what, &placed);
        }
    }
    struct lent address = lend_list(2);
    uint64_t *const list = numbers_of(&address);
    for (size_t n = 0; n <= 2; n += 2) {
        CHECK_ANSWER(
            "one number", rekusoyen_raw_place(SIZE, two_ranges, 4, NULL, 0, 0, TOP, 1, 1, list, n), REKUSOYEN_NO_ROOM);
        CHECK_ANSWER(
            "one number", rekusoyen_raw_place_high(SIZE, two_ranges, 4, NULL, 0, 0, TOP, 1, 1, list, n),
            REKUSOYEN_NO_ROOM);
    }
    CHECK_KEPT("one number", &address);
}

void test_layout(void)
{
    check_line_lengths();
    check_line_texts();
    check_room();
    check_places();
}
