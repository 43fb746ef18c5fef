/* rekusoyen_start_write, rekusoyen_start_check and the readers of block and rows. */
#include "check.h"
#include "images.h"
#include "tests.h"

#include <string.h>

#define TOP UINT64_MAX
#define GUEST 120

enum { START_FLAGS = 0x81, LINE = 0x20001, RSDP = 0xe0000 };

static const uint64_t one[] = {1, 2, 3, 0};

/* Where the parts go, their rows, and the answer. */
struct write {
    const char *what;
    uint32_t answer;
    uint64_t block, modules_at, ranges_at;
    size_t modules_len, ranges_len;
    uint64_t modules[5], ranges[5];
};

static const struct write writes[] = {
    {"one behind the other", REKUSOYEN_ACCEPTED, 0, 56, 88, 4, 4, {1, 2, 3, 0}, {4, 5, 0xffffffff, 0}},
    {"in another order", REKUSOYEN_ACCEPTED, 64, 0, 32, 4, 4, {TOP, TOP, TOP, 0}, {TOP, TOP, 6, 0}},
    {"no rows lie anywhere", REKUSOYEN_ACCEPTED, 64, TOP, 70, 0, 0, {0}, {0}},
    {"part of a module", REKUSOYEN_BAD_LIST, 0, TOP, 88, 3, 4, {1, 2, 3}, {1, 2, 3, 0}},
    {"a row and a number", REKUSOYEN_BAD_LIST, 0, TOP, 88, 4, 5, {1, 2, 3, 0}, {1, 2, 3, 0, 0}},
    {"a reserved number of a module", REKUSOYEN_BAD_LIST, 0, TOP, 88, 4, 4, {1, 2, 3, 1}, {1, 2, 3, 0}},
    {"a reserved number of a row", REKUSOYEN_BAD_LIST, 0, TOP, 88, 4, 4, {1, 2, 3, 0}, {1, 2, 3, 1}},
    {"a type of 33 bits", REKUSOYEN_BAD_LIST, 0, TOP, 88, 4, 4, {1, 2, 3, 0}, {1, 2, 0x100000000, 0}},
    {"a block outside", REKUSOYEN_BAD_PART, 65, 0, 32, 4, 4, {1, 2, 3, 0}, {1, 2, 3, 0}},
    {"modules outside", REKUSOYEN_BAD_PART, 0, 89, 56, 4, 4, {1, 2, 3, 0}, {1, 2, 3, 0}},
    {"a memory map outside", REKUSOYEN_BAD_PART, 0, 56, 97, 4, 4, {1, 2, 3, 0}, {1, 2, 3, 0}},
    {"at the end of 2^64", REKUSOYEN_BAD_PART, TOP - 10, 56, 88, 4, 4, {1, 2, 3, 0}, {1, 2, 3, 0}},
    {"block and modules overlap", REKUSOYEN_BAD_PART, 0, 55, 88, 4, 4, {1, 2, 3, 0}, {1, 2, 3, 0}},
    {"block and memory map overlap", REKUSOYEN_BAD_PART, 0, 88, 55, 4, 4, {1, 2, 3, 0}, {1, 2, 3, 0}},
    {"the lists overlap", REKUSOYEN_BAD_PART, 0, 56, 87, 4, 4, {1, 2, 3, 0}, {1, 2, 3, 0}},
};

static const uint64_t whole[] = {0, GUEST};

static void put(uint8_t *bytes, uint64_t at, const uint64_t *numbers, const size_t *widths, size_t count)
{
    for (size_t i = 0; i < count; i++)
        for (size_t k = 0; k < widths[i]; k++)
            bytes[at++] = (uint8_t)(numbers[i] >> 8 * k);
}

static const size_t block_widths[] = {4, 4, 4, 4, 8, 8, 8, 8, 4, 4}, module_widths[] = {8, 8, 8, 8}, range_widths[] = {8, 8, 4, 4};

/* What is written reads back equal and is accepted. */
static void check_back(
    const char *what, const struct lent *guest, const struct write *w, const struct rekusoyen_start *block)
{
    struct lent numbers = lend_list(REKUSOYEN_START_BLOCK_NUMBERS);
    struct lent modules = lend_list(w->modules_len), ranges = lend_list(w->ranges_len);
    CHECK_ANSWER(
        what, rekusoyen_start_check(guest->bytes, guest->size, whole, 2, w->block), REKUSOYEN_ACCEPTED);
    rekusoyen_start_block(guest->bytes, guest->size, w->block, (void *)numbers.bytes);
    CHECK_LEFT(what, &numbers, block);
    rekusoyen_start_modules(guest->bytes, guest->size, w->modules_at, numbers_of(&modules), w->modules_len);
    CHECK_LEFT(what, &modules, w->modules);
    rekusoyen_start_ranges(guest->bytes, guest->size, w->ranges_at, numbers_of(&ranges), w->ranges_len);
    CHECK_LEFT(what, &ranges, w->ranges);
}

static void check_write(const struct write *w)
{
    struct lent guest = lend_filled(GUEST), map = lend_numbers(whole, 2);
    struct lent modules = lend_numbers(w->modules, w->modules_len), ranges = lend_numbers(w->ranges, w->ranges_len);
    uint32_t answer = rekusoyen_start_write(
        guest.bytes, guest.size, numbers_of(&map), 2, w->block, w->modules_at, w->ranges_at, START_FLAGS, LINE, RSDP, numbers_of(&modules),
        w->modules_len, numbers_of(&ranges), w->ranges_len);
    CHECK_ANSWER(w->what, answer, w->answer);
    CHECK_KEPT(w->what, &map);
    CHECK_KEPT(w->what, &modules);
    CHECK_KEPT(w->what, &ranges);
    if (w->answer != REKUSOYEN_ACCEPTED) {
        CHECK_KEPT(w->what, &guest);
        return;
    }
    const struct rekusoyen_start block = {
        .magic = REKUSOYEN_START_MAGIC, .version = 1, .flags = START_FLAGS, .modules = w->modules_len / 4,
        .modules_at = w->modules_at, .command_line = LINE, .rsdp = RSDP, .ranges_at = w->ranges_at,
        .ranges = w->ranges_len / 4};
    uint8_t expected[GUEST];
    memcpy(expected, guest.before, GUEST);
    uint64_t numbers[REKUSOYEN_START_BLOCK_NUMBERS];
    memcpy(numbers, &block, sizeof numbers);
    put(expected, w->block, numbers, block_widths, REKUSOYEN_START_BLOCK_NUMBERS);
    put(expected, w->modules_at, w->modules, module_widths, w->modules_len);
    put(expected, w->ranges_at, w->ranges, range_widths, w->ranges_len);
    check_back(w->what, &guest, w, &block);
    CHECK_LEFT(w->what, &guest, expected);
}

/* What is answered of a valid block, if this byte is another. */
static uint32_t answer_of(size_t place)
{
    if (place < 4)
        return REKUSOYEN_BAD_START_MAGIC;
    if (place < 8)
        return REKUSOYEN_BAD_START_VERSION;
    if ((place >= 52 && place < 56) || (place >= 80 && place < 88) || (place >= 108 && place < 112))
        return REKUSOYEN_BAD_START_RESERVED;
    /* more rows than there is memory, or an address past it */
    if ((place >= 12 && place < 24) || (place >= 40 && place < 52))
        return REKUSOYEN_BAD_PART;
    return REKUSOYEN_ACCEPTED;
}

/* A good block of one module and one row, of which one byte is another. */
static void check_bytes(void)
{
    uint8_t good[GUEST] = {0};
    const uint64_t block[] = {REKUSOYEN_START_MAGIC, 1, 0, 1, 56, 0, 0, 88, 1, 0};
    put(good, 0, block, block_widths, 10);
    put(good, 56, one, module_widths, 4);
    put(good, 88, one, range_widths, 4);
    for (size_t place = 0; place < GUEST; place++) {
        struct lent guest = lend_bytes(good, GUEST);
        guest.bytes[place] ^= 0x80;
        uint32_t answer = rekusoyen_start_check(guest.bytes, guest.size, whole, 2, 0);
        CHECK_ANSWER("one byte", answer, answer_of(place));
        CHECK_LEFT("one byte", &guest, guest.bytes);
    }
}

/* What is refused before anything is looked at. */
static void check_lent(void)
{
    const uint64_t bad[] = {0, GUEST + 1};
    struct lent guest = lend_filled(GUEST);
    CHECK_ANSWER("bad map", rekusoyen_start_check(guest.bytes, guest.size, bad, 2, 0), REKUSOYEN_BAD_MAP);
    CHECK_ANSWER("outside", rekusoyen_start_check(guest.bytes, guest.size, whole, 2, GUEST - 55), REKUSOYEN_BAD_PART);
    CHECK_ANSWER(
        "bad map", rekusoyen_start_write(guest.bytes, guest.size, bad, 2, TOP, 0, 0, 0, 0, 0, one, 3, one, 4), REKUSOYEN_BAD_MAP);
    CHECK_ANSWER(
        "bad list", rekusoyen_start_write(guest.bytes, guest.size, whole, 2, TOP, 0, 0, 0, 0, 0, one, 3, one, 4), REKUSOYEN_BAD_LIST);
    CHECK_ANSWER(
        "bad part", rekusoyen_start_write(guest.bytes, guest.size, whole, 2, TOP, 0, 0, 0, 0, 0, one, 4, one, 4), REKUSOYEN_BAD_PART);
    CHECK_KEPT("refused", &guest);
}

/* The numbers of a block go into a list of ten, and into no other. */
static void check_sizes(void)
{
    struct lent guest = lend_filled(GUEST), numbers = lend_list(REKUSOYEN_START_BLOCK_NUMBERS + 2);
    for (size_t length = 0; length <= REKUSOYEN_START_BLOCK_NUMBERS + 2; length++)
        if (length != REKUSOYEN_START_BLOCK_NUMBERS)
            CHECK_ANSWER(
                "ten numbers", rekusoyen_raw_start_block(guest.bytes, guest.size, 0, numbers_of(&numbers), length),
                REKUSOYEN_NO_ROOM);
    CHECK_KEPT("ten numbers", &numbers);
    CHECK_KEPT("ten numbers", &guest);
}

/* Past the end of guest memory every number is 0. */
static void check_past(void)
{
    const uint64_t zeros[4] = {0};
    struct lent guest = lend_filled(GUEST), numbers = lend_list(4);
    rekusoyen_start_modules(guest.bytes, guest.size, TOP, numbers_of(&numbers), 4);
    CHECK_LEFT("past the end", &numbers, zeros);
    CHECK_KEPT("past the end", &guest);
}

void test_starts(void)
{
    for (size_t i = 0; i < sizeof writes / sizeof writes[0]; i++)
        check_write(&writes[i]);
    check_bytes();
    check_lent();
    check_sizes();
    check_past();
}
