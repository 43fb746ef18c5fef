/* rekusoyen_page_build and rekusoyen_page_read. */
#include "check.h"
#include "images.h"
#include "tests.h"

#include <string.h>

#define TOP UINT64_MAX
#define MOST_NUMBERS (3 * (REKUSOYEN_PAGE_ROWS + 1))

/* Places of the Linux boot documents, and the loader type. */
enum { COUNT = 0x1e8, LOADER_TYPE = 0x210, RAMDISK = 0x218, RAMDISK_SIZE = 0x21c, COMMAND_LINE = 0x228, ROWS = 0x2d0, OTHER_LOADER = 0xff };

/* The addresses that every page here has. */
#define THE_COMMAND_LINE 0x20001u
#define THE_RAMDISK 0xfffffffeu
#define THE_RAMDISK_SIZE 0x80000003u

/* Rows, and the answer to a page that is built of them. */
struct build {
    const char *what;
    uint32_t answer;
    size_t numbers;
    uint64_t rows[9];
};

static const struct build builds[] = {
    {"no rows", REKUSOYEN_ACCEPTED, 0, {0}},
    {"two rows that touch", REKUSOYEN_ACCEPTED, 6, {0, 0x9fc00, 1, 0x9fc00, 0x400, 2}},
    {"in falling order", REKUSOYEN_ACCEPTED, 9, {0x100000000, 4, 1, 0x1000, 0x1000, 3, 0, 0x1000, 0xffffffff}},
    {"up to the last byte but one", REKUSOYEN_ACCEPTED, 3, {1, TOP - 1, 1}},
    {"part of a row", REKUSOYEN_BAD_LIST, 1, {0, 0, 0}},
    {"a row and two numbers", REKUSOYEN_BAD_LIST, 5, {0, 1, 1, 1, 1}},
    {"a type of 33 bits", REKUSOYEN_BAD_LIST, 3, {0, 1, 0x100000000}},
    {"a type of 33 bits after a bad row", REKUSOYEN_BAD_LIST, 6, {0, 0, 1, 0, 0, 0x100000000}},
    {"an empty row", REKUSOYEN_BAD_ROW, 3, {5, 0, 1}},
    {"an empty row behind a good one", REKUSOYEN_BAD_ROW, 6, {0, 1, 1, 5, 0, 1}},
    {"a row that ends at 2^64", REKUSOYEN_BAD_ROW, 3, {TOP, 1, 1}},
    {"a row that wraps", REKUSOYEN_BAD_ROW, 3, {TOP, TOP, 1}},
    {"the same row twice", REKUSOYEN_BAD_ROW, 6, {5, 5, 1, 5, 5, 1}},
    {"one byte in common", REKUSOYEN_BAD_ROW, 6, {0, 6, 1, 5, 5, 1}},
    {"a row within another", REKUSOYEN_BAD_ROW, 6, {0, 9, 1, 3, 1, 1}},
    {"a row around another", REKUSOYEN_BAD_ROW, 6, {3, 1, 1, 0, 9, 1}},
    {"the first and the last overlap", REKUSOYEN_BAD_ROW, 9, {0, 6, 1, 10, 5, 1, 5, 1, 1}},
};

static void fill_header(uint8_t *header)
{
    for (size_t i = 0; i < REKUSOYEN_SETUP_HEADER_SIZE; i++)
        header[i] = (uint8_t)(i * 7 + 3);
}

/* The page, put together from the places. */
static struct image page_of(const uint8_t *header, const uint64_t *rows, size_t numbers)
{
    struct image page = {{0}, REKUSOYEN_PAGE_SIZE};
    memcpy(page.bytes + SETUP_HEADER, header, REKUSOYEN_SETUP_HEADER_SIZE);
    put_number(&page, LOADER_TYPE, 1, OTHER_LOADER);
    put_number(&page, COMMAND_LINE, 4, THE_COMMAND_LINE);
    put_number(&page, RAMDISK, 4, THE_RAMDISK);
    put_number(&page, RAMDISK_SIZE, 4, THE_RAMDISK_SIZE);
    put_number(&page, COUNT, 1, numbers / 3);
    for (size_t i = 0; i < numbers / 3; i++) {
        put_number(&page, ROWS + 20 * i, 8, rows[3 * i]);
        put_number(&page, ROWS + 20 * i + 8, 8, rows[3 * i + 1]);
        put_number(&page, ROWS + 20 * i + 16, 4, rows[3 * i + 2]);
    }
    return page;
}

/* Reads a page, and checks what is returned. */
static void check_read(const char *what, const struct image *content, uint32_t expected)
{
    struct lent page = lend_bytes(content->bytes, content->size), out = lend_list(REKUSOYEN_PAGE_NUMBERS);
    struct lent rows = lend_list(REKUSOYEN_PAGE_READ_ROWS), header = lend_filled(REKUSOYEN_SETUP_HEADER_SIZE);
    uint32_t answer = rekusoyen_page_read(
        page.bytes, page.size, (void *)out.bytes, numbers_of(&rows), REKUSOYEN_PAGE_READ_ROWS, header.bytes,
        header.size);
    CHECK_ANSWER(what, answer, expected);
    CHECK_KEPT(what, &page);
    if (expected != REKUSOYEN_ACCEPTED) {
        CHECK_KEPT(what, &out);
        CHECK_KEPT(what, &rows);
        CHECK_KEPT(what, &header);
        return;
    }
    const struct rekusoyen_page values = {
        .rows = content->bytes[COUNT],
        .command_line = get_number(content, COMMAND_LINE, 4),
        .ramdisk = get_number(content, RAMDISK, 4),
        .ramdisk_size = get_number(content, RAMDISK_SIZE, 4),
    };
    uint64_t numbers[REKUSOYEN_PAGE_READ_ROWS];
    const size_t widths[] = {8, 8, 4};
    memcpy(numbers, rows.before, sizeof numbers);
    size_t place = ROWS;
    for (size_t i = 0; i < 3 * values.rows; i++) {
        numbers[i] = get_number(content, place, widths[i % 3]);
        place += widths[i % 3];
    }
    CHECK_LEFT(what, &out, &values);
    CHECK_LEFT(what, &rows, numbers);
    CHECK_LEFT(what, &header, content->bytes + SETUP_HEADER);
}

/* Builds a page, and reads what was built. */
static void check_build(
    const char *what, const uint64_t *numbers, size_t count, size_t page_len, size_t header_len, uint32_t expected)
{
    uint8_t setup[REKUSOYEN_SETUP_HEADER_SIZE + 1] = {0};
    fill_header(setup);
    struct lent page = lend_filled(page_len), header = lend_bytes(setup, header_len), rows = lend_numbers(numbers, count);
    uint32_t answer = rekusoyen_page_build(
        page.bytes, page.size, header.bytes, header.size, THE_COMMAND_LINE, THE_RAMDISK, THE_RAMDISK_SIZE,
        numbers_of(&rows), count);
    CHECK_ANSWER(what, answer, expected);
    CHECK_KEPT(what, &header);
    CHECK_KEPT(what, &rows);
    if (expected != REKUSOYEN_ACCEPTED) {
        CHECK_KEPT(what, &page);
        return;
    }
    const struct image built = page_of(setup, numbers, count);
    CHECK_LEFT(what, &page, built.bytes);
    check_read(what, &built, REKUSOYEN_ACCEPTED);
}

/* Every defect at once, and each repaired in turn: the refusals come in the order in which they are asked. */
static void check_order(void)
{
    static uint64_t rows[MOST_NUMBERS + 1];
    const size_t page = REKUSOYEN_PAGE_SIZE, header = REKUSOYEN_SETUP_HEADER_SIZE;
    const char *const what = "every defect, repaired in turn";
    for (size_t i = 0; i < MOST_NUMBERS; i++)
        rows[i] = i % 3 == 0 ? 4 * i : 1;
    rows[1] = 0;
    check_build(what, rows, MOST_NUMBERS + 1, 0, header - 1, REKUSOYEN_NO_ROOM);
    check_build(what, rows, MOST_NUMBERS + 1, 0, header + 1, REKUSOYEN_NO_ROOM);
    check_build(what, rows, MOST_NUMBERS + 1, 0, header, REKUSOYEN_BAD_PAGE_SIZE);
    check_build(what, rows, MOST_NUMBERS + 1, page - 1, header, REKUSOYEN_BAD_PAGE_SIZE);
    check_build(what, rows, MOST_NUMBERS + 1, page + 1, header, REKUSOYEN_BAD_PAGE_SIZE);
    check_build(what, rows, MOST_NUMBERS + 1, page, header, REKUSOYEN_BAD_LIST);
    rows[MOST_NUMBERS - 1] = (uint64_t)1 << 32;
    check_build(what, rows, MOST_NUMBERS, page, header, REKUSOYEN_BAD_LIST);
    rows[MOST_NUMBERS - 1] = 1;
    check_build(what, rows, MOST_NUMBERS, page, header, REKUSOYEN_TOO_MANY_ROWS);
    check_build(what, rows, MOST_NUMBERS - 3, page, header, REKUSOYEN_BAD_ROW);
    rows[1] = 1;
    check_build(what, rows, MOST_NUMBERS - 3, page, header, REKUSOYEN_ACCEPTED);
}

/* Pages that nobody built. */
static void check_others(void)
{
    struct image page = {{0}, REKUSOYEN_PAGE_SIZE};
    for (size_t i = 0; i < page.size; i++)
        page.bytes[i] = (uint8_t)(i * 13 + i / 256);
    for (unsigned count = 0; count < 256; count++) {
        page.bytes[COUNT] = (uint8_t)count;
        check_read("any page", &page, count > REKUSOYEN_PAGE_ROWS ? REKUSOYEN_TOO_MANY_ROWS : REKUSOYEN_ACCEPTED);
    }
    page.size--;
    check_read("a page that is too short", &page, REKUSOYEN_BAD_PAGE_SIZE);
    page.size = 0;
    check_read("no page", &page, REKUSOYEN_BAD_PAGE_SIZE);
}

/* The buffers for a page that is read have their sizes, and that is checked first. */
static void check_sizes(void)
{
    struct lent out = lend_list(REKUSOYEN_PAGE_NUMBERS + 1), rows = lend_list(REKUSOYEN_PAGE_READ_ROWS + 1);
    struct lent header = lend_filled(REKUSOYEN_SETUP_HEADER_SIZE + 1);
    const size_t sizes[] = {REKUSOYEN_PAGE_NUMBERS, REKUSOYEN_PAGE_READ_ROWS, REKUSOYEN_SETUP_HEADER_SIZE};
    for (size_t i = 0; i < 3; i++)
        for (size_t step = 0; step < 2; step++) {
            size_t lent[] = {sizes[0], sizes[1], sizes[2]};
            lent[i] += step == 0 ? 1 : (size_t)-1;
            CHECK_ANSWER(
                "a size",
                rekusoyen_raw_page_read(
                    NULL, 0, numbers_of(&out), lent[0], numbers_of(&rows), lent[1], header.bytes, lent[2]),
                REKUSOYEN_NO_ROOM);
        }
    CHECK_KEPT("refused", &out);
    CHECK_KEPT("refused", &rows);
    CHECK_KEPT("refused", &header);
}

void test_pages(void)
{
    for (size_t i = 0; i < sizeof builds / sizeof builds[0]; i++)
        check_build(
            builds[i].what, builds[i].rows, builds[i].numbers, REKUSOYEN_PAGE_SIZE, REKUSOYEN_SETUP_HEADER_SIZE, builds[i].answer);
    check_order();
    check_others();
    check_sizes();
}
