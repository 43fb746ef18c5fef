/* Boot pages, built and read. */
#include "replay.h"

#include <string.h>

#define MOST_NUMBERS 400

int answer_page_build(struct bytes body)
{
    static uint8_t before[LONGEST_PAGE];
    uint64_t rows[MOST_NUMBERS];
    const size_t size = number(body, 0, 4);
    const struct bytes header = slice(body, 17, REKUSOYEN_SETUP_HEADER_SIZE), list = slice(body, 140, body.size);
    if (body.size < 140 || list.size % 8 != 0 || list.size / 8 > MOST_NUMBERS || size > LONGEST_PAGE)
        return 0;
    for (size_t i = 0; i < list.size / 8; i++)
        rows[i] = number(list, 8 * i, 8);
    memset(before, (int)number(body, 4, 1), size);
    uint8_t *const page = filled((uint8_t)number(body, 4, 1), size);
    say("page");
    say_answer(rekusoyen_page_build(
        page, size, header.at, header.size, (uint32_t)number(body, 5, 4), (uint32_t)number(body, 9, 4),
        (uint32_t)number(body, 13, 4), rows, list.size / 8));
    say_guest(before, page, size);
    return 1;
}

int answer_page_read(struct bytes body)
{
    uint64_t rows[REKUSOYEN_PAGE_READ_ROWS];
    uint8_t header[REKUSOYEN_SETUP_HEADER_SIZE];
    struct rekusoyen_page values;
    const size_t size = number(body, 0, 4), offset = number(body, 5, 4);
    if (body.size < 9 || size > LONGEST_PAGE)
        return 0;
    uint8_t *const page = filled((uint8_t)number(body, 4, 1), size);
    const struct bytes content = slice(body, 9, offset < size ? size - offset : 0);
    memcpy(page + (offset < size ? offset : 0), content.at, content.size);
    const uint32_t answer = rekusoyen_page_read(
        page, size, &values, rows, REKUSOYEN_PAGE_READ_ROWS, header, sizeof header);
    say("page");
    say_answer(answer);
    if (answer != REKUSOYEN_ACCEPTED)
        return 1;
    say_numbers((const uint64_t[]){values.rows, values.command_line, values.ramdisk, values.ramdisk_size}, 4);
    say(" header ");
    say_hex(header, sizeof header);
    say(" rows");
    say_numbers(rows, 3 * values.rows);
    return 1;
}
