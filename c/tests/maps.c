/* Guest memory with a map: loads in every format, their plans and steps, and the load of a line. */
#include "lines.h"
#include "loads.h"
#include "tests.h"

#include <string.h>

#define TOP UINT64_MAX
#define MOST (2 * REKUSOYEN_MAP_RANGES)

/* Where the bytes end that are loaded. */
#define END (ADDRESS + SIZE)

struct map {
    const char *what;
    uint64_t numbers[MOST + 3];
    size_t count;
};

static const struct map with_room[] = {
    {"the whole slice", {0, GUEST}, 2},
    {"only the bytes", {ADDRESS, SIZE}, 2},
    {"a range that begins with them", {ADDRESS, GUEST - ADDRESS}, 2},
    {"a range that ends with them", {0, END}, 2},
    {"ranges one byte before and after", {0, ADDRESS - 1, ADDRESS, SIZE, END + 1, GUEST - END - 1}, 6},
    {"the first of two", {ADDRESS, SIZE, GUEST - 1, 1}, 4},
    {"the last of two", {0, 1, ADDRESS, GUEST - ADDRESS}, 4},
};

static const struct map without_room[] = {
    {"no range", {0}, 0},
    {"a range that ends before them", {0, ADDRESS}, 2},
    {"a range that begins after them", {END, GUEST - END}, 2},
    {"the last byte is missing", {ADDRESS, SIZE - 1}, 2},
    {"the first byte is missing", {ADDRESS + 1, GUEST - ADDRESS - 1}, 2},
    {"a hole at the first byte", {0, ADDRESS, ADDRESS + 1, GUEST - ADDRESS - 1}, 4},
    {"a hole in the middle", {0, ADDRESS + 9, ADDRESS + 10, GUEST - ADDRESS - 10}, 4},
    {"a hole at the last byte", {0, END - 1, END, GUEST - END}, 4},
    {"ranges for all bytes but one", {ADDRESS, 9, ADDRESS + 10, SIZE - 10}, 4},
};

static const struct map bad[] = {
    {"half a range", {ADDRESS}, 1},
    {"a range and a half", {ADDRESS, SIZE, END + 1}, 3},
    {"an empty range", {ADDRESS, 0}, 2},
    {"an empty range after another", {0, END, END + 9, 0}, 4},
    {"one byte past the slice", {0, GUEST + 1}, 2},
    {"a range after the slice", {0, END, GUEST, 1}, 4},
    {"a size whose sum would wrap", {ADDRESS, TOP}, 2},
    {"a start whose sum would wrap", {TOP, END}, 2},
    {"an end of 2^64", {0, END, TOP, 1}, 4},
    {"ranges that touch", {0, ADDRESS + 1, ADDRESS + 1, SIZE}, 4},
    {"ranges that overlap", {0, ADDRESS + 2, ADDRESS + 1, SIZE}, 4},
    {"ranges that fall", {END + 9, 9, 0, END}, 4},
    {"a range within another", {0, GUEST, ADDRESS, SIZE}, 4},
    {"one range twice", {0, END, 0, END}, 4},
    {"the last two of three touch", {0, END, END + 9, 5, END + 14, 5}, 6},
};

/* Ranges of SIZE bytes with one between, the fifth at the address. */
static struct map of_ranges(size_t ranges)
{
    struct map map = {"ranges of one size", {0}, 2 * ranges};
    for (size_t i = 0; i < ranges && 2 * i + 1 < sizeof map.numbers / sizeof map.numbers[0]; i++) {
        map.numbers[2 * i] = (SIZE + 1) * i;
        map.numbers[2 * i + 1] = SIZE;
    }
    return map;
}

/* What a load leaves in guest memory: the bytes, or all as it was. */
static void check_guest(const struct map *map, struct lent *guest, const void *bytes, uint32_t answer)
{
    uint8_t left[GUEST];
    memcpy(left, guest->before, GUEST);
    if (answer == REKUSOYEN_ACCEPTED)
        memcpy(left + ADDRESS, bytes, SIZE);
    CHECK_LEFT(map->what, guest, left);
}

/* An image of a format, loaded at once and in one step, and its plan; or so many bytes of it. */
static void load_image(const struct map *map, const struct format *format, size_t image_len, uint32_t expected)
{
    const int accepted = expected == REKUSOYEN_ACCEPTED, is_step = expected != REKUSOYEN_BAD_MAP;
    const uint8_t *const image = format->image.bytes;
    struct lent guest = lend_filled(GUEST), stepped = lend_filled(GUEST),
                ranges = lend_numbers(map->numbers, map->count);
    struct lent kernel = lend_list(REKUSOYEN_KERNEL_NUMBERS), planned = lend_list(REKUSOYEN_PLAN_NUMBERS);
    const uint64_t *const numbers = numbers_of(&ranges);
    struct rekusoyen_state state;
    struct rekusoyen_step step;
    uint32_t answer = rekusoyen_load(
        guest.bytes, GUEST, numbers, map->count, image, image_len, format->number, 0, 0, 0, (void *)kernel.bytes);
    CHECK_ANSWER(map->what, answer, expected);
    answer = rekusoyen_plan(
        GUEST, numbers, map->count, image, image_len, format->number, 0, 0, 0, (void *)planned.bytes);
    CHECK_ANSWER(map->what, answer, expected);
    CHECK_ANSWER(map->what, rekusoyen_begin(&state, format->number, 0, 0, 0), REKUSOYEN_ACCEPTED);
    answer = rekusoyen_step(stepped.bytes, GUEST, numbers, map->count, image, image_len, &state, TOP, &step);
    CHECK_ANSWER(map->what, answer, is_step ? REKUSOYEN_ACCEPTED : expected);
    CHECK(!is_step || step.answer == expected, "%s: a step answers %u", map->what, (unsigned)step.answer);
    const struct rekusoyen_plan plan = {format->kernel, 1};
    check_guest(map, &guest, image + format->from, expected);
    check_guest(map, &stepped, image + format->from, expected);
    CHECK_KEPT(map->what, &ranges);
    CHECK_LEFT(map->what, &kernel, accepted ? (const void *)&plan.kernel : kernel.before);
    CHECK_LEFT(map->what, &planned, accepted ? (const void *)&plan : planned.before);
}

#define LETTERS "a line of 63 bytes, which with its zero is as long as the image"

static void load_line(const struct map *map, const struct line *line, uint32_t expected)
{
    struct lent guest = lend_filled(GUEST), ranges = lend_numbers(map->numbers, map->count);
    uint32_t answer = rekusoyen_line_load(
        guest.bytes, guest.size, numbers_of(&ranges), map->count, ADDRESS, line->bytes, sizeof line->bytes);
    CHECK_ANSWER(map->what, answer, expected);
    check_guest(map, &guest, LETTERS, expected);
    CHECK_KEPT(map->what, &ranges);
}

/* Each load, which has room or not. */
static void check_room(const struct map *map, int has_room)
{
    const struct line line = line_of((struct text)T(LETTERS), (struct text)T(""), 64);
    for (EACH_FORMAT(number)) {
        const struct format format = format_of(number);
        load_image(map, &format, format.image.size, has_room ? REKUSOYEN_ACCEPTED : format.no_room);
    }
    load_line(map, &line, has_room ? REKUSOYEN_ACCEPTED : REKUSOYEN_COMMAND_LINE_OVERFLOW);
}

/* A map that is not valid, with a good image and line, and with ones that would be refused first over a valid map. */
static void check_bad(const struct map *map)
{
    const struct line line = line_of((struct text)T(LETTERS), (struct text)T(""), 64);
    const struct line init_only = line_of((struct text)T(""), (struct text)T("ab"), 9);
    for (EACH_FORMAT(number)) {
        const struct format format = format_of(number);
        load_image(map, &format, format.image.size, REKUSOYEN_BAD_MAP);
        load_image(map, &format, 0, REKUSOYEN_BAD_MAP);
    }
    load_line(map, &line, REKUSOYEN_BAD_MAP);
    load_line(map, &init_only, REKUSOYEN_BAD_MAP);
}

/* A kernel of no bytes is accepted over every valid map, and over no other. */
static void check_empty_kernel(void)
{
    const struct image bzimage = bz_image(1, ADDRESS, "", 0);
    const uint64_t hole[] = {0, ADDRESS, ADDRESS + 1, 9}, touching[] = {0, ADDRESS, ADDRESS, 9};
    const struct {
        const uint64_t *map;
        size_t count;
        uint32_t answer;
    } loads[] = {{hole, 4, REKUSOYEN_ACCEPTED}, {NULL, 0, REKUSOYEN_ACCEPTED}, {touching, 4, REKUSOYEN_BAD_MAP}};
    for (size_t i = 0; i < sizeof loads / sizeof loads[0]; i++) {
        const struct rekusoyen_kernel expected = AT(ADDRESS, ADDRESS);
        struct lent guest = lend_filled(GUEST), kernel = lend_list(REKUSOYEN_KERNEL_NUMBERS);
        uint32_t answer = rekusoyen_load(
            guest.bytes, guest.size, loads[i].map, loads[i].count, bzimage.bytes, bzimage.size, REKUSOYEN_BZIMAGE, 0, 0,
            0, (void *)kernel.bytes);
        CHECK_ANSWER("a kernel of no bytes", answer, loads[i].answer);
        CHECK_KEPT("a kernel of no bytes", &guest);
        CHECK_LEFT(
            "a kernel of no bytes", &kernel, answer == REKUSOYEN_ACCEPTED ? (const void *)&expected : kernel.before);
    }
}

/* Two segments in two ranges are loaded, and in a refused load neither is. */
static void check_segments(void)
{
    const struct program_header headers[] = {{LOADABLE, 0, 16, 3, 3}, {LOADABLE, 3, 40, 2, 2}};
    const struct image image = elf_image(16, headers, 2, "abcde", 5);
    const uint64_t apart[] = {16, 3, 40, 2}, cut[] = {16, 3, 40, 1};
    const uint64_t *const maps[] = {apart, cut};
    const struct rekusoyen_kernel expected = AT(16, 42);
    for (size_t i = 0; i < 2; i++) {
        struct lent guest = lend_filled(GUEST), kernel = lend_list(REKUSOYEN_KERNEL_NUMBERS);
        uint8_t left[GUEST];
        memcpy(left, guest.before, GUEST);
        uint32_t answer = rekusoyen_load(
            guest.bytes, guest.size, maps[i], 4, image.bytes, image.size, REKUSOYEN_ELF, 0, 0, 0, (void *)kernel.bytes);
        if (i == 0) {
            memcpy(left + 16, "abc", 3);
            memcpy(left + 40, "de", 2);
        }
        CHECK_ANSWER("two segments", answer, i == 0 ? REKUSOYEN_ACCEPTED : REKUSOYEN_READ_KERNEL_IMAGE);
        CHECK_LEFT("two segments", &guest, left);
        CHECK_LEFT("two segments", &kernel, i == 0 ? (const void *)&expected : kernel.before);
    }
}

void test_maps(void)
{
    for (size_t i = 0; i < sizeof with_room / sizeof with_room[0]; i++)
        check_room(&with_room[i], 1);
    for (size_t i = 0; i < sizeof without_room / sizeof without_room[0]; i++)
        check_room(&without_room[i], 0);
    for (size_t i = 0; i < sizeof bad / sizeof bad[0]; i++)
        check_bad(&bad[i]);
    for (size_t ranges = 0; ranges <= REKUSOYEN_MAP_RANGES; ranges++) {
        struct map map = of_ranges(ranges);
        check_room(&map, ranges >= 5);
        map.count++;
        check_bad(&map);
    }
    const struct map too_many = of_ranges(REKUSOYEN_MAP_RANGES + 1);
    check_bad(&too_many);
    check_empty_kernel();
    check_segments();
}
