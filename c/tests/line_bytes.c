/* What every function that is lent a line asks of its bytes first: their size, then that they hold a line. */
#include "lines.h"
#include "tests.h"

#include <string.h>

/* Lends these bytes to one function, whose other arguments it would accept, and checks that all of those stay as they were. */
typedef uint32_t taker(const char *what, const struct lent *line);

static uint32_t take_insert(const char *what, const struct lent *line)
{
    const struct call call = {.function = INSERT, .text = T("k"), .value = T("v")};
    return make_call(what, &call, line);
}

static uint32_t take_insert_multiple(const char *what, const struct lent *line)
{
    const struct call call = {.function = INSERT_MULTIPLE, .text = T("k"), .value = T("v"), .ends = {1}, .ends_len = 1};
    return make_call(what, &call, line);
}

static uint32_t take_insert_str(const char *what, const struct lent *line)
{
    const struct call call = {.function = INSERT_STR, .text = T("s")};
    return make_call(what, &call, line);
}

static uint32_t take_insert_init_args(const char *what, const struct lent *line)
{
    const struct call call = {.function = INSERT_INIT_ARGS, .text = T("s")};
    return make_call(what, &call, line);
}

static uint32_t take_add_device(const char *what, const struct lent *line)
{
    const struct call call = {.function = ADD_DEVICE, .size = 1};
    return make_call(what, &call, line);
}

static uint32_t take_as_cstring(const char *what, const struct lent *line)
{
    struct lent out = lend_filled(REKUSOYEN_LINE_LIMIT), count = lend_list(1);
    uint32_t answer = rekusoyen_line_as_cstring(line->bytes, line->size, out.bytes, out.size, numbers_of(&count));
    CHECK_KEPT(what, &out);
    CHECK_KEPT(what, &count);
    return answer;
}

static uint32_t compare(const char *what, const uint8_t *a, size_t a_len, const uint8_t *b, size_t b_len)
{
    struct lent out = lend_list(1);
    uint32_t answer = rekusoyen_line_equal(a, a_len, b, b_len, numbers_of(&out));
    CHECK_KEPT(what, &out);
    return answer;
}

static struct lent lend_good_line(void)
{
    const struct line good = line_of((struct text)T("a"), (struct text)T("b"), 9);
    return lend_bytes(good.bytes, sizeof good.bytes);
}

static uint32_t take_equal_first(const char *what, const struct lent *line)
{
    struct lent other = lend_good_line();
    uint32_t answer = compare(what, line->bytes, line->size, other.bytes, other.size);
    CHECK_KEPT(what, &other);
    return answer;
}

static uint32_t take_equal_second(const char *what, const struct lent *line)
{
    struct lent other = lend_good_line();
    uint32_t answer = compare(what, other.bytes, other.size, line->bytes, line->size);
    CHECK_KEPT(what, &other);
    return answer;
}

static uint32_t take_load(const char *what, const struct lent *line)
{
    struct lent guest = lend_filled(REKUSOYEN_LINE_LIMIT);
    uint32_t answer = rekusoyen_line_load(guest.bytes, guest.size, WHOLE(guest.size), 0, line->bytes, line->size);
    CHECK_KEPT(what, &guest);
    return answer;
}

static taker *const takers[] = {
    take_insert,     take_insert_multiple, take_insert_str,   take_insert_init_args, take_add_device,
    take_as_cstring, take_equal_first,     take_equal_second, take_load,
};

/* Each function refuses these bytes with this refusal, and leaves them. */
static void check_refused(const char *what, const void *bytes, size_t size, uint32_t refusal)
{
    for (size_t i = 0; i < sizeof takers / sizeof takers[0]; i++) {
        struct lent line = lend_bytes(bytes, size);
        CHECK_ANSWER(what, takers[i](what, &line), refusal);
        CHECK_KEPT(what, &line);
    }
}

/* One change to the bytes of the line `ab`, init text `yz`, capacity 64 that makes them no line. */
static const struct {
    const char *what;
    size_t place;
    size_t width;
    uint64_t number;
} changes[] = {
    {"a boot text above the limit", BOOT_LENGTH, 8, REKUSOYEN_LINE_LIMIT + 1},
    {"a boot text far above the limit", BOOT_LENGTH, 8, UINT64_MAX},
    {"an init text above the limit", INIT_LENGTH, 8, REKUSOYEN_LINE_LIMIT + 1},
    {"an init text far above the limit", INIT_LENGTH, 8, UINT64_MAX},
    {"capacity 0", CAPACITY, 8, 0},
    {"a capacity above the limit", CAPACITY, 8, REKUSOYEN_LINE_LIMIT + 1},
    {"a capacity far above the limit", CAPACITY, 8, UINT64_MAX},
    {"a counted size above the capacity", CAPACITY, 8, 8},
    {"a boot text above the capacity", BOOT_LENGTH, 8, 64 - 6},
    {"an init text above the capacity", INIT_LENGTH, 8, 64 - 6},
};

/* Places behind the texts of the line `ab`, init text `yz`. */
static const struct {
    const char *what;
    size_t place;
} behind[] = {
    {"a byte after the boot text", BOOT_TEXT + 2},
    {"a byte at the end of the boot buffer", BOOT_TEXT + REKUSOYEN_LINE_LIMIT - 1},
    {"a byte after the init text", INIT_TEXT + 2},
    {"a byte at the end of the init buffer", INIT_TEXT + REKUSOYEN_LINE_LIMIT - 1},
};

/* What stands behind the texts has no part: each call is accepted, and leaves what it leaves of a line with zeros there, but for that byte. */
static void check_behind(const char *what, size_t place, const struct call *call, const struct line *clean)
{
    struct line dirty = *clean;
    dirty.bytes[place] = 0xff;
    struct lent expected = lend_bytes(clean->bytes, sizeof clean->bytes), line = lend_bytes(dirty.bytes, sizeof dirty.bytes);
    CHECK_ANSWER(what, make_call(what, call, &expected), REKUSOYEN_ACCEPTED);
    CHECK_ANSWER(what, make_call(what, call, &line), REKUSOYEN_ACCEPTED);
    uint8_t left[REKUSOYEN_LINE_SIZE];
    memcpy(left, expected.bytes, sizeof left);
    if (left[place] == 0) /* no text was put there */
        left[place] = 0xff;
    CHECK_LEFT(what, &line, left);
    CHECK_LEFT(what, &expected, expected.bytes);
}

/* Written, compared and loaded alike, too. */
static void check_behind_output(const char *what, size_t place, const struct line *clean)
{
    struct line dirty = *clean;
    dirty.bytes[place] = 0xff;
    uint8_t out[16] = {0}, guest[16] = {0};
    uint64_t count = 0, same = 0;
    const size_t size = sizeof dirty.bytes;
    CHECK_ANSWER(what, rekusoyen_line_as_cstring(dirty.bytes, size, out, sizeof out, &count), REKUSOYEN_ACCEPTED);
    CHECK(count == 9 && memcmp(out, "ab -- yz", 9) == 0, "%s: written as '%s'", what, (const char *)out);
    CHECK_ANSWER(what, rekusoyen_line_load(guest, 16, WHOLE(16), 1, dirty.bytes, size), REKUSOYEN_ACCEPTED);
    CHECK(memcmp(guest + 1, "ab -- yz", 9) == 0, "%s: loaded as '%s'", what, (const char *)guest + 1);
    CHECK_ANSWER(what, rekusoyen_line_equal(dirty.bytes, size, clean->bytes, size, &same), REKUSOYEN_ACCEPTED);
    CHECK(same == 1, "%s: a line is equal to one with the same texts", what);
}

/* Sizes that are not that of a line. */
static const size_t sizes[] = {0, 1, 24, REKUSOYEN_LINE_SIZE - 1, REKUSOYEN_LINE_SIZE + 1, 2 * REKUSOYEN_LINE_SIZE};

static void check_makings_of_size(size_t size)
{
    const struct call makings[] = {{.function = NEW, .capacity = 0}, {.function = TRY_FROM, .text = T("a"), .capacity = 0}};
    for (size_t i = 0; i < sizeof makings / sizeof makings[0]; i++) {
        struct lent line = lend_filled(size);
        CHECK_ANSWER("a making of a wrong size", make_call("a making", &makings[i], &line), REKUSOYEN_NO_ROOM);
        CHECK_KEPT("a making of a wrong size", &line);
    }
}

void test_line_bytes(void)
{
    const struct line good = line_of((struct text)T("ab"), (struct text)T("yz"), 64);
    for (size_t i = 0; i < sizeof changes / sizeof changes[0]; i++) {
        struct line bad = good;
        if (changes[i].width == 8)
            put_in_line(&bad, changes[i].place, changes[i].number);
        else
            bad.bytes[changes[i].place] = (uint8_t)changes[i].number;
        check_refused(changes[i].what, bad.bytes, sizeof bad.bytes, REKUSOYEN_INVALID_CAPACITY);
    }
    const struct call calls[] = {
        {.function = INSERT, .text = T("k"), .value = T("v")},
        {.function = INSERT_MULTIPLE, .text = T("k"), .value = T("vw"), .ends = {1, 2}, .ends_len = 2},
        {.function = INSERT_STR, .text = T("s")},
        {.function = INSERT_INIT_ARGS, .text = T("s")},
        {.function = ADD_DEVICE, .size = 1},
    };
    for (size_t i = 0; i < sizeof behind / sizeof behind[0]; i++) {
        for (size_t k = 0; k < sizeof calls / sizeof calls[0]; k++)
            check_behind(behind[i].what, behind[i].place, &calls[k], &good);
        check_behind_output(behind[i].what, behind[i].place, &good);
    }
    uint8_t bytes[2 * REKUSOYEN_LINE_SIZE] = {0};
    memcpy(bytes, good.bytes, sizeof good.bytes);
    for (size_t i = 0; i < sizeof sizes / sizeof sizes[0]; i++) {
        check_refused("a line of a wrong size", bytes, sizes[i], REKUSOYEN_NO_ROOM);
        check_makings_of_size(sizes[i]);
    }
}
