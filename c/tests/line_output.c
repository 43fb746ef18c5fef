/* The functions that read a line: rekusoyen_line_as_cstring, rekusoyen_line_equal, rekusoyen_line_load. */
#include "lines.h"
#include "tests.h"

#include <string.h>

#define EMPTY T("")
#define CAPACITY_OF_ALL 64

/* A line, its text as it is written, zero and all, and the refusal where it is not. */
struct written {
    const char *what;
    struct text boot, init;
    uint32_t refusal;
    struct text text;
};

static const struct written lines[] = {
    {"an empty line", EMPTY, EMPTY, REKUSOYEN_ACCEPTED, T("\0")},
    {"boot text", T("a=b c"), EMPTY, REKUSOYEN_ACCEPTED, T("a=b c\0")},
    {"both texts", T("a"), T("z"), REKUSOYEN_ACCEPTED, T("a -- z\0")},
    {"a separator in the boot text", T("a -- z"), EMPTY, REKUSOYEN_ACCEPTED, T("a -- z\0")},
    {"init text alone", EMPTY, T("z"), REKUSOYEN_NO_BOOT_ARGS_INSERTED, EMPTY},
    {"other init text alone, with a zero", EMPTY, T("\0y"), REKUSOYEN_NO_BOOT_ARGS_INSERTED, EMPTY},
    {"a zero in the boot text", T("a\0b"), EMPTY, REKUSOYEN_NULL_TERMINATOR, EMPTY},
    {"a zero in the init text", T("a"), T("b\0"), REKUSOYEN_NULL_TERMINATOR, EMPTY},
};

#define LINES (sizeof lines / sizeof lines[0])

static struct lent lend_line(const struct written *written, uint64_t capacity)
{
    const struct line line = line_of(written->boot, written->init, capacity);
    return lend_bytes(line.bytes, sizeof line.bytes);
}

/* Writes a line into bytes of this room. */
static void check_written(const struct written *written, size_t room, size_t count_len, uint32_t answer)
{
    struct lent line = lend_line(written, CAPACITY_OF_ALL);
    struct lent out = lend_filled(room), count = lend_list(count_len);
    uint8_t left[CAPACITY_OF_ALL];
    uint64_t size = written->text.size;
    memcpy(left, out.before, room);
    CHECK_ANSWER(
        written->what,
        rekusoyen_raw_line_as_cstring(line.bytes, line.size, out.bytes, out.size, numbers_of(&count), count_len),
        answer);
    if (answer == REKUSOYEN_ACCEPTED)
        memcpy(left, written->text.bytes, written->text.size);
    CHECK_KEPT(written->what, &line);
    CHECK_LEFT(written->what, &out, left);
    CHECK_LEFT(written->what, &count, answer == REKUSOYEN_ACCEPTED ? (const void *)&size : count.before);
}

/* Writes a line into guest memory of this size. */
static void check_loaded(const struct written *written, size_t size, uint64_t address, uint32_t answer)
{
    struct lent line = lend_line(written, CAPACITY_OF_ALL), guest = lend_filled(size);
    uint8_t left[CAPACITY_OF_ALL];
    memcpy(left, guest.before, size);
    CHECK_ANSWER(written->what, rekusoyen_line_load(guest.bytes, guest.size, WHOLE(size), address, line.bytes, line.size), answer);
    if (answer == REKUSOYEN_ACCEPTED)
        memcpy(left + address, written->text.bytes, written->text.size);
    CHECK_KEPT(written->what, &line);
    CHECK_LEFT(written->what, &guest, left);
}

/* Lines that are written as the same text, or refused alike, are equal. */
static void check_compared(const struct written *one, const struct written *other, size_t out_len, uint32_t answer)
{
    struct lent a = lend_line(one, CAPACITY_OF_ALL), b = lend_line(other, CAPACITY_OF_ALL + 1), out = lend_list(out_len);
    const uint64_t equal = one->refusal == other->refusal && one->text.size == other->text.size &&
                           memcmp(one->text.bytes, other->text.bytes, one->text.size) == 0;
    CHECK_ANSWER(
        one->what, rekusoyen_raw_line_equal(a.bytes, a.size, b.bytes, b.size, numbers_of(&out), out_len), answer);
    CHECK_KEPT(one->what, &a);
    CHECK_KEPT(one->what, &b);
    CHECK_LEFT(one->what, &out, answer == REKUSOYEN_ACCEPTED ? (const void *)&equal : out.before);
}

/* A list of the wrong size is refused before bytes that hold no line are, and the first line before the second. */
static void check_order(void)
{
    const struct line no_line = {{1}};
    struct lent bad = lend_bytes(no_line.bytes, sizeof no_line.bytes), out = lend_filled(4), list = lend_list(2);
    uint64_t *numbers = numbers_of(&list);
    CHECK_ANSWER(
        "count", rekusoyen_raw_line_as_cstring(bad.bytes, bad.size, out.bytes, out.size, numbers, 2), REKUSOYEN_NO_ROOM);
    CHECK_ANSWER(
        "out", rekusoyen_raw_line_equal(bad.bytes, bad.size, bad.bytes, bad.size, numbers, 2), REKUSOYEN_NO_ROOM);
    CHECK_ANSWER("a", rekusoyen_line_equal(bad.bytes, bad.size, bad.bytes, 9, numbers), REKUSOYEN_INVALID_CAPACITY);
    CHECK_ANSWER("b", rekusoyen_line_equal(bad.bytes, 9, bad.bytes, bad.size, numbers), REKUSOYEN_NO_ROOM);
    CHECK_ANSWER("line", rekusoyen_line_load(out.bytes, out.size, numbers, 1, 99, bad.bytes, bad.size), REKUSOYEN_INVALID_CAPACITY);
    CHECK_KEPT("refused", &bad);
    CHECK_KEPT("refused", &out);
    CHECK_KEPT("refused", &list);
}

/* One line, lent as both. */
static void check_shared(void)
{
    struct lent line = lend_line(&lines[1], CAPACITY_OF_ALL), out = lend_list(1);
    const uint64_t equal = 1;
    const uint32_t answer = rekusoyen_line_equal(line.bytes, line.size, line.bytes, line.size, numbers_of(&out));
    CHECK_ANSWER("shared", answer, REKUSOYEN_ACCEPTED);
    CHECK_KEPT("shared", &line);
    CHECK_LEFT("shared", &out, &equal);
}

static const size_t other_counts[] = {0, 2, 3};

void test_line_output(void)
{
    for (size_t i = 0; i < LINES; i++) {
        const struct written *line = &lines[i];
        const int accepted = line->refusal == REKUSOYEN_ACCEPTED;
        const size_t size = line->text.size;
        check_written(line, CAPACITY_OF_ALL, 1, line->refusal);
        check_written(line, size, 1, line->refusal);
        check_written(line, 0, 1, accepted ? REKUSOYEN_NO_ROOM : line->refusal);
        check_loaded(line, CAPACITY_OF_ALL, 5, accepted ? REKUSOYEN_ACCEPTED : REKUSOYEN_INVALID_COMMAND_LINE);
        check_loaded(line, 0, UINT64_MAX, accepted ? REKUSOYEN_COMMAND_LINE_OVERFLOW : REKUSOYEN_INVALID_COMMAND_LINE);
        if (accepted) {
            check_written(line, size - 1, 1, REKUSOYEN_NO_ROOM);
            check_loaded(line, size + 5, 5, REKUSOYEN_ACCEPTED);
            check_loaded(line, size + 4, 5, REKUSOYEN_COMMAND_LINE_OVERFLOW);
        }
        for (size_t k = 0; k < sizeof other_counts / sizeof other_counts[0]; k++) {
            check_written(line, CAPACITY_OF_ALL, other_counts[k], REKUSOYEN_NO_ROOM);
            check_compared(line, line, other_counts[k], REKUSOYEN_NO_ROOM);
        }
        for (size_t k = 0; k < LINES; k++)
            check_compared(line, &lines[k], 1, REKUSOYEN_ACCEPTED);
    }
    check_order();
    check_shared();
}
