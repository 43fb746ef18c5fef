/* Calls on a command line, one after the other, and the line put into guest memory. */
#include "replay.h"

#include <string.h>

#define MOST_ENDS 64
#define LONGEST_OUTPUT ((size_t)2 * REKUSOYEN_LINE_LIMIT)

/* The line that the calls are on, and the one kept aside. */
static uint8_t line[REKUSOYEN_LINE_SIZE], kept[REKUSOYEN_LINE_SIZE];

/* ` ok`, or the number of a refusal. */
static void say_call(uint32_t answer)
{
    if (answer == REKUSOYEN_ACCEPTED)
        say(" ok");
    else
        say_number(answer);
}

static void insert_multiple(struct bytes key, struct bytes list, struct bytes values)
{
    size_t ends[MOST_ENDS];
    for (size_t i = 0; i < list.size / 4; i++)
        ends[i] = number(list, 4 * i, 4);
    say_call(rekusoyen_line_insert_multiple(
        line, sizeof line, key.at, key.size, values.at, values.size, ends, list.size / 4));
}

/* The bytes that are written, and whether the others are as they were. */
static void as_cstring(size_t size)
{
    static uint8_t out[LONGEST_OUTPUT], untouched[LONGEST_OUTPUT];
    uint64_t count = 0;
    memset(out, 0xa5, sizeof out);
    memset(untouched, 0xa5, sizeof untouched);
    const uint32_t answer = rekusoyen_line_as_cstring(line, sizeof line, out, size, &count);
    say_call(answer);
    if (answer == REKUSOYEN_ACCEPTED) {
        say(":");
        say_hex(out, count);
    }
    if (memcmp(out + count, untouched, sizeof out - count) != 0)
        say(" spoilt");
}

static void compare(void)
{
    uint64_t equal = 0;
    const uint32_t answer = rekusoyen_line_equal(line, sizeof line, kept, sizeof kept, &equal);
    say(answer != REKUSOYEN_ACCEPTED ? " refused" : equal ? " equal" : " unequal");
}

/* Makes the first call, and returns how many bytes it has; 0 if it does not parse. */
static size_t make_call(struct bytes call)
{
    const size_t which = number(call, 0, 1), capacity = number(call, 1, 4);
    const size_t first = number(call, 1, 2), second = number(call, 3, 2), third = number(call, 5, 2), ends = 4 * second;
    /* how many bytes each call has, by its number */
    const size_t sizes[] = {
        0, 5, 3 + first, 3 + first, 5 + first + second, 7 + first + ends + third, 26, 7 + third, 5, 1, 1};
    if (which >= sizeof sizes / sizeof sizes[0] || call.size < sizes[which] || (which == 5 && second > MOST_ENDS) ||
        (which == 8 && capacity > LONGEST_OUTPUT))
        return 0;
    const struct bytes slug = slice(call, 3, first);
    const struct bytes key = slice(call, 5, first), value = slice(call, 5 + first, second);
    switch (which) {
    case 1: say_call(rekusoyen_line_new(line, sizeof line, capacity)); break;
    case 2: say_call(rekusoyen_line_insert_str(line, sizeof line, slug.at, slug.size)); break;
    case 3: say_call(rekusoyen_line_insert_init_args(line, sizeof line, slug.at, slug.size)); break;
    case 4: say_call(rekusoyen_line_insert(line, sizeof line, key.at, key.size, value.at, value.size)); break;
    case 5:
        insert_multiple(slice(call, 7, first), slice(call, 7 + first, ends), slice(call, 7 + first + ends, third));
        break;
    case 6:
        say_call(rekusoyen_line_add_virtio_mmio_device(
            line, sizeof line, number(call, 1, 8), number(call, 9, 8), (uint32_t)number(call, 17, 4),
            number(call, 21, 1) == 1, (uint32_t)number(call, 22, 4)));
        break;
    case 7: say_call(rekusoyen_line_try_from(line, sizeof line, call.at + 7, third, capacity)); break;
    case 8: as_cstring(capacity); break;
    case 9: memcpy(kept, line, sizeof line); say(" ok"); break;
    case 10: compare(); break;
    }
    return sizes[which];
}

int answer_line(struct bytes calls)
{
    say("line");
    rekusoyen_line_new(line, sizeof line, 1);
    rekusoyen_line_new(kept, sizeof kept, 1);
    for (size_t used; calls.size > 0; calls = slice(calls, used, calls.size)) {
        used = make_call(calls);
        if (used == 0)
            return 0;
    }
    return 1;
}

int answer_line_load(const struct map *over, struct bytes body)
{
    const size_t size = number(body, 8, 4);
    const struct bytes before = slice(body, 12, size);
    if (body.size < 12 + size || size > LONGEST_GUEST)
        return 0;
    const struct map map = over != NULL ? *over : whole(size);
    if (!answer_line(slice(body, 12 + size, body.size)))
        return 0;
    uint8_t *const guest = guest_of(before);
    say(" load");
    say_call(rekusoyen_line_load(guest, size, map.numbers, map.count, number(body, 0, 8), line, sizeof line));
    say_guest(before.at, guest, size);
    return 1;
}
