/* PVH start blocks, written and checked. */
#include "replay.h"

#define MOST_NUMBERS 400

int answer_start_write(const struct map *map, struct bytes body)
{
    uint64_t lists[2][MOST_NUMBERS];
    const size_t modules = number(body, 44, 2), ranges = number(body, 46, 2), from = 48 + 8 * (modules + ranges);
    const struct bytes before = slice(body, from, body.size);
    if (modules > MOST_NUMBERS || ranges > MOST_NUMBERS || body.size < from || before.size > LONGEST_GUEST)
        return 0;
    for (size_t i = 0; i < modules; i++)
        lists[0][i] = number(body, 48 + 8 * i, 8);
    for (size_t i = 0; i < ranges; i++)
        lists[1][i] = number(body, 48 + 8 * (modules + i), 8);
    uint8_t *const guest = guest_of(before);
    say("start");
    say_answer(rekusoyen_start_write(
        guest, before.size, map->numbers, map->count, number(body, 0, 8), number(body, 8, 8), number(body, 16, 8),
        (uint32_t)number(body, 24, 4), number(body, 28, 8), number(body, 36, 8), lists[0], modules, lists[1], ranges));
    say_guest(before.at, guest, before.size);
    return 1;
}

/* How many numbers of a list with so many rows are answered. */
static size_t most(uint64_t rows)
{
    return REKUSOYEN_START_ROW_NUMBERS * (rows < 100 ? (size_t)rows : 100);
}

int answer_start_check(const struct map *map, struct bytes body)
{
    const struct bytes guest = slice(body, 8, body.size);
    const uint64_t block = number(body, 0, 8);
    uint64_t list[MOST_NUMBERS];
    struct rekusoyen_start start;
    if (body.size < 8 || guest.size > LONGEST_GUEST)
        return 0;
    const uint32_t answer = rekusoyen_start_check(guest.at, guest.size, map->numbers, map->count, block);
    say("start");
    if (answer != REKUSOYEN_ACCEPTED) {
        say_answer(answer);
        return 1;
    }
    say(" accepted");
    rekusoyen_start_block(guest.at, guest.size, block, &start);
    say_numbers(
        (const uint64_t[]){
            start.magic, start.version, start.flags, start.modules, start.modules_at, start.command_line, start.rsdp,
            start.ranges_at, start.ranges, start.reserved},
        10);
    say(" modules");
    rekusoyen_start_modules(guest.at, guest.size, start.modules_at, list, most(start.modules));
    say_numbers(list, most(start.modules));
    say(" ranges");
    rekusoyen_start_ranges(guest.at, guest.size, start.ranges_at, list, most(start.ranges));
    say_numbers(list, most(start.ranges));
    return 1;
}
