/* Loads in steps. */
#include "loads.h"

/* How many bytes a call of a step has. */
#define CALL 21

int answer_steps(uint32_t format, const struct map *map, struct bytes body)
{
    struct load load;
    struct rekusoyen_state state;
    struct bytes first = {NULL, 0}; /* the image of the first step, which the load looks at */
    if (!read_load(body, &load) || load.rest.size % CALL != 0)
        return 0;
    uint8_t *const guest = guest_of(load.before);
    say("steps");
    rekusoyen_begin(&state, format, load.flags, load.offset, load.highmem);
    for (size_t at = 0; at < load.rest.size; at += CALL) {
        const struct bytes call = slice(load.rest, at, CALL);
        const struct bytes image = slice(load.image, number(call, 8, 4), number(call, 12, 4));
        const size_t size = slice(load.before, 0, number(call, 16, 4)).size;
        const struct map given = number(call, 20, 1) == 1 ? whole(size) : *map;
        struct rekusoyen_step step;
        const uint32_t answer = rekusoyen_step(
            guest, size, given.numbers, given.count, image.at, image.size, &state, number(call, 0, 8), &step);
        say(" |");
        if (answer != REKUSOYEN_ACCEPTED) {
            say_answer(answer);
            continue;
        }
        first = first.at == NULL ? image : first;
        say_number(step.copied);
        if (step.answered) {
            say(" ");
            say_load(format, (uint32_t)step.answer, &step.kernel, first);
        }
    }
    say_guest(load.before.at, guest, load.before.size);
    return 1;
}
