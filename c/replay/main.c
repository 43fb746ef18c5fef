/* Answers questions from standard input by calls of the library, a line for each; docs/SAMPLE.md describes both. */
#include "replay.h"

#include <stdio.h>

#define LONGEST_BODY ((size_t)2162688)

/* Answers a question by its kind, and reads its map if it has one. Returns whether it parses. */
static int answer(struct bytes body)
{
    const uint64_t kind = number(body, 0, 1);
    struct bytes rest = slice(body, 1, body.size);
    struct map map = {{0}, number(rest, 0, 1)};
    if ((kind >= 6 && kind <= 8) || (kind >= 12 && kind <= 17)) {
        if (rest.size < 1 + 8 * map.count)
            return 0;
        for (size_t i = 0; i < map.count; i++)
            map.numbers[i] = number(rest, 1 + 8 * i, 8);
        rest = slice(rest, 1 + 8 * map.count, rest.size);
    }
    switch (kind) {
    case 1: return answer_load(REKUSOYEN_ELF, NULL, rest);
    case 2: return answer_note(rest);
    case 3: return answer_load(REKUSOYEN_BZIMAGE, NULL, rest);
    case 4: return answer_line(rest);
    case 5: return answer_line_load(NULL, rest);
    case 6: return answer_load(REKUSOYEN_ELF, &map, rest);
    case 7: return answer_load(REKUSOYEN_BZIMAGE, &map, rest);
    case 8: return answer_line_load(&map, rest);
    case 9: return answer_words(rest);
    case 10: return answer_page_build(rest);
    case 11: return answer_page_read(rest);
    case 12: return answer_start_write(&map, rest);
    case 13: return answer_start_check(&map, rest);
    case 14: return answer_steps(REKUSOYEN_ELF, &map, rest);
    case 15: return answer_steps(REKUSOYEN_BZIMAGE, &map, rest);
    case 16: return answer_load(REKUSOYEN_ARM64, &map, rest);
    case 17: return answer_steps(REKUSOYEN_ARM64, &map, rest);
    default: return 0;
    }
}

int main(void)
{
    static uint8_t body[LONGEST_BODY];
    uint8_t head[4];
    for (size_t got; (got = fread(head, 1, sizeof head, stdin)) > 0;) {
        const size_t size = number((struct bytes){head, got}, 0, 4);
        if (got != sizeof head || size > LONGEST_BODY || fread(body, 1, size, stdin) != size ||
            !answer((struct bytes){body, size})) {
            fputs("replay: a question does not parse\n", stderr);
            return 1;
        }
        putchar('\n');
    }
    return ferror(stdin) || ferror(stdout) || fflush(stdout) != 0;
}
