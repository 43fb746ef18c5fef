/* Answers, as they are written. */
#include "replay.h"

#include <inttypes.h>
#include <stdio.h>

void say(const char *word)
{
    fputs(word, stdout);
}

void say_number(uint64_t n)
{
    printf(" %" PRIu64, n);
}

void say_numbers(const uint64_t *list, size_t count)
{
    for (size_t i = 0; i < count; i++)
        say_number(list[i]);
}

void say_hex(const uint8_t *bytes, size_t size)
{
    for (size_t i = 0; i < size; i++)
        printf("%02x", bytes[i]);
}

void say_answer(uint32_t answer)
{
    say(answer == REKUSOYEN_ACCEPTED ? " ok" : " refused");
    if (answer != REKUSOYEN_ACCEPTED)
        say_number(answer);
}

/* The modulus of the sum is prime, so that one changed byte always changes it. */
void say_guest(const uint8_t *before, const uint8_t *after, size_t size)
{
    uint64_t sum = 0, changed = 0, first = 0, last = 0;
    for (size_t i = 0; i < size; i++) {
        sum = (sum * 257 + after[i]) % 4294967291;
        if (before[i] != after[i]) {
            first = changed++ == 0 ? i : first;
            last = i;
        }
    }
    say(" guest");
    say_numbers((const uint64_t[]){size, sum, changed, first, last}, 5);
}
