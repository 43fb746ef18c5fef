/* The words of a line, read into three lists. */
#include "replay.h"

#define MOST_WORDS 8192
#define UNTOUCHED 0xe7e7e7e7e7e7e7e7

int answer_words(struct bytes body)
{
    static uint64_t lists[3][MOST_WORDS];
    const size_t sizes[] = {number(body, 0, 4), number(body, 4, 4), number(body, 8, 4)};
    const struct bytes text = slice(body, 12, body.size);
    if (body.size < 12 || sizes[0] > MOST_WORDS || sizes[1] > MOST_WORDS || sizes[2] > MOST_WORDS)
        return 0;
    for (size_t i = 0; i < 3 * MOST_WORDS; i++)
        lists[i / MOST_WORDS][i % MOST_WORDS] = UNTOUCHED;
    uint64_t count = 0, words = 0;
    const uint32_t answer = rekusoyen_line_words(
        text.at, text.size, lists[0], sizes[0], lists[1], sizes[1], lists[2], sizes[2], &count);
    say("words");
    say_answer(answer);
    if (answer == REKUSOYEN_ACCEPTED || answer == REKUSOYEN_UNCLOSED_QUOTE)
        say_number(count);
    if (answer == REKUSOYEN_ACCEPTED)
        words = count;
    for (size_t i = 0; i < words; i++)
        say_numbers((const uint64_t[]){lists[0][i], lists[1][i], lists[2][i]}, 3);
    for (size_t i = 0; i < 3 * MOST_WORDS; i++)
        if (i % MOST_WORDS >= words && lists[i / MOST_WORDS][i % MOST_WORDS] != UNTOUCHED) {
            say(" spoilt");
            break;
        }
    return 1;
}
