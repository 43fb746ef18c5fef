/* rekusoyen_line_words: what is told, what is left in the lists, and lines of the greatest length. */
#include "lines.h"
#include "tests.h"

#include <string.h>

#define MOST 4

/* A line, and its words; or the refusal and the place that it tells. */
struct read {
    const char *what;
    struct text text;
    uint32_t answer;
    uint64_t told;
    uint64_t starts[MOST], ends[MOST], splits[MOST];
};

static const struct read lines[] = {
    {"an empty line", T(""), REKUSOYEN_ACCEPTED, 0, {0}, {0}, {0}},
    {"spaces alone", T("   "), REKUSOYEN_ACCEPTED, 0, {0}, {0}, {0}},
    {"two words", T("a bc"), REKUSOYEN_ACCEPTED, 2, {0, 2}, {1, 4}, {1, 4}},
    {"runs of spaces", T("  a   b "), REKUSOYEN_ACCEPTED, 2, {2, 6}, {3, 7}, {3, 7}},
    {"a tab and a zero part nothing", T("a\tb\0c"), REKUSOYEN_ACCEPTED, 1, {0}, {5}, {5}},
    {"keys and values", T("a=b =c d="), REKUSOYEN_ACCEPTED, 3, {0, 4, 7}, {3, 6, 9}, {1, 4, 8}},
    {"the first sign splits", T("a=b=c"), REKUSOYEN_ACCEPTED, 1, {0}, {5}, {1}},
    {"spaces in quotes", T("a=\"b c\" d"), REKUSOYEN_ACCEPTED, 2, {0, 8}, {7, 9}, {1, 9}},
    {"a sign in quotes", T("\"a=b\"=c"), REKUSOYEN_ACCEPTED, 1, {0}, {7}, {5}},
    {"quotes inside a word", T("a\" \"b c"), REKUSOYEN_ACCEPTED, 2, {0, 6}, {5, 7}, {5, 7}},
    {"an empty stretch", T("\"\" \"\""), REKUSOYEN_ACCEPTED, 2, {0, 3}, {2, 5}, {2, 5}},
    {"one quote", T("\""), REKUSOYEN_UNCLOSED_QUOTE, 0, {0}, {0}, {0}},
    {"a quote behind words", T("a b=\"c d"), REKUSOYEN_UNCLOSED_QUOTE, 4, {0}, {0}, {0}},
    {"the last of three", T("\"a\" \""), REKUSOYEN_UNCLOSED_QUOTE, 4, {0}, {0}, {0}},
};

#define LINES (sizeof lines / sizeof lines[0])

/* Reads a line into lists of these sizes. */
static void check_read(const struct read *read, size_t starts_len, size_t ends_len, size_t splits_len, size_t out_len, uint32_t answer)
{
    struct lent text = lend_bytes(read->text.bytes, read->text.size), out = lend_list(out_len);
    struct lent starts = lend_list(starts_len), ends = lend_list(ends_len), splits = lend_list(splits_len);
    uint64_t left[3][MOST + 1], told[4];
    memcpy(left[0], starts.before, starts.size);
    memcpy(left[1], ends.before, ends.size);
    memcpy(left[2], splits.before, splits.size);
    memcpy(told, out.before, out.size);
    if (answer == REKUSOYEN_ACCEPTED) {
        memcpy(left[0], read->starts, 8 * read->told);
        memcpy(left[1], read->ends, 8 * read->told);
        memcpy(left[2], read->splits, 8 * read->told);
    }
    if (answer == REKUSOYEN_ACCEPTED || answer == REKUSOYEN_UNCLOSED_QUOTE)
        told[0] = read->told;
    CHECK_ANSWER(
        read->what,
        rekusoyen_raw_line_words(
            text.bytes, text.size, numbers_of(&starts), starts_len, numbers_of(&ends), ends_len, numbers_of(&splits),
            splits_len, numbers_of(&out), out_len),
        answer);
    CHECK_KEPT(read->what, &text);
    CHECK_LEFT(read->what, &starts, left[0]);
    CHECK_LEFT(read->what, &ends, left[1]);
    CHECK_LEFT(read->what, &splits, left[2]);
    CHECK_LEFT(read->what, &out, told);
}

static uint8_t longest[REKUSOYEN_LINE_LIMIT];
static uint64_t places[3][REKUSOYEN_LINE_LIMIT / 2];

/* The longest line, of this byte at even places and that one at odd ones. */
static uint32_t read_longest(uint8_t even, uint8_t odd, size_t room, uint64_t *out)
{
    for (size_t i = 0; i < sizeof longest; i++)
        longest[i] = i % 2 == 0 ? even : odd;
    return rekusoyen_line_words(longest, sizeof longest, places[0], room, places[1], room, places[2], room, out);
}

static void check_longest(void)
{
    const size_t most = REKUSOYEN_LINE_LIMIT / 2;
    uint64_t out = 0;
    CHECK_ANSWER("as many words as can be", read_longest('a', ' ', most, &out), REKUSOYEN_ACCEPTED);
    CHECK(out == most, "%zu words", (size_t)out);
    for (size_t i = 0; i < most; i++)
        CHECK(places[0][i] == 2 * i && places[1][i] == 2 * i + 1 && places[2][i] == 2 * i + 1, "word %zu", i);
    CHECK_ANSWER("one place too few", read_longest('a', ' ', most - 1, &out), REKUSOYEN_TOO_FEW_PLACES);
    CHECK_ANSWER("quotes alone", read_longest('"', '"', 1, &out), REKUSOYEN_ACCEPTED);
    CHECK(out == 1 && places[0][0] == 0 && places[1][0] == REKUSOYEN_LINE_LIMIT, "one word of quotes");
    CHECK_ANSWER("empty stretches", read_longest('"', ' ', 0, &out), REKUSOYEN_TOO_FEW_PLACES);
}

void test_line_words(void)
{
    for (size_t i = 0; i < LINES; i++) {
        const struct read *read = &lines[i];
        const size_t count = read->answer == REKUSOYEN_ACCEPTED ? (size_t)read->told : 0;
        check_read(read, count, count, count, 1, read->answer);
        check_read(read, count + 1, count + 1, count + 1, 1, read->answer);
        check_read(read, 0, 0, 0, 1, count == 0 ? read->answer : REKUSOYEN_TOO_FEW_PLACES);
        if (count > 0) {
            check_read(read, count - 1, count, count, 1, REKUSOYEN_TOO_FEW_PLACES);
            check_read(read, count, count - 1, count, 1, REKUSOYEN_TOO_FEW_PLACES);
            check_read(read, count, count, count - 1, 1, REKUSOYEN_TOO_FEW_PLACES);
        }
        check_read(read, count, count, count, 0, REKUSOYEN_NO_ROOM);
        check_read(read, count, count, count, 2, REKUSOYEN_NO_ROOM);
    }
    check_longest();
}
