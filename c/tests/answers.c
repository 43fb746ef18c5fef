/* The header's names and sentences of answers. */
#include "check.h"
#include "tests.h"

#include <string.h>

/* Every answer of the header, by its table. */
static const struct {
    const char *name, *sentence;
    uint32_t answer;
} rows[] = {
#define ROW(name, sentence) {#name, sentence, REKUSOYEN_##name},
    REKUSOYEN_ANSWERS(ROW)
#undef ROW
};

#define COUNT (sizeof rows / sizeof rows[0])

void test_answers(void)
{
    size_t named = 0;
    for (uint32_t answer = 0; answer < 1000; answer++) {
        const char *const name = rekusoyen_answer_name(answer), *const sentence = rekusoyen_answer_sentence(answer);
        CHECK((name == NULL) == (sentence == NULL), "answer %u has a name and a sentence, or neither", (unsigned)answer);
        if (name == NULL)
            continue;
        CHECK(named < COUNT && answer == rows[named].answer, "answer %u is the next one of the table", (unsigned)answer);
        if (named >= COUNT)
            return;
        CHECK(strcmp(name, rows[named].name) == 0, "answer %u is %s", (unsigned)answer, rows[named].name);
        CHECK(strcmp(sentence, rows[named].sentence) == 0, "answer %u: %s", (unsigned)answer, rows[named].sentence);
        CHECK(sentence[strlen(sentence) - 1] == '.', "the sentence of %s ends", name);
        named++;
    }
    CHECK(named == COUNT, "%zu answers are named", named);
    CHECK(rekusoyen_answer_name(UINT32_MAX) == NULL, "the greatest number is no answer");
}
