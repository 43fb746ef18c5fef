#include "check.h"

#include <stdarg.h>
#include <stdio.h>
#include <stdlib.h>
#include <string.h>

static unsigned long checks, failures;

void check(int holds, const char *file, int line, const char *format, ...)
{
    checks++;
    if (holds)
        return;
    failures++;
    va_list words;
    va_start(words, format);
    fprintf(stderr, "%s:%d: ", file, line);
    vfprintf(stderr, format, words);
    fputc('\n', stderr);
    va_end(words);
}

/* Every answer of the header, and whether it was reached. */
static struct {
    uint32_t number;
    const char *name;
    int reached;
} answers[] = {
#define ROW(name, sentence) {REKUSOYEN_##name, #name, 0},
    REKUSOYEN_ANSWERS(ROW)
#undef ROW
};

#define ANSWERS (sizeof answers / sizeof answers[0])

static const char *name_of(uint32_t number)
{
    const char *const name = rekusoyen_answer_name(number);
    return name != NULL ? name : "a number that no answer has";
}

void check_answer(const char *what, uint32_t got, uint32_t expected, const char *file, int line)
{
    for (size_t i = 0; i < ANSWERS; i++)
        if (answers[i].number == got)
            answers[i].reached = 1;
    check(got == expected, file, line, "%s: answered %s, expected %s", what, name_of(got), name_of(expected));
}

void check_all_reached(void)
{
    /* a bad job is refused by the desk program, and by no function of the library */
    for (size_t i = 0; i < ANSWERS; i++) {
        const int is_never = answers[i].number == REKUSOYEN_BAD_JOB;
        CHECK(answers[i].reached != is_never, "%s was never answered, or should not be", answers[i].name);
    }
}

int report(void)
{
    printf("c: %lu checks, %lu failed\n", checks, failures);
    return failures != 0;
}

/* Guards keep the alignment of a list; bytes are lent one further. */
#define GUARD_SIZE 64
#define GUARD_BYTE 0xc5

static struct lent lend(const void *content, size_t size, size_t shift)
{
    struct lent lent = {NULL, size, malloc(size + 2 * GUARD_SIZE), malloc(size + 1)};
    if (lent.block == NULL || lent.before == NULL) {
        perror("no memory to lend");
        exit(1);
    }
    lent.bytes = lent.block + GUARD_SIZE + shift;
    memset(lent.block, GUARD_BYTE, size + 2 * GUARD_SIZE);
    for (size_t i = 0; i < size; i++)
        lent.before[i] = content != NULL ? ((const uint8_t *)content)[i] : (uint8_t)(i * 37 + 11);
    memcpy(lent.bytes, lent.before, size);
    return lent;
}

struct lent lend_bytes(const void *content, size_t size)
{
    return lend(content, size, 1);
}

struct lent lend_filled(size_t size)
{
    return lend(NULL, size, 1);
}

struct lent lend_list(size_t count)
{
    return lend(NULL, 8 * count, 0);
}

struct lent lend_numbers(const uint64_t *numbers, size_t count)
{
    return lend(numbers, 8 * count, 0);
}

uint64_t *numbers_of(const struct lent *lent)
{
    return (uint64_t *)(void *)lent->bytes;
}

static int guards_hold(const struct lent *lent)
{
    const uint8_t *end = lent->block + lent->size + 2 * GUARD_SIZE;
    for (const uint8_t *at = lent->block; at < lent->bytes; at++)
        if (*at != GUARD_BYTE)
            return 0;
    for (const uint8_t *at = lent->bytes + lent->size; at < end; at++)
        if (*at != GUARD_BYTE)
            return 0;
    return 1;
}

void check_left(const char *what, const char *name, struct lent *lent, const void *expected, const char *file, int line)
{
    size_t same = 0;
    while (same < lent->size && lent->bytes[same] == ((const uint8_t *)expected)[same])
        same++;
    check(same == lent->size, file, line, "%s: byte %zu of %s is not what it should be", what, same, name);
    check(guards_hold(lent), file, line, "%s: bytes beside %s were written", what, name);
    free(lent->block);
    free(lent->before);
}
