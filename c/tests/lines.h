/* Lines as bytes, and the calls that change one. */
#ifndef LINES_H
#define LINES_H

#include "check.h"

struct text {
    const void *bytes;
    size_t size;
};

/* A text, zero bytes within it too. */
#define T(literal) {(literal), sizeof(literal) - 1}

/* The bytes of a line that has these texts. */
struct line {
    uint8_t bytes[REKUSOYEN_LINE_SIZE];
};

struct line line_of(struct text boot, struct text init, uint64_t capacity);

/* Where its numbers and its texts stand. */
enum { BOOT_LENGTH = 0, INIT_LENGTH = 8, CAPACITY = 16, BOOT_TEXT = 24, INIT_TEXT = BOOT_TEXT + REKUSOYEN_LINE_LIMIT };

/* Puts one of the numbers. */
void put_in_line(struct line *line, size_t place, uint64_t number);

/* A call that is lent a line to change. */
struct call {
    enum { NEW, TRY_FROM, INSERT, INSERT_MULTIPLE, INSERT_STR, INSERT_INIT_ARGS, ADD_DEVICE } function;
    uint64_t capacity;       /* NEW, TRY_FROM */
    struct text text, value; /* the text, key or slug; the value, or all values */
    uint64_t ends[3];        /* INSERT_MULTIPLE */
    size_t ends_len;
    uint64_t size, address;  /* ADD_DEVICE */
    uint32_t irq, has_id, id;
};

/* Makes the call on lent bytes, and checks that its texts were left as they were. */
uint32_t make_call(const char *what, const struct call *call, const struct lent *line);

#endif
