/* Checks that go on after a failure, and buffers that are lent between guards. */
#ifndef CHECK_H
#define CHECK_H

#include "../rekusoyen.h"

/* Counts one check; where it does not hold, says where and what. */
#define CHECK(holds, ...) check((holds), __FILE__, __LINE__, __VA_ARGS__)

void check(int holds, const char *file, int line, const char *format, ...);

/* Checks what a function answered, by name, and keeps it among the answers reached. */
#define CHECK_ANSWER(what, got, expected) check_answer((what), (got), (expected), __FILE__, __LINE__)

void check_answer(const char *what, uint32_t got, uint32_t expected, const char *file, int line);

/* Checks that every answer was reached. */
void check_all_reached(void);

/* Prints the counts; 0 where no check failed, else 1. */
int report(void);

/* What is lent to a call: `size` bytes between guards, and a copy of what they held before it. */
struct lent {
    uint8_t *bytes;
    size_t size;
    uint8_t *block;
    uint8_t *before;
};

/* Lends bytes, at an odd address. */
struct lent lend_bytes(const void *content, size_t size);

/* Lends bytes that hold something different at each place nearby. */
struct lent lend_filled(size_t size);

/* Lends a list of `count` numbers of 8 bytes, which hold something; and one that holds these numbers. */
struct lent lend_list(size_t count);
struct lent lend_numbers(const uint64_t *numbers, size_t count);

/* The numbers of a lent list. */
uint64_t *numbers_of(const struct lent *lent);

/* The map of a whole slice, as the two arguments that it is: one range, or none where the slice is empty. */
#define WHOLE(length) (const uint64_t[]){0, (length)}, (size_t)((length) != 0 ? 2 : 0)

/* Checks that exactly these bytes were left, and the guards untouched; gives the memory back. */
#define CHECK_LEFT(what, lent, expected) check_left((what), #lent, (lent), (expected), __FILE__, __LINE__)

/* Checks the same of what was there before the call. */
#define CHECK_KEPT(what, lent) check_left((what), #lent, (lent), (lent)->before, __FILE__, __LINE__)

void check_left(const char *what, const char *name, struct lent *lent, const void *expected, const char *file, int line);

#endif
