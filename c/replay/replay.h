/* The parts of the program that replays questions; docs/SAMPLE.md describes questions and answers. */
#ifndef REPLAY_H
#define REPLAY_H

#include "../rekusoyen.h"

/* Bytes of a question, and the number of `width` bytes at an offset, least byte first; bytes past the end are 0. */
struct bytes {
    const uint8_t *at;
    size_t size;
};

uint64_t number(struct bytes bytes, size_t offset, size_t width);

/* From an offset on so many bytes, both at most up to the end. */
struct bytes slice(struct bytes bytes, size_t offset, size_t size);

/* A map of guest memory; and that of memory without holes. */
struct map {
    uint64_t numbers[255];
    size_t count;
};

struct map whole(size_t size);

/* What is answered: a word, a number after a space, two digits for each byte, and what guest memory or a page holds. */
void say(const char *word);
void say_number(uint64_t n);
void say_numbers(const uint64_t *list, size_t count);
void say_hex(const uint8_t *bytes, size_t size);
void say_guest(const uint8_t *before, const uint8_t *after, size_t size);

/* ` ok`, or ` refused ` and the number of a refusal. */
void say_answer(uint32_t answer);

/* Guest memory, or a page, for one question: its first content is copied there, or one byte everywhere. */
#define LONGEST_GUEST ((size_t)1048576)
#define LONGEST_PAGE ((size_t)65536)

uint8_t *guest_of(struct bytes content);
uint8_t *filled(uint8_t byte, size_t size);

/*
 * The answer to a question, of its kind and its body after the kind and the map. Each returns whether the body
 * parses. A map of NULL is that of memory without holes.
 */
int answer_load(uint32_t format, const struct map *map, struct bytes body);
int answer_note(struct bytes body);
int answer_steps(uint32_t format, const struct map *map, struct bytes body);
int answer_line(struct bytes body);
int answer_line_load(const struct map *map, struct bytes body);
int answer_words(struct bytes body);
int answer_page_build(struct bytes body);
int answer_page_read(struct bytes body);
int answer_start_write(const struct map *map, struct bytes body);
int answer_start_check(const struct map *map, struct bytes body);

#endif
