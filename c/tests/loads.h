/* Loads of images in every format, and what is expected of them. */
#ifndef LOADS_H
#define LOADS_H

#include "check.h"
#include "images.h"

/* What a load writes to guest memory. */
struct written {
    size_t address;
    const void *bytes;
    size_t size;
};

/* The options of a load and the size of guest memory; the answer; if it is accepted, its result and what it writes. */
struct load {
    const char *what;
    uint32_t flags;
    uint64_t offset, highmem;
    size_t guest_len;
    uint32_t answer;
    struct rekusoyen_kernel kernel;
    struct written written[3];
};

/* The result of a load by two of its numbers; and that of a refused load, which writes nothing. */
#define AT(load_address, kernel_end) {.load = (load_address), .end = (kernel_end)}
#define NOTHING {0}, {{0}}

/*
 * Loads an image in every way: at once, by its plan and the parts of it, which are copied by hand, and in steps of some
 * budgets. Checks the answer, the result, guest memory, and that the image stays as it was.
 */
void check_load(uint32_t format, const struct load *load, const struct image *image);

/* Gives the load another answer, and checks it: for every defect at once, of which each is repaired in turn. */
void check_next(uint32_t format, struct load *load, const struct image *image, uint32_t answer);

/* A small image of a format, of which SIZE bytes go to ADDRESS in guest memory of GUEST bytes, and what is expected. */
enum { SIZE = 64, ADDRESS = 4 * (SIZE + 1), GUEST = 20 * (SIZE + 1) };

struct format {
    uint32_t number;
    const char *name;
    struct image image;
    size_t from;                    /* where in the image the bytes begin that are loaded */
    struct rekusoyen_kernel kernel; /* the result */
    uint32_t no_image, no_room;     /* the refusals of an image of no bytes, and of guest memory that has no room */
};

struct format format_of(uint32_t number);

/* Every format, in a loop. */
#define EACH_FORMAT(number) uint32_t number = REKUSOYEN_ELF; number <= REKUSOYEN_ARM64; number++

#endif
