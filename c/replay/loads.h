/* What questions about loads, and loads in steps, have in common. */
#ifndef LOADS_H
#define LOADS_H

#include "replay.h"

/* The options of a load, its image bytes and the first content of guest memory, and what follows them. */
struct load {
    uint32_t flags;
    uint64_t offset, highmem;
    struct bytes image, before, rest;
};

/* Reads a load from a body; returns whether it has the bytes that it says. */
int read_load(struct bytes body, struct load *load);

/* What a load of this image answers. */
void say_load(uint32_t format, uint32_t answer, const struct rekusoyen_kernel *kernel, struct bytes image);

#endif
