/* The bytes of a question, and guest memory. */
#include "replay.h"

#include <string.h>

uint64_t number(struct bytes bytes, size_t offset, size_t width)
{
    uint64_t n = 0;
    for (size_t i = width; i-- > 0;)
        n = n << 8 | (offset + i < bytes.size ? bytes.at[offset + i] : 0);
    return n;
}

struct bytes slice(struct bytes bytes, size_t offset, size_t size)
{
    const size_t from = offset < bytes.size ? offset : bytes.size, left = bytes.size - from;
    return (struct bytes){bytes.at + from, size < left ? size : left};
}

struct map whole(size_t size)
{
    return (struct map){{0, size}, size == 0 ? 0 : 2};
}

static uint8_t guest[LONGEST_GUEST];

uint8_t *guest_of(struct bytes content)
{
    memcpy(guest, content.at, content.size);
    return guest;
}

uint8_t *filled(uint8_t byte, size_t size)
{
    return memset(guest, byte, size);
}
