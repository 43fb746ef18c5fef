#include "lines.h"

#include <string.h>

void put_in_line(struct line *line, size_t place, uint64_t number)
{
    for (size_t i = 0; i < 8; i++)
        line->bytes[place + i] = (uint8_t)(number >> (8 * i));
}

static void put_text(struct line *line, size_t place, struct text text)
{
    if (text.size != 0)
        memcpy(line->bytes + place, text.bytes, text.size);
}

struct line line_of(struct text boot, struct text init, uint64_t capacity)
{
    struct line line = {{0}};
    put_in_line(&line, BOOT_LENGTH, boot.size);
    put_in_line(&line, INIT_LENGTH, init.size);
    put_in_line(&line, CAPACITY, capacity);
    put_text(&line, BOOT_TEXT, boot);
    put_text(&line, INIT_TEXT, init);
    return line;
}

uint32_t make_call(const char *what, const struct call *call, const struct lent *line)
{
    struct lent text = lend_bytes(call->text.bytes, call->text.size);
    struct lent value = lend_bytes(call->value.bytes, call->value.size);
    struct lent ends = lend_numbers(call->ends, call->ends_len);
    uint8_t *bytes = line->bytes;
    size_t size = line->size;
    uint32_t answer = 0;
    switch (call->function) {
    case NEW:
        answer = rekusoyen_line_new(bytes, size, call->capacity);
        break;
    case TRY_FROM:
        answer = rekusoyen_line_try_from(bytes, size, text.bytes, text.size, call->capacity);
        break;
    case INSERT:
        answer = rekusoyen_line_insert(bytes, size, text.bytes, text.size, value.bytes, value.size);
        break;
    case INSERT_MULTIPLE:
        answer = rekusoyen_line_insert_multiple(
            bytes, size, text.bytes, text.size, value.bytes, value.size, (const size_t *)(void *)ends.bytes, call->ends_len);
        break;
    case INSERT_STR:
        answer = rekusoyen_line_insert_str(bytes, size, text.bytes, text.size);
        break;
    case INSERT_INIT_ARGS:
        answer = rekusoyen_line_insert_init_args(bytes, size, text.bytes, text.size);
        break;
    case ADD_DEVICE:
        answer = rekusoyen_line_add_virtio_mmio_device(
            bytes, size, call->size, call->address, call->irq, call->has_id, call->id);
        break;
    }
    CHECK_KEPT(what, &text);
    CHECK_KEPT(what, &value);
    CHECK_KEPT(what, &ends);
    return answer;
}
