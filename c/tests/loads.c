#include "loads.h"

#include <stdlib.h>
#include <string.h>

#define TOP UINT64_MAX

static const struct rekusoyen_kernel none;

static void check_whole(uint32_t format, const struct load *load, const struct lent *image, const uint8_t *memory)
{
    struct lent guest = lend_filled(load->guest_len), kernel = lend_list(REKUSOYEN_KERNEL_NUMBERS);
    uint32_t answer = rekusoyen_load(
        guest.bytes, guest.size, WHOLE(guest.size), image->bytes, image->size, format, load->flags, load->offset,
        load->highmem, (void *)kernel.bytes);
    CHECK_ANSWER(load->what, answer, load->answer);
    CHECK_LEFT(load->what, &guest, memory);
    CHECK_LEFT(load->what, &kernel, load->answer == REKUSOYEN_ACCEPTED ? (const void *)&load->kernel : kernel.before);
}

static void check_parts(uint32_t format, const struct load *load, const struct lent *image, const uint8_t *memory)
{
    struct lent guest = lend_filled(load->guest_len), list = lend_list(REKUSOYEN_PLAN_NUMBERS);
    const size_t size = guest.size;
    uint32_t answer = rekusoyen_plan(
        size, WHOLE(size), image->bytes, image->size, format, load->flags, load->offset, load->highmem,
        (void *)list.bytes);
    CHECK_ANSWER(load->what, answer, load->answer);
    struct rekusoyen_plan plan = {load->kernel, 0};
    if (answer == REKUSOYEN_ACCEPTED)
        plan.parts = numbers_of(&list)[REKUSOYEN_PLAN_NUMBERS - 1];
    CHECK_LEFT(load->what, &list, load->answer == REKUSOYEN_ACCEPTED ? (const void *)&plan : list.before);
    for (uint64_t i = 0; i < plan.parts; i++) {
        struct lent place = lend_list(REKUSOYEN_PART_NUMBERS);
        struct rekusoyen_part part;
        answer = rekusoyen_part(
            size, WHOLE(size), image->bytes, image->size, format, load->flags, load->offset, i, (void *)place.bytes);
        CHECK_ANSWER(load->what, answer, REKUSOYEN_ACCEPTED);
        memcpy(&part, place.bytes, sizeof part);
        CHECK_LEFT(load->what, &place, &part);
        const int fits = part.offset <= image->size && part.size <= image->size - part.offset && part.address <= size &&
                         part.size <= size - part.address;
        CHECK(fits, "%s: part %zu passes the image or guest memory", load->what, (size_t)i);
        if (fits && part.size != 0)
            memcpy(guest.bytes + part.address, image->bytes + part.offset, part.size);
    }
    CHECK_LEFT(load->what, &guest, memory);
}

static void check_steps(
    uint32_t format, const struct load *load, const struct lent *image, const uint8_t *memory, uint64_t total,
    uint64_t budget)
{
    struct lent guest = lend_filled(load->guest_len), state = lend_list(REKUSOYEN_STATE_NUMBERS);
    uint32_t answer = rekusoyen_begin((void *)state.bytes, format, load->flags, load->offset, load->highmem);
    CHECK_ANSWER(load->what, answer, REKUSOYEN_ACCEPTED);
    for (uint64_t left = total, answered = 0; !answered;) {
        struct lent list = lend_list(REKUSOYEN_STEP_NUMBERS);
        const uint64_t copied = budget < left ? budget : left;
        struct rekusoyen_step step = {copied, copied == left, 0, none};
        answered = step.answered;
        if (answered) {
            step.answer = load->answer;
            step.kernel = load->answer == REKUSOYEN_ACCEPTED ? load->kernel : none;
        }
        left -= copied;
        answer = rekusoyen_step(
            guest.bytes, guest.size, WHOLE(guest.size), image->bytes, image->size, (void *)state.bytes, budget,
            (void *)list.bytes);
        CHECK_ANSWER(load->what, answer, REKUSOYEN_ACCEPTED);
        CHECK_LEFT(load->what, &list, &step);
    }
    CHECK_LEFT(load->what, &guest, memory);
    CHECK_LEFT(load->what, &state, state.bytes);
}

void check_load(uint32_t format, const struct load *load, const struct image *whole)
{
    struct lent image = lend_bytes(whole->bytes, whole->size), memory = lend_filled(load->guest_len);
    uint64_t total = 0;
    for (size_t i = 0; load->answer == REKUSOYEN_ACCEPTED && i < 3 && load->written[i].size != 0; i++) {
        memcpy(memory.bytes + load->written[i].address, load->written[i].bytes, load->written[i].size);
        total += load->written[i].size;
    }
    check_whole(format, load, &image, memory.bytes);
    check_parts(format, load, &image, memory.bytes);
    check_steps(format, load, &image, memory.bytes, total, 1);
    check_steps(format, load, &image, memory.bytes, total, 3);
    check_steps(format, load, &image, memory.bytes, total, TOP);
    CHECK_KEPT(load->what, &image);
    CHECK_LEFT(load->what, &memory, memory.bytes);
}

void check_next(uint32_t format, struct load *load, const struct image *image, uint32_t answer)
{
    load->answer = answer;
    check_load(format, load, image);
}

struct format format_of(uint32_t number)
{
    const struct program_header segment = {LOADABLE, 0, ADDRESS, SIZE, SIZE + 9};
    uint8_t bytes[SIZE];
    for (size_t i = 0; i < SIZE; i++)
        bytes[i] = (uint8_t)(91 + 5 * i);
    switch (number) {
    case REKUSOYEN_ELF:
        return (struct format){
            number, "ELF", elf_image(ADDRESS, &segment, 1, bytes, SIZE), ELF_HEADER_SIZE + PROGRAM_HEADER_SIZE,
            AT(ADDRESS, ADDRESS + SIZE + 9), REKUSOYEN_READ_ELF_HEADER, REKUSOYEN_READ_KERNEL_IMAGE};
    case REKUSOYEN_BZIMAGE:
        return (struct format){
            number, "bzImage", bz_image(1, ADDRESS, bytes, SIZE), 1024,
            AT(ADDRESS, ADDRESS + SIZE), REKUSOYEN_INVALID_BZ_IMAGE, REKUSOYEN_READ_BZ_IMAGE_COMPRESSED_KERNEL};
    default:
        return (struct format){
            number, "arm64", arm64_image(ADDRESS, SIZE + 9), 0,
            AT(ADDRESS, ADDRESS + SIZE + 9), REKUSOYEN_SHORT_IMAGE, REKUSOYEN_NO_ROOM_FOR_IMAGE};
    }
}
