/* rekusoyen_plan and rekusoyen_part, in every format, and rekusoyen_line_plan: against the loads themselves. */
#include "lines.h"
#include "loads.h"
#include "tests.h"

#include <string.h>

#define BYTES 256
#define TOP UINT64_MAX
#define MIB2 ((uint64_t)0x200000)

/* A number below a limit; the same row of numbers in every run. */
static uint64_t below(uint64_t limit)
{
    static uint64_t state = 0x9e3779b97f4a7c15;
    state ^= state << 13;
    state ^= state >> 7;
    state ^= state << 17;
    return (state >> 11) % limit;
}

/* Guest memory, and one of its maps: whole, with a hole, or with none of it. */
struct memory {
    uint8_t bytes[BYTES];
    uint64_t map[4];
    size_t map_len;
};

static struct memory some_memory(void)
{
    struct memory memory = {{0}, {0, BYTES, 0, 0}, 2};
    for (size_t i = 0; i < BYTES; i++)
        memory.bytes[i] = (uint8_t)(i * 31 + 5);
    if (below(3) == 0) {
        memory.map[1] = 1 + below(BYTES / 2);
        memory.map[2] = memory.map[1] + below(9);
        memory.map[3] = BYTES - memory.map[2];
        memory.map_len = 4;
    }
    return memory;
}

/* Other bytes outside the footprint. */
static struct image outside(const struct image *image, const uint8_t *looked_at)
{
    struct image other = *image;
    for (size_t i = 0; i < other.size; i++)
        if (!looked_at[i])
            other.bytes[i] ^= (uint8_t)(1 + below(255));
    return other;
}

static void look_at(uint8_t *looked_at, const struct image *image, uint64_t from, uint64_t size)
{
    for (size_t i = 0; i < image->size; i++)
        if (i >= from && i - from < size)
            looked_at[i] = 1;
}

/* ---- images */

/* A notes segment, now and then with the note that is sought. */
static void append_notes(struct image *body)
{
    static const char *const names[] = {"Xen", "Xem", "GNU"};
    const uint64_t notes = below(3);
    for (uint64_t i = 0; i < notes; i++)
        append_note(
            body, below(2) == 0 ? PVH_NOTE_TYPE : 1, names[below(3)], 4, "\1\2\3\4\5\6\7\10", (uint32_t)below(9));
}

/* An image of up to four program headers, most of which fit; a few bytes of the header are changed now and then. */
static struct image some_elf(void)
{
    struct image body = {{0}, 0};
    struct program_header headers[4];
    const size_t count = below(5);
    for (size_t i = 0; i < count; i++) {
        struct program_header *header = &headers[i];
        const size_t begins = body.size;
        const uint64_t kind = below(8);
        if (kind == 0) {
            append_notes(&body);
            *header = (struct program_header){
                NOTES, begins, 0, body.size - begins + (below(4) == 0 ? below(30) : 0), 0};
            continue;
        }
        for (uint64_t left = below(20); left > 0; left--)
            append(&body, &(uint8_t){(uint8_t)below(256)}, 1);
        const uint64_t size = body.size - begins;
        *header = (struct program_header){
            kind == 1 ? DYNAMIC : LOADABLE, begins, below(BYTES - 8), size, size + below(9)};
        if (below(40) == 0)
            header->filesz += below(300);
        if (below(40) == 0)
            header->paddr = TOP - below(9);
    }
    struct image image = elf_image(below(64), headers, count, body.bytes, body.size);
    if (below(20) == 0)
        image.bytes[below(image.size)] ^= (uint8_t)(1 + below(255));
    if (below(20) == 0)
        image.size -= below(image.size + 1);
    return image;
}

static struct image some_bzimage(void)
{
    struct image image = bz_image((uint8_t)below(3), (uint32_t)below(BYTES), "a kernel of some bytes", below(23));
    if (below(10) == 0)
        image.bytes[SETUP_HEADER + below(REKUSOYEN_SETUP_HEADER_SIZE)] ^= (uint8_t)(1 + below(255));
    if (below(10) == 0)
        image.size -= below(image.size);
    return image;
}

static struct image some_arm64(void)
{
    struct image image = arm64_image(below(BYTES), 1 + below(BYTES));
    for (uint64_t left = below(30); left > 0; left--)
        append(&image, &(uint8_t){(uint8_t)below(256)}, 1);
    if (below(10) == 0)
        image.bytes[below(ARM64_HEADER_SIZE)] ^= (uint8_t)(1 + below(255));
    if (below(10) == 0)
        image.size -= below(image.size);
    return image;
}

static struct image some_image(uint32_t format)
{
    return format == REKUSOYEN_ELF ? some_elf() : format == REKUSOYEN_BZIMAGE ? some_bzimage() : some_arm64();
}

/* The bytes that a plan depends on, as the header says. */
static void footprint(uint32_t format, const struct image *image, uint32_t flags, uint8_t *looked_at)
{
    memset(looked_at, 0, sizeof image->bytes);
    if (format == REKUSOYEN_BZIMAGE)
        look_at(looked_at, image, SETUP_HEADER, REKUSOYEN_SETUP_HEADER_SIZE);
    else
        look_at(looked_at, image, 0, format == REKUSOYEN_ELF ? ELF_HEADER_SIZE : ARM64_HEADER_SIZE);
    if (format != REKUSOYEN_ELF)
        return;
    const uint64_t place = get_number(image, E_PHOFF, 8), count = get_number(image, E_PHNUM, 2);
    look_at(looked_at, image, place, PROGRAM_HEADER_SIZE * count);
    for (uint64_t i = 0; !(flags & REKUSOYEN_OFFSET_GIVEN) && i < count && place < image->size; i++) {
        const uint64_t at = place + PROGRAM_HEADER_SIZE * i;
        if (at < image->size && get_number(image, at + P_TYPE, 4) == NOTES && get_number(image, at + P_FILESZ, 8) > 0)
            look_at(looked_at, image, get_number(image, at + P_OFFSET, 8), get_number(image, at + P_FILESZ, 8) + 19);
    }
}

/* ---- plans */

/* What a plan is made of. */
struct question {
    uint32_t format, flags;
    uint64_t offset, highmem;
    struct memory memory;
    struct image image;
};

static struct question some_question(uint32_t format)
{
    struct question question = {format, (uint32_t)below(4), below(9), below(40), some_memory(), some_image(format)};
    if (format == REKUSOYEN_ELF && below(3) != 0)
        question.flags = 0;
    if (format == REKUSOYEN_BZIMAGE)
        question.offset = below(BYTES);
    if (format == REKUSOYEN_ARM64)
        question.offset = below(10) == 0 ? below(2) * MIB2 + below(2) : 0;
    return question;
}

static uint32_t plan_of(const struct question *q, const struct image *image, struct rekusoyen_plan *plan)
{
    memset(plan, 0, sizeof *plan);
    return rekusoyen_plan(
        BYTES, q->memory.map, q->memory.map_len, image->bytes, image->size, q->format, q->flags, q->offset, q->highmem,
        plan);
}

static struct rekusoyen_part part_of(const struct question *q, const struct image *image, uint64_t index)
{
    struct rekusoyen_part part = {TOP, TOP, TOP};
    CHECK_ANSWER(
        "a part",
        rekusoyen_part(
            BYTES, q->memory.map, q->memory.map_len, image->bytes, image->size, q->format, q->flags, q->offset, index,
            &part),
        REKUSOYEN_ACCEPTED);
    CHECK(part.size != 0 || (part.address == 0 && part.offset == 0), "a part of no bytes has an address or an offset");
    return part;
}

/* Copies the parts of an accepted plan by hand, and returns how many bytes they have. */
static uint64_t copy_parts(struct question *q, uint64_t parts)
{
    uint64_t copied = 0;
    for (uint64_t i = 0; i < parts; i++) {
        const struct rekusoyen_part part = part_of(q, &q->image, i);
        const int fits = part.offset <= q->image.size && part.size <= q->image.size - part.offset &&
                         part.address <= BYTES && part.size <= BYTES - part.address;
        CHECK(fits, "a part of %zu bytes passes the image or guest memory", (size_t)part.size);
        if (fits)
            memcpy(q->memory.bytes + part.address, q->image.bytes + part.offset, part.size);
        copied += part.size;
    }
    return copied;
}

/* The plan answers as the load, and its parts leave what the load leaves. Returns whether it is accepted with bytes. */
static int check_plan(uint32_t format)
{
    struct question q = some_question(format);
    struct memory loaded = q.memory;
    struct rekusoyen_kernel kernel = {0, 0, 0, 0, 0, 0};
    struct rekusoyen_plan plan, elsewhere;
    const uint32_t answer = rekusoyen_load(
        loaded.bytes, BYTES, loaded.map, loaded.map_len, q.image.bytes, q.image.size, format, q.flags, q.offset,
        q.highmem, &kernel);
    CHECK_ANSWER("a plan", plan_of(&q, &q.image, &plan), answer);
    CHECK(memcmp(&plan.kernel, &kernel, sizeof kernel) == 0, "a plan returns other values than its load");
    const uint64_t parts = format == REKUSOYEN_ELF ? get_number(&q.image, E_PHNUM, 2) : 1;
    CHECK(plan.parts == (answer == REKUSOYEN_ACCEPTED ? parts : 0), "%zu parts", (size_t)plan.parts);
    const uint64_t copied = copy_parts(&q, plan.parts);
    CHECK(memcmp(loaded.bytes, q.memory.bytes, BYTES) == 0, "the parts leave other bytes than the load");

    /* with other bytes outside the footprint all is the same */
    uint8_t looked_at[sizeof q.image.bytes];
    footprint(format, &q.image, q.flags, looked_at);
    const struct image other = outside(&q.image, looked_at);
    CHECK_ANSWER("a plan elsewhere", plan_of(&q, &other, &elsewhere), answer);
    CHECK(memcmp(&elsewhere, &plan, sizeof plan) == 0, "bytes outside the footprint count");
    for (uint64_t i = 0; i < 6; i++) {
        const struct rekusoyen_part part = part_of(&q, &q.image, i), same = part_of(&q, &other, i);
        CHECK(memcmp(&part, &same, sizeof part) == 0, "bytes outside the footprint move part %zu", (size_t)i);
    }
    return copied > 0;
}

/* From the number of parts on there is none. */
static void check_past_parts(void)
{
    static const uint64_t past[] = {1, 2, 65535, 65536, TOP - 1, TOP};
    for (EACH_FORMAT(number)) {
        const struct format format = format_of(number);
        for (size_t i = 0; i <= sizeof past / sizeof past[0]; i++) {
            const uint64_t index = i == 0 ? 0 : past[i - 1];
            const struct rekusoyen_part first = {.address = ADDRESS, .offset = format.from, .size = SIZE},
                                        none = {0, 0, 0};
            struct lent part = lend_list(REKUSOYEN_PART_NUMBERS);
            CHECK_ANSWER(
                format.name,
                rekusoyen_part(
                    GUEST, WHOLE(GUEST), format.image.bytes, format.image.size, number, 0, 0, index,
                    (void *)part.bytes),
                REKUSOYEN_ACCEPTED);
            CHECK_LEFT(format.name, &part, index == 0 ? &first : &none);
        }
    }
}

/* The 19 bytes after a segment of notes: the last of them is looked at, and the one after it is not. */
static void check_reach(void)
{
    struct question q = {REKUSOYEN_ELF, 0, 0, 0, {{0}, {0, BYTES}, 2}, {{0}, 0}};
    struct image body = {{0}, 0};
    struct rekusoyen_plan plan;
    append_note(&body, PVH_NOTE_TYPE, "Xen", 4, "\1\2\3\4\5", 5);
    const struct program_header header = {NOTES, 0, 0, 1, 0};
    q.image = elf_image(0, &header, 1, body.bytes, body.size);
    const size_t last = ELF_HEADER_SIZE + PROGRAM_HEADER_SIZE + 1 + 18;
    CHECK(plan_of(&q, &q.image, &plan) == 0 && plan.kernel.pvh_entry == 0x04030201, "the PVH address");
    q.image.bytes[last + 1] = 99;
    CHECK(
        plan_of(&q, &q.image, &plan) == 0 && plan.kernel.pvh_entry == 0x04030201, "a byte after the footprint counts");
    q.image.bytes[last] = 99;
    CHECK(
        plan_of(&q, &q.image, &plan) == 0 && plan.kernel.pvh_entry == 0x63030201,
        "the footprint's last byte is not read");
}

/* ---- a line */

static void check_line(void)
{
    static uint8_t line[REKUSOYEN_LINE_SIZE];
    CHECK_ANSWER("a line", rekusoyen_line_new(line, sizeof line, 64), REKUSOYEN_ACCEPTED);
    CHECK_ANSWER(
        "a line", rekusoyen_line_insert_str(line, sizeof line, (const uint8_t *)"quiet", 5), REKUSOYEN_ACCEPTED);
    for (int i = 0; i < 300; i++) {
        struct memory memory = some_memory();
        const uint64_t address = i < 290 ? below(BYTES + 4) : TOP - below(4),
                       line_len = sizeof line - (size_t)(below(30) == 0);
        const size_t map_len = memory.map_len - (size_t)(below(30) == 0);
        const uint32_t planned = rekusoyen_line_plan(BYTES, memory.map, map_len, address, line, line_len);
        CHECK_ANSWER(
            "a line's plan", planned,
            rekusoyen_line_load(memory.bytes, BYTES, memory.map, map_len, address, line, line_len));
    }
    line[0] = 65;
    CHECK_ANSWER(
        "bytes that hold no line", rekusoyen_line_plan(BYTES, WHOLE(BYTES), 0, line, sizeof line),
        REKUSOYEN_INVALID_CAPACITY);
}

/* ---- sizes that no slice has */

static void check_sizes(void)
{
    const uint64_t long_memory = REKUSOYEN_LONGEST_SLICE + 1;
    for (EACH_FORMAT(number)) {
        const struct format format = format_of(number);
        const uint8_t *const image = format.image.bytes;
        const size_t size = format.image.size;
        struct lent list = lend_list(REKUSOYEN_PLAN_NUMBERS);
        struct rekusoyen_plan *const plan = (void *)list.bytes;
        CHECK_ANSWER(
            "too much memory", rekusoyen_plan(long_memory, WHOLE(GUEST), image, size, number, 0, 0, 0, plan),
            REKUSOYEN_SLICE_TOO_LONG);
        CHECK_ANSWER(
            "a map past memory", rekusoyen_plan(GUEST - 1, WHOLE(GUEST), image, size, number, 0, 0, 0, plan),
            REKUSOYEN_BAD_MAP);
        CHECK_KEPT("refused", &list);
    }
    CHECK_ANSWER("no line", rekusoyen_line_plan(64, WHOLE(64), 0, NULL, 0), REKUSOYEN_NO_ROOM);
}

void test_plans(void)
{
    for (EACH_FORMAT(number)) {
        int accepted = 0;
        const int plans = number == REKUSOYEN_ELF ? 4000 : 1000;
        for (int i = 0; i < plans; i++)
            accepted += check_plan(number);
        CHECK(accepted > plans / 4, "%d loads of %d were accepted and copied bytes", accepted, plans);
    }
    check_past_parts();
    check_reach();
    check_line();
    check_sizes();
}
