/* The format of an image: rekusoyen_kind, numbers that are no format, and images of another format than is named. */
#include "loads.h"
#include "tests.h"

#include <string.h>

#define TOP UINT64_MAX

static void check_kind(const char *what, const struct image *whole, uint32_t expected)
{
    struct lent image = lend_bytes(whole->bytes, whole->size);
    const uint32_t kind = rekusoyen_kind(image.bytes, image.size);
    CHECK(kind == expected, "%s, %zu bytes: %u", what, whole->size, (unsigned)kind);
    CHECK_KEPT(what, &image);
}

/* Where the magic number of each format is, by its number; the one that comes first counts. */
static const struct {
    size_t place;
    const char *bytes;
} magic[] = {{0, ""}, {0, "\x7f" "ELF"}, {HEADER_MAGIC, "HdrS"}, {MAGIC, "ARM\x64"}};

static void check_kinds(void)
{
    for (EACH_FORMAT(number)) {
        struct format format = format_of(number);
        check_kind(format.name, &format.image, number);
        /* as far as the image goes */
        for (size_t size = 0; size <= HEADER_MAGIC + 5 && size < format.image.size; size++) {
            struct image cut = format.image;
            cut.size = size;
            check_kind("a short image", &cut, size >= magic[number].place + 4 ? number : REKUSOYEN_UNKNOWN);
        }
    }
    /* every choice of the magic numbers, and each of their bytes changed */
    for (unsigned choice = 0; choice < 8; choice++) {
        struct image image = {{0}, 1024};
        uint32_t expected = REKUSOYEN_UNKNOWN;
        for (uint32_t number = REKUSOYEN_ARM64; number >= REKUSOYEN_ELF; number--)
            if (choice >> (number - 1) & 1) {
                memcpy(image.bytes + magic[number].place, magic[number].bytes, 4);
                expected = number;
            }
        check_kind("some magic numbers", &image, expected);
        for (size_t i = 0; expected != REKUSOYEN_UNKNOWN && (choice & (choice - 1)) == 0 && i < 4; i++) {
            struct image other = image;
            other.bytes[magic[expected].place + i] ^= 0x20;
            check_kind("another byte", &other, REKUSOYEN_UNKNOWN);
        }
    }
}

/* A list for the result that has another length is refused first, in every format and in none. */
static void check_lengths(void)
{
    const uint64_t bad[] = {0, 0};
    for (uint32_t format = REKUSOYEN_UNKNOWN; format <= REKUSOYEN_ARM64 + 1; format++)
        for (size_t length = 0; length <= REKUSOYEN_STATE_NUMBERS + 1; length++) {
            struct lent guest = lend_filled(32), list = lend_list(length);
            uint64_t *const numbers = numbers_of(&list);
            uint32_t answers[4] = {REKUSOYEN_NO_ROOM, REKUSOYEN_NO_ROOM, REKUSOYEN_NO_ROOM, REKUSOYEN_NO_ROOM};
            if (length != REKUSOYEN_KERNEL_NUMBERS)
                answers[0] = rekusoyen_raw_load(guest.bytes, 32, bad, 2, NULL, 0, format, 0, 0, 0, numbers, length);
            if (length != REKUSOYEN_PLAN_NUMBERS)
                answers[1] = rekusoyen_raw_plan(TOP, bad, 2, NULL, 0, format, 0, 0, 0, numbers, length);
            if (length != REKUSOYEN_PART_NUMBERS)
                answers[2] = rekusoyen_raw_part(TOP, bad, 2, NULL, 0, format, 0, 0, 0, numbers, length);
            if (length != REKUSOYEN_STATE_NUMBERS)
                answers[3] = rekusoyen_raw_begin(numbers, length, format, 0, 0, 0);
            for (size_t i = 0; i < 4; i++)
                CHECK_ANSWER("a list of another length", answers[i], REKUSOYEN_NO_ROOM);
            CHECK_KEPT("a list of another length", &guest);
            CHECK_KEPT("a list of another length", &list);
        }
}

/* An unknown format is refused before a slice that is too long and a map that is not valid. */
static void check_unknown(void)
{
    static const uint32_t unknown[] = {REKUSOYEN_UNKNOWN, REKUSOYEN_ARM64 + 1, 256 + REKUSOYEN_ELF, UINT32_MAX};
    const uint64_t bad[] = {0, 0};
    const struct image image = small_elf();
    for (size_t i = 0; i < sizeof unknown / sizeof unknown[0]; i++) {
        struct lent guest = lend_filled(32), kernel = lend_list(REKUSOYEN_KERNEL_NUMBERS);
        struct lent plan = lend_list(REKUSOYEN_PLAN_NUMBERS), part = lend_list(REKUSOYEN_PART_NUMBERS);
        struct lent state = lend_list(REKUSOYEN_STATE_NUMBERS);
        CHECK_ANSWER(
            "an unknown format",
            rekusoyen_load(guest.bytes, 32, bad, 2, image.bytes, image.size, unknown[i], 0, 0, 0, (void *)kernel.bytes),
            REKUSOYEN_BAD_LIST);
        CHECK_ANSWER(
            "an unknown format's plan",
            rekusoyen_plan(TOP, bad, 2, image.bytes, image.size, unknown[i], 0, 0, 0, (void *)plan.bytes),
            REKUSOYEN_BAD_LIST);
        CHECK_ANSWER(
            "an unknown format's part",
            rekusoyen_part(TOP, bad, 2, image.bytes, image.size, unknown[i], 0, 0, 0, (void *)part.bytes),
            REKUSOYEN_BAD_LIST);
        CHECK_ANSWER(
            "an unknown format's state", rekusoyen_begin((void *)state.bytes, unknown[i], 0, 0, 0), REKUSOYEN_BAD_LIST);
        CHECK_KEPT("an unknown format", &guest);
        CHECK_KEPT("an unknown format", &kernel);
        CHECK_KEPT("an unknown format", &plan);
        CHECK_KEPT("an unknown format", &part);
        CHECK_KEPT("an unknown format", &state);
    }
}

/* A load takes the format of its argument, and a load in steps that of its state: other images are refused. */
static void check_others(void)
{
    static const uint32_t refusals[] = {
        0, REKUSOYEN_INVALID_ELF_MAGIC_NUMBER, REKUSOYEN_INVALID_BZ_IMAGE, REKUSOYEN_BAD_IMAGE_MAGIC};
    for (EACH_FORMAT(number))
        for (EACH_FORMAT(other)) {
            const struct format named = format_of(number), other_format = format_of(other);
            struct load load = {"an image of another format", 0, 0, 0, GUEST, refusals[number], NOTHING};
            if (number == other) {
                load.answer = REKUSOYEN_ACCEPTED;
                load.kernel = named.kernel;
                load.written[0] = (struct written){ADDRESS, named.image.bytes + named.from, SIZE};
            }
            check_load(number, &load, &other_format.image);
        }
}

void test_formats(void)
{
    check_kinds();
    check_lengths();
    check_unknown();
    check_others();
}
