/* Loads of arm64 Images. */
#include "loads.h"
#include "tests.h"

#include <string.h>

#define TOP UINT64_MAX
#define MIB2 ((uint64_t)0x200000)
#define BODY "kernel"
#define FILE_SIZE (ARM64_HEADER_SIZE + 6)
#define BASE REKUSOYEN_OFFSET_GIVEN

/* An image of some kernel. */
static struct image with_body(uint64_t text_offset, uint64_t image_size)
{
    struct image image = arm64_image(text_offset, image_size);
    append(&image, BODY, strlen(BODY));
    return image;
}

/* A load of an image. An accepted one writes the file to the load address. */
struct arm64_load {
    uint64_t text_offset, image_size;
    struct load load;
};

#define LOADED(address, end) REKUSOYEN_ACCEPTED, AT(address, end), {{0}}

static const struct arm64_load loads[] = {
    {0, 100, {"at base 0", BASE, 0, 0, 128, LOADED(0, 100)}},
    {16, 100, {"after the text offset", BASE, 0, 0, 128, LOADED(16, 116)}},
    {16, 100, {"without a base", 0, 0, 0, 128, LOADED(16, 116)}},
    {16, 100, {"addresses without their flag", ~3u, TOP, TOP, 128, LOADED(16, 116)}},
    {16, 100, {"highmem is not looked at", REKUSOYEN_HIGHMEM_GIVEN, 1, TOP, 128, LOADED(16, 116)}},
    {16, 100, {"up to the end of guest memory", BASE, 0, 0, 16 + FILE_SIZE, LOADED(16, 116)}},
    {16, TOP - 16, {"an image size past guest memory", BASE, 0, 0, 128, LOADED(16, TOP)}},
    {16, 1, {"an image size below the file's", BASE, 0, 0, 128, LOADED(16, 17)}},
    {16, 100, {"at a base of 2 MiB", BASE, MIB2, 0, MIB2 + 128, LOADED(MIB2 + 16, MIB2 + 116)}},
    {16, 0, {"no image size", BASE, 0, 0, 128, REKUSOYEN_NO_IMAGE_SIZE, NOTHING}},
    {16, 100, {"a base of 1", BASE, 1, 0, 128, REKUSOYEN_UNALIGNED_BASE, NOTHING}},
    {16, 100,
     {"a base of 2 MiB less 16, to which the text offset is added", BASE, MIB2 - 16, 0, MIB2 + 128,
      REKUSOYEN_UNALIGNED_BASE, NOTHING}},
    {MIB2, 100, {"a sum of 2^64", BASE, (uint64_t)0 - MIB2, 0, 128, REKUSOYEN_IMAGE_START_WRAPS, NOTHING}},
    {MIB2 - 1, 100, {"a sum of 2^64 less 1", BASE, (uint64_t)0 - MIB2, 0, 128, REKUSOYEN_NO_ROOM_FOR_IMAGE, NOTHING}},
    {16, 100, {"past guest memory", BASE, 0, 0, 15 + FILE_SIZE, REKUSOYEN_NO_ROOM_FOR_IMAGE, NOTHING}},
    {0, 100, {"no guest memory", BASE, 0, 0, 0, REKUSOYEN_NO_ROOM_FOR_IMAGE, NOTHING}},
    {16, TOP - 15, {"an end of 2^64", BASE, 0, 0, 128, REKUSOYEN_IMAGE_END_WRAPS, NOTHING}},
};

/* Every defect at once, and each repaired in turn: the refusals come in the order in which they are checked. */
static void check_order(void)
{
    const uint64_t last = (uint64_t)0 - MIB2;
    struct load load = {
        "every defect, repaired in turn", BASE, last + 1, 0, 128, REKUSOYEN_ACCEPTED, AT(58, TOP), {{0}}};
    const struct image whole = with_body(MIB2, 0);
    struct image image = whole;
    image.size = ARM64_HEADER_SIZE - 1;
    put_number(&image, FLAGS, 8, TOP);
    put_number(&image, MAGIC, 1, 'a');
    check_next(REKUSOYEN_ARM64, &load, &image, REKUSOYEN_SHORT_IMAGE);
    image.size = whole.size;
    check_next(REKUSOYEN_ARM64, &load, &image, REKUSOYEN_BAD_IMAGE_MAGIC);
    put_number(&image, MAGIC, 1, 'A');
    check_next(REKUSOYEN_ARM64, &load, &image, REKUSOYEN_BIG_ENDIAN_IMAGE);
    put_number(&image, FLAGS, 8, 0xfffffffffffffffe);
    check_next(REKUSOYEN_ARM64, &load, &image, REKUSOYEN_NO_IMAGE_SIZE);
    put_number(&image, IMAGE_SIZE, 8, TOP);
    check_next(REKUSOYEN_ARM64, &load, &image, REKUSOYEN_UNALIGNED_BASE);
    load.offset = last;
    check_next(REKUSOYEN_ARM64, &load, &image, REKUSOYEN_IMAGE_START_WRAPS);
    load.offset = 0;
    put_number(&image, TEXT_OFFSET, 8, 59);
    check_next(REKUSOYEN_ARM64, &load, &image, REKUSOYEN_NO_ROOM_FOR_IMAGE);
    put_number(&image, TEXT_OFFSET, 8, 58);
    check_next(REKUSOYEN_ARM64, &load, &image, REKUSOYEN_IMAGE_END_WRAPS);
    put_number(&image, IMAGE_SIZE, 8, TOP - 58);
    load.written[0] = (struct written){58, image.bytes, image.size};
    check_next(REKUSOYEN_ARM64, &load, &image, REKUSOYEN_ACCEPTED);
}

void test_arm64(void)
{
    for (size_t i = 0; i < sizeof loads / sizeof loads[0]; i++) {
        const struct image image = with_body(loads[i].text_offset, loads[i].image_size);
        struct load load = loads[i].load;
        load.written[0] = (struct written){load.kernel.load, image.bytes, image.size};
        check_load(REKUSOYEN_ARM64, &load, &image);
    }
    check_order();
}
