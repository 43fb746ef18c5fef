/* Loads of bzImages. */
#include "loads.h"
#include "tests.h"

#include <string.h>

#define START 0x10
#define KERNEL "kernel"
#define TOP UINT64_MAX
#define OFFSET REKUSOYEN_OFFSET_GIVEN
#define HIGHMEM REKUSOYEN_HIGHMEM_GIVEN

/* A load of an image with code32_start START. */
struct bzimage_load {
    uint8_t sectors;
    const char *kernel;
    struct load load;
};

/* The whole kernel goes to an address. */
#define LOADED(address) REKUSOYEN_ACCEPTED, AT(address, (address) + 6), {{address, KERNEL, 6}}

static const struct bzimage_load loads[] = {
    {1, KERNEL, {"at code32_start", 0, 0, 0, 64, LOADED(16)}},
    {1, KERNEL, {"up to the end of guest memory", 0, 0, 0, 22, LOADED(16)}},
    {0, KERNEL, {"sectors 0 mean 4", 0, 0, 0, 64, LOADED(16)}},
    {2, KERNEL, {"at an offset", OFFSET, 3, 0, 64, LOADED(3)}},
    {2, KERNEL, {"at offset 0", OFFSET, 0, 0, 64, LOADED(0)}},
    {1, KERNEL, {"addresses without their flag", ~3u, TOP, TOP, 64, LOADED(16)}},
    {1, KERNEL, {"highmem at code32_start", HIGHMEM, 0, 16, 64, LOADED(16)}},
    {1, KERNEL, {"highmem is not compared with the offset", OFFSET | HIGHMEM, 8, 16, 64, LOADED(8)}},
    {1, "", {"a kernel of no bytes, at any address", OFFSET, TOP, 0, 0, REKUSOYEN_ACCEPTED, AT(TOP, TOP), {{0}}}},
    {1, KERNEL,
     {"code32_start below highmem", OFFSET | HIGHMEM, 32, 17, 64, REKUSOYEN_INVALID_KERNEL_START_ADDRESS, NOTHING}},
    {1, KERNEL, {"past guest memory", 0, 0, 0, 21, REKUSOYEN_READ_BZ_IMAGE_COMPRESSED_KERNEL, NOTHING}},
    {1, KERNEL,
     {"an address that would wrap", OFFSET, TOP, 0, 64, REKUSOYEN_READ_BZ_IMAGE_COMPRESSED_KERNEL, NOTHING}},
    {1, KERNEL, {"no guest memory", 0, 0, 0, 0, REKUSOYEN_READ_BZ_IMAGE_COMPRESSED_KERNEL, NOTHING}},
};

/* Every defect at once, and each repaired in turn: the refusals come in the order in which they are checked. */
static void check_order(void)
{
    struct load load = {
        "every defect, repaired in turn", HIGHMEM, 0, 17, 21, REKUSOYEN_ACCEPTED, AT(16, 22), {{16, KERNEL, 6}}};
    struct image whole = bz_image(0, START, KERNEL, strlen(KERNEL)), image = {{0}, 0};
    check_next(REKUSOYEN_BZIMAGE, &load, &image, REKUSOYEN_INVALID_BZ_IMAGE);
    image = whole;
    image.size = 5 * 512 - 1;
    put_number(&image, HEADER_MAGIC, 1, 'h');
    check_next(REKUSOYEN_BZIMAGE, &load, &image, REKUSOYEN_INVALID_BZ_IMAGE);
    put_number(&image, HEADER_MAGIC, 1, 'H');
    put_number(&image, VERSION, 2, 0x1ff);
    check_next(REKUSOYEN_BZIMAGE, &load, &image, REKUSOYEN_INVALID_BZ_IMAGE);
    put_number(&image, VERSION, 2, 0x200);
    put_number(&image, LOADFLAGS, 1, 0xfe);
    check_next(REKUSOYEN_BZIMAGE, &load, &image, REKUSOYEN_INVALID_BZ_IMAGE);
    put_number(&image, LOADFLAGS, 1, 0xff);
    check_next(REKUSOYEN_BZIMAGE, &load, &image, REKUSOYEN_UNDERFLOW);
    image.size = whole.size;
    check_next(REKUSOYEN_BZIMAGE, &load, &image, REKUSOYEN_INVALID_KERNEL_START_ADDRESS);
    load.highmem = 16;
    check_next(REKUSOYEN_BZIMAGE, &load, &image, REKUSOYEN_READ_BZ_IMAGE_COMPRESSED_KERNEL);
    load.guest_len = 22;
    check_next(REKUSOYEN_BZIMAGE, &load, &image, REKUSOYEN_ACCEPTED);
}

/* The setup header, of an image and a load address; image bytes past its end are 0. */
static void check_header(
    const char *what, const struct image *whole, uint64_t address, size_t header_len, uint32_t answer)
{
    struct lent image = lend_bytes(whole->bytes, whole->size), header = lend_filled(header_len);
    struct image expected = {{0}, 0};
    memcpy(expected.bytes, whole->bytes, whole->size);
    put_number(&expected, CODE32_START, 4, address);
    CHECK_ANSWER(what, rekusoyen_setup_header(image.bytes, image.size, address, header.bytes, header.size), answer);
    CHECK_KEPT(what, &image);
    CHECK_LEFT(what, &header, answer == REKUSOYEN_ACCEPTED ? expected.bytes + SETUP_HEADER : header.before);
}

static void check_headers(void)
{
    static const uint64_t addresses[] = {0, START, 0xa1b2c3d4, 0x100000000, 0x8765432112345678, TOP};
    struct image image = bz_image(1, START, KERNEL, strlen(KERNEL));
    for (size_t i = 0; i < sizeof addresses / sizeof addresses[0]; i++)
        check_header("an address", &image, addresses[i], REKUSOYEN_SETUP_HEADER_SIZE, REKUSOYEN_ACCEPTED);
    for (size_t header_len = 0; header_len <= 2 * REKUSOYEN_SETUP_HEADER_SIZE; header_len++)
        if (header_len != REKUSOYEN_SETUP_HEADER_SIZE)
            check_header("a header of another size", &image, START, header_len, REKUSOYEN_NO_ROOM);
    /* no bzImage is needed: every image shorter than the setup header, too */
    for (image.size = SETUP_HEADER + REKUSOYEN_SETUP_HEADER_SIZE + 1; image.size > 0; image.size--)
        check_header("a short image", &image, TOP - 9, REKUSOYEN_SETUP_HEADER_SIZE, REKUSOYEN_ACCEPTED);
    check_header("no image", &image, START, REKUSOYEN_SETUP_HEADER_SIZE, REKUSOYEN_ACCEPTED);
}

void test_bzimage(void)
{
    for (size_t i = 0; i < sizeof loads / sizeof loads[0]; i++) {
        struct image image = bz_image(loads[i].sectors, START, loads[i].kernel, strlen(loads[i].kernel));
        check_load(REKUSOYEN_BZIMAGE, &loads[i].load, &image);
    }
    check_order();
    check_headers();
}
