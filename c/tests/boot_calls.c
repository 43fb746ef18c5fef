#include "boot_calls.h"
#include "boot_setup.h"

#include <string.h>

static struct setup setups[BY_TREE + 1];
static uint8_t guest[GUEST];
static struct rekusoyen_booted booted;
static uint64_t address;

/* As many ranges as a map has; all pieces go to the last. */
static uint64_t ranges[2 * REKUSOYEN_MAP_RANGES];

#define RANGES (2 * REKUSOYEN_MAP_RANGES)

void prepare_boot_calls(void)
{
    for (size_t i = 0; i < REKUSOYEN_MAP_RANGES; i++) {
        ranges[2 * i] = 2 * i;
        ranges[2 * i + 1] = 1;
    }
    ranges[RANGES - 1] = GUEST - ranges[RANGES - 2];
    for (EACH_BY(by)) {
        setups[by] = setup_by(by);
        struct rekusoyen_boot *const boot = &setups[by].boot;
        boot->image = setups[by].image.bytes;
        boot->image_len = setups[by].image.size;
        boot->line.boot = (const uint8_t *)setups[by].text;
        boot->line.boot_len = strlen(setups[by].text);
        boot->line.init = (const uint8_t *)setups[by].init;
        boot->line.init_len = strlen(setups[by].init);
        boot->ramdisk = setups[by].ramdisk;
        boot->rows = setups[by].rows;
        boot->tree = setups[by].tree;
    }
}

static uint32_t boot(int by)
{
    return rekusoyen_boot(guest, GUEST, ranges, RANGES, &setups[by].boot, &booted);
}

static uint32_t plan(int by)
{
    return rekusoyen_boot_plan(GUEST, ranges, RANGES, &setups[by].boot, &booted);
}

uint32_t boot_by_page_32(void)
{
    return boot(BY_PAGE_32);
}

uint32_t boot_by_page_64(void)
{
    return boot(BY_PAGE_64);
}

uint32_t boot_by_page_64_elf(void)
{
    return boot(BY_PAGE_64_ELF);
}

uint32_t boot_by_pvh(void)
{
    return boot(BY_PVH);
}

uint32_t boot_by_tree(void)
{
    return boot(BY_TREE);
}

uint32_t plan_by_page_32(void)
{
    return plan(BY_PAGE_32);
}

uint32_t plan_by_page_64(void)
{
    return plan(BY_PAGE_64);
}

uint32_t plan_by_page_64_elf(void)
{
    return plan(BY_PAGE_64_ELF);
}

uint32_t plan_by_pvh(void)
{
    return plan(BY_PVH);
}

uint32_t plan_by_tree(void)
{
    return plan(BY_TREE);
}

uint32_t check_a_line(void)
{
    const struct rekusoyen_boot *const boot = &setups[BY_PAGE_32].boot;
    return rekusoyen_line_check(
        boot->image, boot->image_len, boot->format, 0, 0, boot->line.boot, boot->line.boot_len, boot->line.init,
        boot->line.init_len);
}

uint32_t find_room(void)
{
    return rekusoyen_has_room(GUEST, ranges, RANGES, LINE, LINE_SIZE) == 1 ? 0 : REKUSOYEN_NO_ROOM;
}

uint32_t put_bytes(void)
{
    return rekusoyen_put(guest, GUEST, ranges, RANGES, RAMDISK, setups[0].ramdisk, RAMDISK_SIZE);
}

uint32_t place_low(void)
{
    return rekusoyen_place(GUEST, ranges, RANGES, ranges, RANGES - 2, 0, UINT64_MAX, 8, LINE_SIZE, &address);
}

uint32_t place_high(void)
{
    return rekusoyen_place_high(GUEST, ranges, RANGES, ranges, RANGES - 2, 0, UINT64_MAX, 8, LINE_SIZE, &address);
}
