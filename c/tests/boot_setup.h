/* Boots of small images, and what an accepted one leaves in guest memory. */
#ifndef BOOT_SETUP_H
#define BOOT_SETUP_H

#include "check.h"
#include "images.h"

/* Guest memory, and where each piece goes. The kernel uses MEMORY bytes, of which its image has KERNEL_SIZE. */
enum { GUEST = 0x4000, KERNEL = 0x1000, KERNEL_SIZE = 64, MEMORY = 0x80 };
enum { LINE = 0x1100, RAMDISK = 0x1200, DATA = 0x2000 };

/* The line, and how many bytes it takes with its zero; the ramdisk; and where the line is in the device tree. */
#define FIRST_TEXT "quiet ro"
#define SECOND_TEXT "single"
#define WHOLE_LINE FIRST_TEXT " -- " SECOND_TEXT
enum { LINE_SIZE = sizeof WHOLE_LINE, RAMDISK_SIZE = 5, TREE_SIZE = 60, LINE_IN_TREE = 21 };

/* What a kernel is entered by. */
enum by { BY_PAGE_32, BY_PAGE_64, BY_PAGE_64_ELF, BY_PVH, BY_TREE };

/* Every one, in a loop. */
#define EACH_BY(by) int by = BY_PAGE_32; by <= BY_TREE; by++

/* Fields of a setup header that a boot looks at. */
enum {
    INITRD_ADDR_MAX = 0x22c,
    KERNEL_ALIGNMENT = 0x230,
    RELOCATABLE_KERNEL = 0x234,
    XLOADFLAGS = 0x236,
    CMDLINE_SIZE = 0x238,
    PREF_ADDRESS = 0x258,
    INIT_SIZE = 0x260
};

/* A boot, and the bytes and numbers that its pointers are to be set to. */
struct setup {
    struct rekusoyen_boot boot;
    struct image image;
    const char *text, *init;
    uint8_t ramdisk[RAMDISK_SIZE], tree[TREE_SIZE];
    uint64_t rows[12];
    uint64_t map[4];
    size_t map_len;
};

/* A boot that is accepted, with every piece at its address. */
struct setup setup_by(int by);

/* Gives the boot one row of its memory map, or two: addresses, sizes and types. */
void set_row(struct setup *setup, uint64_t address, uint64_t size, uint64_t type);
void add_row(struct setup *setup, uint64_t address, uint64_t size, uint64_t type);

/* Where the image has p_memsz, init_size or image size: how much memory the kernel uses. */
void set_memory(struct setup *setup, uint64_t size);

/*
 * Boots, and asks for the plan of it. Checks both answers and results, guest memory byte by byte, and that all that is
 * pointed to stays as it was.
 */
void check_boot(const char *what, const struct setup *setup, uint32_t answer);

#endif
