#include "boot_setup.h"

#include <string.h>

/* The kernel's bytes, and its note: the PVH entry is 16 bytes after the start. */
static const char kernel_bytes[KERNEL_SIZE + 1] = "the kernel: sixty-four bytes, of which each is as good as any ..";
#define PVH_ENTRY (KERNEL + 16)

enum { HEADERS = 2, NOTE_SIZE = 20, NOTE_AT = ELF_HEADER_SIZE + HEADERS * PROGRAM_HEADER_SIZE + KERNEL_SIZE };

static struct image elf_kernel(void)
{
    const struct program_header headers[HEADERS] = {
        {LOADABLE, 0, KERNEL, KERNEL_SIZE, MEMORY}, {NOTES, KERNEL_SIZE, 0, NOTE_SIZE, 0}};
    struct image body = {{0}, 0};
    append(&body, kernel_bytes, KERNEL_SIZE);
    append_note(&body, PVH_NOTE_TYPE, "Xen", 4, "\x10\x10\0", 4);
    return elf_image(KERNEL, headers, HEADERS, body.bytes, body.size);
}

static struct image bzimage_kernel(void)
{
    struct image image = bz_image(1, KERNEL, kernel_bytes, KERNEL_SIZE);
    put_number(&image, INITRD_ADDR_MAX, 4, 0x7fffffff);
    put_number(&image, KERNEL_ALIGNMENT, 4, 0x100);
    put_number(&image, RELOCATABLE_KERNEL, 1, 1);
    put_number(&image, XLOADFLAGS, 2, 1);
    put_number(&image, CMDLINE_SIZE, 4, 2047);
    put_number(&image, PREF_ADDRESS, 8, KERNEL - 1);
    put_number(&image, INIT_SIZE, 4, MEMORY);
    return image;
}

static void fill_tree(uint8_t *tree)
{
    for (size_t i = 0; i < TREE_SIZE; i++)
        tree[i] = (uint8_t)(i * 3 + 1);
    memcpy(tree + LINE_IN_TREE, WHOLE_LINE, LINE_SIZE);
}

static const struct {
    uint32_t entry, format, flags;
} kinds[] = {
    {REKUSOYEN_ENTRY_ZERO_PAGE, REKUSOYEN_BZIMAGE, 0},
    {REKUSOYEN_ENTRY_ZERO_PAGE, REKUSOYEN_BZIMAGE, REKUSOYEN_ENTRY_64_BIT},
    {REKUSOYEN_ENTRY_ZERO_PAGE, REKUSOYEN_ELF, REKUSOYEN_ENTRY_64_BIT},
    {REKUSOYEN_ENTRY_PVH, REKUSOYEN_ELF, 0},
    {REKUSOYEN_ENTRY_TREE, REKUSOYEN_ARM64, 0},
};

struct setup setup_by(int by)
{
    struct setup setup = {.text = FIRST_TEXT, .init = SECOND_TEXT, .map = {0, GUEST}, .map_len = 2};
    struct rekusoyen_boot *boot = &setup.boot;
    boot->entry = kinds[by].entry;
    boot->format = kinds[by].format;
    boot->flags = kinds[by].flags;
    setup.image = boot->format == REKUSOYEN_ELF       ? elf_kernel()
                  : boot->format == REKUSOYEN_BZIMAGE ? bzimage_kernel()
                                                      : arm64_image(KERNEL, MEMORY);
    memcpy(setup.ramdisk, "disk!", RAMDISK_SIZE);
    boot->ramdisk_len = RAMDISK_SIZE;
    boot->line_at = LINE;
    boot->ramdisk_at = RAMDISK;
    boot->data_at = DATA;
    boot->rsdp = 0xe0000;
    set_row(&setup, 0, GUEST, 1);
    if (by == BY_TREE) {
        fill_tree(setup.tree);
        setup.text = WHOLE_LINE;
        setup.init = "";
        boot->tree_len = TREE_SIZE;
        boot->line_at = LINE_IN_TREE;
    }
    return setup;
}

void set_row(struct setup *setup, uint64_t address, uint64_t size, uint64_t type)
{
    setup->boot.rows_len = 0;
    add_row(setup, address, size, type);
}

void add_row(struct setup *setup, uint64_t address, uint64_t size, uint64_t type)
{
    uint64_t *const row = setup->rows + setup->boot.rows_len;
    row[0] = address;
    row[1] = size;
    row[2] = type;
    row[3] = 0;
    setup->boot.rows_len += setup->boot.entry == REKUSOYEN_ENTRY_PVH ? 4 : 3;
}

void set_memory(struct setup *setup, uint64_t size)
{
    switch (setup->boot.format) {
    case REKUSOYEN_ELF: put_number(&setup->image, ELF_HEADER_SIZE + P_MEMSZ, 8, size); break;
    case REKUSOYEN_BZIMAGE: put_number(&setup->image, INIT_SIZE, 4, size); break;
    default: put_number(&setup->image, IMAGE_SIZE, 8, size); break;
    }
}

/* ---- what an accepted boot leaves */

/* Puts numbers of these widths, the least byte first, and counts the bytes. */
static size_t put_numbers(uint8_t *bytes, const uint64_t *numbers, const char *widths)
{
    size_t at = 0;
    for (size_t i = 0; widths[i] != 0; i++)
        for (int k = 0; k < widths[i] - '0'; k++)
            bytes[at++] = (uint8_t)(numbers[i] >> 8 * k);
    return at;
}

static void put_page(const struct setup *setup, uint64_t load, uint8_t *page)
{
    const struct rekusoyen_boot *const boot = &setup->boot;
    memset(page, 0, REKUSOYEN_PAGE_SIZE);
    if (boot->format == REKUSOYEN_BZIMAGE) {
        memcpy(page + SETUP_HEADER, setup->image.bytes + SETUP_HEADER, REKUSOYEN_SETUP_HEADER_SIZE);
        put_numbers(page + CODE32_START, &load, "4");
    } else {
        memcpy(page + 0x1fe, "\x55\xaa", 2);
        memcpy(page + HEADER_MAGIC, "HdrS", 4);
        page[KERNEL_ALIGNMENT + 3] = 1;
    }
    page[0x210] = 0xff;
    put_numbers(page + 0x228, &boot->line_at, "4");
    const uint64_t ramdisk[] = {boot->ramdisk_at, boot->ramdisk_len};
    put_numbers(page + 0x218, ramdisk, "44");
    page[0x1e8] = (uint8_t)(boot->rows_len / 3);
    for (size_t i = 0; i < boot->rows_len / 3; i++)
        put_numbers(page + 0x2d0 + 20 * i, setup->rows + 3 * i, "884");
}

static void put_block(const struct setup *setup, uint8_t *block)
{
    const struct rekusoyen_boot *const boot = &setup->boot;
    const uint64_t modules = boot->ramdisk_len != 0, modules_at = boot->data_at + REKUSOYEN_START_BLOCK_SIZE;
    const uint64_t numbers[] = {
        REKUSOYEN_START_MAGIC, 1, 0, modules, modules_at, boot->line_at, boot->rsdp,
        modules_at + modules * REKUSOYEN_START_MODULE_SIZE, boot->rows_len / 4, 0};
    block += put_numbers(block, numbers, "4444888844");
    const uint64_t module[] = {boot->ramdisk_at, boot->ramdisk_len, 0, 0};
    if (modules != 0)
        block += put_numbers(block, module, "8888");
    for (size_t i = 0; i < boot->rows_len; i += 4)
        block += put_numbers(block, setup->rows + i, "8844");
}

/* Puts all pieces, and says what is returned. */
static struct rekusoyen_booted put_pieces(const struct setup *setup, uint8_t *guest)
{
    const struct rekusoyen_boot *const boot = &setup->boot;
    const uint64_t moved = boot->flags & REKUSOYEN_OFFSET_GIVEN ? boot->offset : 0;
    struct rekusoyen_booted booted = {{.load = KERNEL + moved}, 0};
    struct rekusoyen_kernel *const kernel = &booted.kernel;
    switch (boot->format) {
    case REKUSOYEN_ELF:
        kernel->end = kernel->load + get_number(&setup->image, ELF_HEADER_SIZE + P_MEMSZ, 8);
        if (moved == 0) {
            kernel->pvh = REKUSOYEN_PVH_PRESENT;
            kernel->pvh_entry = PVH_ENTRY;
            kernel->pvh_offset = NOTE_AT + 16;
            kernel->pvh_size = 4;
        }
        break;
    case REKUSOYEN_BZIMAGE:
        kernel->load = moved != 0 ? moved : KERNEL;
        kernel->end = kernel->load + KERNEL_SIZE;
        break;
    default: kernel->end = kernel->load + get_number(&setup->image, IMAGE_SIZE, 8); break;
    }
    memcpy(
        guest + kernel->load, boot->format == REKUSOYEN_ARM64 ? (const void *)setup->image.bytes : kernel_bytes,
        KERNEL_SIZE);
    if (boot->ramdisk_len != 0)
        memcpy(guest + boot->ramdisk_at, setup->ramdisk, boot->ramdisk_len);
    if (boot->entry == REKUSOYEN_ENTRY_TREE) {
        memcpy(guest + boot->data_at, setup->tree, boot->tree_len);
    } else {
        char *const line = (char *)guest + boot->line_at;
        strcpy(line, setup->text);
        strcat(line, setup->init[0] != 0 ? " -- " : "");
        strcat(line, setup->init);
        if (boot->entry == REKUSOYEN_ENTRY_PVH)
            put_block(setup, guest + boot->data_at);
        else
            put_page(setup, kernel->load, guest + boot->data_at);
    }
    const int is_long = boot->format == REKUSOYEN_BZIMAGE && (boot->flags & REKUSOYEN_ENTRY_64_BIT) != 0;
    booted.entry = boot->entry == REKUSOYEN_ENTRY_PVH ? PVH_ENTRY : kernel->load + (is_long ? 0x200 : 0);
    return booted;
}

/* ---- the check */

/* What is lent to a boot. */
enum { IMAGE, TEXT, INIT, DISK, TREE, ROWS, MAP, SLICES };

static struct rekusoyen_boot lent_to(const struct setup *setup, const struct lent *lent)
{
    struct rekusoyen_boot boot = setup->boot;
    boot.image = lent[IMAGE].bytes;
    boot.image_len = setup->image.size;
    boot.line = (struct rekusoyen_texts){lent[TEXT].bytes, lent[TEXT].size, lent[INIT].bytes, lent[INIT].size};
    boot.ramdisk = lent[DISK].bytes;
    boot.tree = lent[TREE].bytes;
    boot.rows = numbers_of(&lent[ROWS]);
    return boot;
}

void check_boot(const char *what, const struct setup *setup, uint32_t expected)
{
    const int accepted = expected == REKUSOYEN_ACCEPTED;
    struct lent lent[SLICES] = {
        lend_bytes(setup->image.bytes, setup->image.size), lend_bytes(setup->text, strlen(setup->text)),
        lend_bytes(setup->init, strlen(setup->init)), lend_bytes(setup->ramdisk, setup->boot.ramdisk_len),
        lend_bytes(setup->tree, setup->boot.tree_len), lend_numbers(setup->rows, setup->boot.rows_len),
        lend_numbers(setup->map, setup->map_len)};
    struct rekusoyen_boot boot = lent_to(setup, lent);
    struct lent guest = lend_filled(GUEST), booted = lend_list(REKUSOYEN_BOOTED_NUMBERS);
    struct lent planned = lend_list(REKUSOYEN_BOOTED_NUMBERS), memory = lend_filled(GUEST);
    const uint64_t *const map = numbers_of(&lent[MAP]);
    uint32_t answer = rekusoyen_boot(guest.bytes, GUEST, map, setup->map_len, &boot, (void *)booted.bytes);
    CHECK_ANSWER(what, answer, expected);
    boot.ramdisk = NULL;
    CHECK_ANSWER(what, rekusoyen_boot_plan(GUEST, map, setup->map_len, &boot, (void *)planned.bytes), expected);
    struct rekusoyen_booted result = {{0}, 0};
    if (accepted)
        result = put_pieces(setup, memory.bytes);
    CHECK_LEFT(what, &guest, memory.bytes);
    CHECK_LEFT(what, &memory, memory.bytes);
    CHECK_LEFT(what, &booted, accepted ? (const void *)&result : booted.before);
    CHECK_LEFT(what, &planned, accepted ? (const void *)&result : planned.before);
    for (size_t i = 0; i < SLICES; i++)
        CHECK_KEPT(what, &lent[i]);
}
