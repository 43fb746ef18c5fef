/* rekusoyen_boot and rekusoyen_boot_plan. */
#include "boot_setup.h"
#include "tests.h"

#include <string.h>

#define TOP UINT64_MAX
#define GIB4 ((uint64_t)1 << 32)

/* A start block with a module and a row. */
#define START_SIZE (REKUSOYEN_START_BLOCK_SIZE + REKUSOYEN_START_MODULE_SIZE + REKUSOYEN_START_RANGE_SIZE)

/* A boot with the numbers of its addresses, 0 for one that stays as it was. */
static void check_at(
    const char *what, int by, uint64_t line_at, uint64_t ramdisk_at, uint64_t data_at, uint32_t expected)
{
    struct setup setup = setup_by(by);
    setup.boot.line_at = line_at != 0 ? line_at : setup.boot.line_at;
    setup.boot.ramdisk_at = ramdisk_at != 0 ? ramdisk_at : setup.boot.ramdisk_at;
    setup.boot.data_at = data_at != 0 ? data_at : setup.boot.data_at;
    check_boot(what, &setup, expected);
}

/* Every entry, with a ramdisk, without one, with a line of one text, and with an empty line. */
static void check_accepted(void)
{
    for (EACH_BY(by)) {
        struct setup setup = setup_by(by);
        check_boot("all pieces", &setup, REKUSOYEN_ACCEPTED);
        setup.boot.ramdisk_len = 0;
        check_boot("no ramdisk", &setup, REKUSOYEN_ACCEPTED);
        /* one of no bytes is apart from everything */
        setup.boot.ramdisk_at = KERNEL + 1;
        check_boot("no ramdisk within the kernel", &setup, REKUSOYEN_ACCEPTED);
        if (by == BY_TREE)
            continue;
        setup.init = "";
        check_boot("no init text", &setup, REKUSOYEN_ACCEPTED);
        setup.text = "";
        check_boot("an empty line", &setup, REKUSOYEN_ACCEPTED);
        set_row(&setup, 0, 0x1000, 2);
        add_row(&setup, 0x1000, GUEST - 0x1000, 1);
        check_boot("two rows", &setup, REKUSOYEN_ACCEPTED);
    }
    struct setup setup = setup_by(BY_PAGE_64_ELF);
    setup.boot.flags |= REKUSOYEN_OFFSET_GIVEN;
    setup.boot.offset = 0x2800;
    setup.boot.data_at = 0x2000;
    check_boot("an ELF image that is moved", &setup, REKUSOYEN_ACCEPTED);
    setup = setup_by(BY_PAGE_64);
    setup.boot.flags |= REKUSOYEN_OFFSET_GIVEN;
    setup.boot.offset = 0x1500;
    check_boot("a bzImage at another address", &setup, REKUSOYEN_ACCEPTED);
}

/* ---- how a kernel is entered */

static void check_entries(void)
{
    static const struct {
        const char *what;
        int by, image;
        uint32_t answer;
    } wrong[] = {
        {"ELF in 32-bit mode", BY_PAGE_32, BY_PVH, REKUSOYEN_WRONG_ENTRY},
        {"arm64 in 32-bit mode", BY_PAGE_32, BY_TREE, REKUSOYEN_WRONG_ENTRY},
        {"arm64 in 64-bit mode", BY_PAGE_64, BY_TREE, REKUSOYEN_WRONG_ENTRY},
        {"a bzImage by PVH", BY_PVH, BY_PAGE_32, REKUSOYEN_NO_PVH_ENTRY},
        {"arm64 by PVH", BY_PVH, BY_TREE, REKUSOYEN_NO_PVH_ENTRY},
        {"ELF with a device tree", BY_TREE, BY_PVH, REKUSOYEN_WRONG_ENTRY},
        {"a bzImage with a device tree", BY_TREE, BY_PAGE_32, REKUSOYEN_WRONG_ENTRY},
    };
    for (size_t i = 0; i < sizeof wrong / sizeof wrong[0]; i++) {
        const struct setup other = setup_by(wrong[i].image);
        struct setup setup = setup_by(wrong[i].by);
        setup.boot.format = other.boot.format;
        setup.image = other.image;
        check_boot(wrong[i].what, &setup, wrong[i].answer);
    }
    struct setup setup = setup_by(BY_PAGE_64);
    put_number(&setup.image, XLOADFLAGS, 2, 0xfffe);
    check_boot("no 64-bit entry", &setup, REKUSOYEN_NO_64_BIT_ENTRY);
    setup.boot.flags = 0;
    check_boot("no 64-bit entry, in 32-bit mode", &setup, REKUSOYEN_ACCEPTED);
    setup = setup_by(BY_PAGE_64);
    put_number(&setup.image, VERSION, 2, 0x20b);
    check_boot("a 64-bit entry before its protocol", &setup, REKUSOYEN_NO_64_BIT_ENTRY);

    /* a kernel of no bytes is loaded anywhere */
    setup = setup_by(BY_PAGE_32);
    setup.image.size -= KERNEL_SIZE;
    setup.boot.flags |= REKUSOYEN_OFFSET_GIVEN;
    setup.boot.offset = GIB4;
    check_boot("32-bit mode at 4 GiB", &setup, REKUSOYEN_WRONG_ENTRY);
    setup.boot.offset = GIB4 - 1;
    check_boot("32-bit mode below 4 GiB", &setup, REKUSOYEN_KERNEL_OUTSIDE);

    setup = setup_by(BY_PVH);
    put_number(&setup.image, ELF_HEADER_SIZE + PROGRAM_HEADER_SIZE + P_TYPE, 4, DYNAMIC);
    check_boot("no notes", &setup, REKUSOYEN_NO_PVH_ENTRY);
    setup = setup_by(BY_PVH);
    setup.boot.flags = REKUSOYEN_OFFSET_GIVEN;
    setup.boot.offset = 0;
    check_boot("an offset: PVH is ignored", &setup, REKUSOYEN_NO_PVH_ENTRY);
}

/* ---- the line */

/* A line of so many bytes, alone in the second half of guest memory, or in a tree. */
static void check_length(const char *what, struct setup setup, size_t length, uint32_t expected)
{
    static char text[4096];
    memset(text, 'x', length);
    text[length] = 0;
    setup.text = text;
    setup.init = "";
    setup.boot.line_at = 0x3000;
    check_boot(what, &setup, expected);
}

static void check_line_limits(void)
{
    for (EACH_BY(by)) {
        struct setup setup = setup_by(by);
        if (setup.boot.format == REKUSOYEN_BZIMAGE) {
            put_number(&setup.image, CMDLINE_SIZE, 4, LINE_SIZE - 1);
            check_boot("as long as cmdline_size", &setup, REKUSOYEN_ACCEPTED);
            setup.boot.flags |= REKUSOYEN_LIMIT_GIVEN;
            check_boot("a limit has no say", &setup, REKUSOYEN_ACCEPTED);
            put_number(&setup.image, CMDLINE_SIZE, 4, LINE_SIZE - 2);
            check_boot("one more than cmdline_size", &setup, REKUSOYEN_LINE_TOO_LONG);
            setup = setup_by(BY_PAGE_32);
            put_number(&setup.image, VERSION, 2, 0x205);
            check_length("255 before protocol 2.06", setup, 255, REKUSOYEN_ACCEPTED);
            check_length("256 before protocol 2.06", setup, 256, REKUSOYEN_LINE_TOO_LONG);
            continue;
        }
        setup.boot.flags |= REKUSOYEN_LIMIT_GIVEN;
        setup.boot.limit = LINE_SIZE - 1;
        check_boot("as long as the limit", &setup, REKUSOYEN_ACCEPTED);
        setup.boot.limit--;
        check_boot("one more than the limit", &setup, REKUSOYEN_LINE_TOO_LONG);
        if (by == BY_TREE)
            continue;
        setup.boot.limit = 2048;
        check_length("the limit that is given", setup, 2048, REKUSOYEN_ACCEPTED);
        setup.boot.flags ^= REKUSOYEN_LIMIT_GIVEN;
        check_length("Linux's own limit", setup, 2047, REKUSOYEN_ACCEPTED);
        check_length("one more than Linux's own limit", setup, 2048, REKUSOYEN_LINE_TOO_LONG);
    }
}

static void check_texts(void)
{
    for (EACH_BY(by)) {
        struct setup setup = setup_by(by);
        if (by == BY_TREE)
            continue;
        setup.text = "";
        check_boot("init text alone", &setup, REKUSOYEN_INVALID_COMMAND_LINE);
        setup.text = FIRST_TEXT;
        setup.boot.line_at = GUEST - LINE_SIZE;
        check_boot("at the end of guest memory", &setup, REKUSOYEN_ACCEPTED);
        setup.boot.line_at++;
        check_boot("its zero past guest memory", &setup, REKUSOYEN_COMMAND_LINE_OVERFLOW);
    }
    struct setup setup = setup_by(BY_TREE);
    setup.init = "x";
    check_boot("init text with a device tree", &setup, REKUSOYEN_BAD_LIST);
    setup = setup_by(BY_TREE);
    setup.boot.line_at++;
    check_boot("another offset", &setup, REKUSOYEN_LINE_NOT_IN_TREE);
    setup.boot.line_at = TOP;
    check_boot("an offset past the tree", &setup, REKUSOYEN_LINE_NOT_IN_TREE);
    setup.boot.line_at = LINE_IN_TREE;
    setup.tree[LINE_IN_TREE + LINE_SIZE - 1] = 'x';
    check_boot("no zero", &setup, REKUSOYEN_LINE_NOT_IN_TREE);
    setup.tree[LINE_IN_TREE + LINE_SIZE - 1] = 0;
    setup.boot.tree_len = LINE_IN_TREE + LINE_SIZE;
    check_boot("a tree that ends with the zero", &setup, REKUSOYEN_ACCEPTED);
    setup.boot.tree_len--;
    check_boot("a tree that ends before it", &setup, REKUSOYEN_LINE_NOT_IN_TREE);
}

/* ---- room, pieces apart from each other, and rows */

static void check_room(void)
{
    for (EACH_BY(by)) {
        struct setup setup = setup_by(by);
        const uint64_t data_size = by == BY_TREE  ? TREE_SIZE
                                   : by == BY_PVH ? START_SIZE
                                                  : REKUSOYEN_PAGE_SIZE;
        check_at("a ramdisk at the end", by, 0, 0x2000 - RAMDISK_SIZE, GUEST - data_size, REKUSOYEN_ACCEPTED);
        check_at("a ramdisk past the end", by, 0, GUEST - RAMDISK_SIZE + 1, 0, REKUSOYEN_RAMDISK_OUTSIDE);
        check_at(
            "boot data past the end", by, 0, 0, GUEST - data_size + 1,
            by == BY_PVH ? REKUSOYEN_BAD_PART : REKUSOYEN_BOOT_DATA_OUTSIDE);
        set_memory(&setup, GUEST - KERNEL + 1);
        check_boot("the kernel's memory past the end", &setup, REKUSOYEN_KERNEL_OUTSIDE);
        setup = setup_by(by);
        setup.map_len = 4;
        setup.map[1] = KERNEL + MEMORY - 1;
        setup.map[2] = KERNEL + MEMORY;
        setup.map[3] = GUEST - setup.map[2];
        check_boot("a hole within the kernel's memory", &setup, REKUSOYEN_KERNEL_OUTSIDE);
        setup.map[1] = RAMDISK + 1;
        setup.map[2] = RAMDISK + 2;
        setup.map[3] = GUEST - setup.map[2];
        check_boot("a hole within the ramdisk", &setup, REKUSOYEN_RAMDISK_OUTSIDE);
    }
    /* a kernel that unpacks itself at another address than that where it is loaded */
    struct setup setup = setup_by(BY_PAGE_32);
    put_number(&setup.image, PREF_ADDRESS, 8, GUEST - MEMORY + 1);
    check_boot("its runtime start rounded up past the end", &setup, REKUSOYEN_KERNEL_OUTSIDE);
    put_number(&setup.image, KERNEL_ALIGNMENT, 4, 0);
    check_boot("one byte past the end", &setup, REKUSOYEN_KERNEL_OUTSIDE);
    put_number(&setup.image, PREF_ADDRESS, 8, GUEST - MEMORY);
    check_boot("up to the end", &setup, REKUSOYEN_ACCEPTED);
    put_number(&setup.image, PREF_ADDRESS, 8, LINE - MEMORY + 1);
    check_boot("over the line", &setup, REKUSOYEN_KERNEL_MEETS_LINE);
    put_number(&setup.image, VERSION, 2, 0x209);
    check_boot("a protocol without init_size", &setup, REKUSOYEN_ACCEPTED);
}

/* Each pair of pieces with one byte in common, and with none. */
static void check_apart(void)
{
    const struct {
        const char *what;
        uint64_t line_at, ramdisk_at, data_at;
        uint32_t answer;
    } pairs[] = {
        {"the line before the kernel", KERNEL - LINE_SIZE, 0, 0, REKUSOYEN_ACCEPTED},
        {"the line's zero in the kernel", KERNEL - LINE_SIZE + 1, 0, 0, REKUSOYEN_KERNEL_MEETS_LINE},
        {"the line after the kernel's bytes", KERNEL + KERNEL_SIZE, 0, 0, REKUSOYEN_KERNEL_MEETS_LINE},
        {"the line in the kernel's last byte", KERNEL + MEMORY - 1, 0, 0, REKUSOYEN_KERNEL_MEETS_LINE},
        {"the line after the kernel", KERNEL + MEMORY, 0, 0, REKUSOYEN_ACCEPTED},
        {"the ramdisk before the kernel", 0, KERNEL - RAMDISK_SIZE, 0, REKUSOYEN_ACCEPTED},
        {"the ramdisk in the kernel's first byte", 0, KERNEL - RAMDISK_SIZE + 1, 0, REKUSOYEN_KERNEL_MEETS_RAMDISK},
        {"the ramdisk in the kernel's last byte", 0, KERNEL + MEMORY - 1, 0, REKUSOYEN_KERNEL_MEETS_RAMDISK},
        {"the ramdisk after the kernel", 0, KERNEL + MEMORY, 0, REKUSOYEN_ACCEPTED},
        {"boot data in the kernel", 0, 0, KERNEL + MEMORY - 1, REKUSOYEN_KERNEL_MEETS_BOOT_DATA},
        {"the ramdisk after the line", 0, LINE + LINE_SIZE, 0, REKUSOYEN_ACCEPTED},
        {"the ramdisk in the line's zero", 0, LINE + LINE_SIZE - 1, 0, REKUSOYEN_LINE_MEETS_RAMDISK},
        {"boot data after the line", DATA - LINE_SIZE, 0, 0, REKUSOYEN_ACCEPTED},
        {"boot data in the line's zero", DATA - LINE_SIZE + 1, 0, 0, REKUSOYEN_LINE_MEETS_BOOT_DATA},
        {"boot data after the ramdisk", 0, DATA - RAMDISK_SIZE, 0, REKUSOYEN_ACCEPTED},
        {"boot data in the ramdisk", 0, DATA - RAMDISK_SIZE + 1, 0, REKUSOYEN_RAMDISK_MEETS_BOOT_DATA},
        {"the ramdisk in boot data", 0, DATA + TREE_SIZE - 1, 0, REKUSOYEN_RAMDISK_MEETS_BOOT_DATA},
    };
    for (EACH_BY(by))
        for (size_t i = 0; i < sizeof pairs / sizeof pairs[0]; i++) {
            /* with a device tree the line is in it */
            const int has_line = by != BY_TREE || pairs[i].line_at == 0;
            const uint64_t near_line = LINE + LINE_SIZE - 1;
            if (has_line && !(by == BY_TREE && pairs[i].ramdisk_at == near_line))
                check_at(
                    pairs[i].what, by, pairs[i].line_at, pairs[i].ramdisk_at, pairs[i].data_at, pairs[i].answer);
        }
}

static void check_ramdisks(void)
{
    struct setup setup = setup_by(BY_PAGE_32);
    put_number(&setup.image, INITRD_ADDR_MAX, 4, RAMDISK + RAMDISK_SIZE - 1);
    check_boot("a ramdisk up to initrd_addr_max", &setup, REKUSOYEN_ACCEPTED);
    put_number(&setup.image, INITRD_ADDR_MAX, 4, RAMDISK + RAMDISK_SIZE - 2);
    check_boot("a ramdisk above initrd_addr_max", &setup, REKUSOYEN_RAMDISK_TOO_HIGH);
    put_number(&setup.image, VERSION, 2, 0x202);
    setup.boot.ramdisk_at = 0x38000000 - RAMDISK_SIZE;
    check_boot("up to the limit of protocol 2.02", &setup, REKUSOYEN_RAMDISK_OUTSIDE);
    setup.boot.ramdisk_at++;
    check_boot("above the limit of protocol 2.02", &setup, REKUSOYEN_RAMDISK_TOO_HIGH);
    check_at("ELF up to 4 GiB", BY_PAGE_64_ELF, 0, GIB4 - RAMDISK_SIZE, 0, REKUSOYEN_RAMDISK_OUTSIDE);
    check_at("ELF above 4 GiB", BY_PAGE_64_ELF, 0, GIB4 - RAMDISK_SIZE + 1, 0, REKUSOYEN_RAMDISK_TOO_HIGH);
    check_at("PVH above 4 GiB", BY_PVH, 0, GIB4, 0, REKUSOYEN_RAMDISK_OUTSIDE);
    check_at("arm64 above 4 GiB", BY_TREE, 0, GIB4, 0, REKUSOYEN_RAMDISK_OUTSIDE);
}

static void check_rows(void)
{
    const struct {
        const char *what;
        uint64_t start, end;
        uint32_t answer;
    } rows[] = {
        {"from the kernel up to the ramdisk", KERNEL, RAMDISK + RAMDISK_SIZE, REKUSOYEN_ACCEPTED},
        {"after the kernel's first byte", KERNEL + 1, GUEST, REKUSOYEN_KERNEL_NOT_IN_ROWS},
        {"before the kernel's last byte", KERNEL, KERNEL + MEMORY - 1, REKUSOYEN_KERNEL_NOT_IN_ROWS},
        {"up to the kernel's last byte", KERNEL, KERNEL + MEMORY, REKUSOYEN_LINE_NOT_IN_ROWS},
        {"before the line's zero", KERNEL, LINE + LINE_SIZE - 1, REKUSOYEN_LINE_NOT_IN_ROWS},
        {"up to the line's zero", KERNEL, LINE + LINE_SIZE, REKUSOYEN_RAMDISK_NOT_IN_ROWS},
        {"before the ramdisk's last byte", KERNEL, RAMDISK + RAMDISK_SIZE - 1, REKUSOYEN_RAMDISK_NOT_IN_ROWS},
    };
    for (EACH_BY(by)) {
        struct setup setup = setup_by(by);
        if (by == BY_TREE) {
            set_row(&setup, 0, 0, 0);
            check_boot("rows with a device tree", &setup, REKUSOYEN_ACCEPTED);
            continue;
        }
        for (size_t i = 0; i < sizeof rows / sizeof rows[0]; i++) {
            set_row(&setup, rows[i].start, rows[i].end - rows[i].start, 1);
            check_boot(rows[i].what, &setup, rows[i].answer);
            set_row(&setup, rows[i].start, rows[i].end - rows[i].start, 2);
            check_boot("a row of another type", &setup, REKUSOYEN_KERNEL_NOT_IN_ROWS);
        }
        set_row(&setup, 0, LINE + 1, 1);
        add_row(&setup, LINE + 1, GUEST, 1);
        check_boot("the line in two rows that touch", &setup, REKUSOYEN_LINE_NOT_IN_ROWS);
        setup.boot.rows_len = 0;
        check_boot("no rows", &setup, REKUSOYEN_KERNEL_NOT_IN_ROWS);
    }
}

/* ---- the order, and what the inline functions check */

/* Every defect at once, and each repaired in turn: the refusals come in the order in which they are checked. */
static void check_order(void)
{
    static const char *const what = "every defect, repaired in turn";
    struct setup setup = setup_by(BY_PAGE_64);
    struct rekusoyen_boot *const boot = &setup.boot;
    boot->entry = 4;
    boot->format = REKUSOYEN_UNKNOWN;
    boot->line_at = GIB4;
    setup.map[1] = GUEST + 1;
    put_number(&setup.image, HEADER_MAGIC, 1, 'h');
    put_number(&setup.image, XLOADFLAGS, 2, 0);
    put_number(&setup.image, INITRD_ADDR_MAX, 4, GUEST);
    put_number(&setup.image, CMDLINE_SIZE, 4, 1);
    put_number(&setup.image, INIT_SIZE, 4, GUEST);
    setup.text = "";
    set_row(&setup, 0, 0, 1);
    boot->ramdisk_at = GUEST;
    check_boot(what, &setup, REKUSOYEN_BAD_LIST);
    boot->entry = REKUSOYEN_ENTRY_ZERO_PAGE;
    check_boot(what, &setup, REKUSOYEN_BAD_LIST);
    boot->line_at = GUEST - 1;
    check_boot(what, &setup, REKUSOYEN_BAD_LIST);
    boot->format = REKUSOYEN_BZIMAGE;
    check_boot(what, &setup, REKUSOYEN_BAD_MAP);
    setup.map[1] = GUEST;
    check_boot(what, &setup, REKUSOYEN_INVALID_BZ_IMAGE);
    put_number(&setup.image, HEADER_MAGIC, 1, 'H');
    check_boot(what, &setup, REKUSOYEN_NO_64_BIT_ENTRY);
    put_number(&setup.image, XLOADFLAGS, 2, 1);
    check_boot(what, &setup, REKUSOYEN_INVALID_COMMAND_LINE);
    setup.text = FIRST_TEXT;
    check_boot(what, &setup, REKUSOYEN_COMMAND_LINE_OVERFLOW);
    boot->line_at = DATA;
    check_boot(what, &setup, REKUSOYEN_BAD_ROW);
    set_row(&setup, 0, 1, 1);
    check_boot(what, &setup, REKUSOYEN_RAMDISK_TOO_HIGH);
    put_number(&setup.image, INITRD_ADDR_MAX, 4, TOP);
    check_boot(what, &setup, REKUSOYEN_LINE_TOO_LONG);
    put_number(&setup.image, CMDLINE_SIZE, 4, TOP);
    check_boot(what, &setup, REKUSOYEN_KERNEL_OUTSIDE);
    put_number(&setup.image, INIT_SIZE, 4, GUEST - KERNEL);
    check_boot(what, &setup, REKUSOYEN_RAMDISK_OUTSIDE);
    boot->ramdisk_at = DATA;
    boot->data_at = GUEST - REKUSOYEN_PAGE_SIZE + 1;
    check_boot(what, &setup, REKUSOYEN_BOOT_DATA_OUTSIDE);
    boot->data_at = DATA;
    check_boot(what, &setup, REKUSOYEN_KERNEL_MEETS_LINE);
    boot->line_at = KERNEL - LINE_SIZE;
    check_boot(what, &setup, REKUSOYEN_KERNEL_MEETS_RAMDISK);
    boot->ramdisk_at = KERNEL - LINE_SIZE;
    check_boot(what, &setup, REKUSOYEN_KERNEL_MEETS_BOOT_DATA);
    boot->data_at = 1;
    put_number(&setup.image, INIT_SIZE, 4, MEMORY);
    check_boot(what, &setup, REKUSOYEN_KERNEL_MEETS_BOOT_DATA);
    boot->data_at = 0;
    check_boot(what, &setup, REKUSOYEN_LINE_MEETS_RAMDISK);
    boot->ramdisk_at = 1;
    check_boot(what, &setup, REKUSOYEN_LINE_MEETS_BOOT_DATA);
    boot->line_at = LINE;
    check_boot(what, &setup, REKUSOYEN_RAMDISK_MEETS_BOOT_DATA);
    boot->ramdisk_at = RAMDISK;
    check_boot(what, &setup, REKUSOYEN_KERNEL_NOT_IN_ROWS);
    set_row(&setup, KERNEL, MEMORY, 1);
    check_boot(what, &setup, REKUSOYEN_LINE_NOT_IN_ROWS);
    add_row(&setup, LINE, LINE_SIZE, 1);
    check_boot(what, &setup, REKUSOYEN_RAMDISK_NOT_IN_ROWS);
    add_row(&setup, RAMDISK, RAMDISK_SIZE, 1);
    check_boot(what, &setup, REKUSOYEN_ACCEPTED);
}

/* Numbers that the raw calls cannot be given. */
static void check_fits(void)
{
    for (EACH_BY(by)) {
        struct setup setup = setup_by(by);
        setup.boot.entry = 0;
        check_boot("no entry", &setup, REKUSOYEN_BAD_LIST);
        setup = setup_by(by);
        setup.boot.format = REKUSOYEN_ARM64 + 1;
        check_boot("no format", &setup, REKUSOYEN_BAD_LIST);
        if (setup.boot.entry == REKUSOYEN_ENTRY_ZERO_PAGE) {
            check_at("a line above 4 GiB", by, GIB4 + LINE, 0, 0, REKUSOYEN_BAD_LIST);
            check_at("a ramdisk above 4 GiB", by, 0, GIB4 + RAMDISK, 0, REKUSOYEN_BAD_LIST);
        } else if (by == BY_PVH) {
            check_at("a line above 4 GiB", by, GIB4 + LINE, 0, 0, REKUSOYEN_COMMAND_LINE_OVERFLOW);
        }
        check_at(
            "boot data above 4 GiB", by, 0, 0, GIB4 + DATA,
            by == BY_TREE ? REKUSOYEN_BOOT_DATA_OUTSIDE : REKUSOYEN_BAD_LIST);
    }
}

/* The lists of seven numbers, before all else; and a ramdisk of 2^32 bytes, which only a plan can be given. */
static void check_raw(void)
{
    struct lent booted = lend_list(REKUSOYEN_BOOTED_NUMBERS + 1);
    uint64_t *const list = numbers_of(&booted);
    for (size_t n = 0; n <= REKUSOYEN_BOOTED_NUMBERS + 1; n++) {
        const uint32_t expected = n == REKUSOYEN_BOOTED_NUMBERS ? REKUSOYEN_BAD_LIST : REKUSOYEN_NO_ROOM;
        CHECK_ANSWER(
            "page", rekusoyen_raw_boot_zero_page(
                        NULL, 0, NULL, 0, NULL, 0, 0, 0, 0, 0, 0, NULL, 0, NULL, 0, NULL, 0, NULL, 0, 0, 0, 0, list, n),
            expected);
        CHECK_ANSWER(
            "PVH", rekusoyen_raw_boot_pvh(
                       NULL, 0, NULL, 0, NULL, 0, 0, 0, 0, 0, 0, NULL, 0, NULL, 0, NULL, 0, NULL, 0, 0, 0, 0, 0, list,
                       n),
            expected);
        CHECK_ANSWER(
            "tree", rekusoyen_raw_boot_tree(
                        NULL, 0, NULL, 0, NULL, 0, 0, 0, 0, 0, 0, NULL, 0, NULL, 0, NULL, 0, 0, 0, 0, list, n),
            expected);
        CHECK_ANSWER(
            "page", rekusoyen_raw_boot_zero_page_plan(
                        0, NULL, 0, NULL, 0, 0, 0, 0, 0, 0, NULL, 0, NULL, 0, 0, NULL, 0, 0, 0, 0, list, n),
            expected);
        CHECK_ANSWER(
            "PVH", rekusoyen_raw_boot_pvh_plan(
                       0, NULL, 0, NULL, 0, 0, 0, 0, 0, 0, NULL, 0, NULL, 0, 0, NULL, 0, 0, 0, 0, 0, list, n),
            expected);
        CHECK_ANSWER(
            "tree", rekusoyen_raw_boot_tree_plan(
                        0, NULL, 0, NULL, 0, 0, 0, 0, 0, 0, NULL, 0, 0, NULL, 0, 0, 0, 0, list, n),
            expected);
    }
    CHECK_KEPT("refused", &booted);
    const struct setup setup = setup_by(BY_PAGE_64_ELF);
    struct rekusoyen_boot boot = setup.boot;
    struct rekusoyen_booted result;
    boot.image = setup.image.bytes;
    boot.image_len = setup.image.size;
    boot.rows = setup.rows;
    boot.ramdisk_at = 0;
    boot.ramdisk_len = UINT32_MAX;
    CHECK_ANSWER("4 GiB less 1", rekusoyen_boot_plan(GUEST, setup.map, 2, &boot, &result), REKUSOYEN_RAMDISK_OUTSIDE);
    boot.ramdisk_len++;
    CHECK_ANSWER("4 GiB", rekusoyen_boot_plan(GUEST, setup.map, 2, &boot, &result), REKUSOYEN_RAMDISK_TOO_HIGH);
}

/* Each slice in turn without elements, from NULL. */
static void check_empty(void)
{
    static const uint32_t no_memory[] = {
        0, REKUSOYEN_READ_KERNEL_IMAGE, REKUSOYEN_READ_BZ_IMAGE_COMPRESSED_KERNEL, REKUSOYEN_NO_ROOM_FOR_IMAGE};
    static const uint32_t no_image[] = {
        0, REKUSOYEN_READ_ELF_HEADER, REKUSOYEN_INVALID_BZ_IMAGE, REKUSOYEN_SHORT_IMAGE};
    for (EACH_BY(by)) {
        const struct setup setup = setup_by(by);
        const int is_tree = by == BY_TREE;
        struct rekusoyen_booted booted;
        struct rekusoyen_boot whole = setup.boot, boot;
        struct lent guest = lend_filled(GUEST);
        whole.image = setup.image.bytes;
        whole.image_len = setup.image.size;
        whole.rows = setup.rows;
        whole.ramdisk = setup.ramdisk;
        whole.tree = setup.tree;
        whole.line.boot = (const uint8_t *)setup.text;
        whole.line.boot_len = strlen(setup.text);
        CHECK_ANSWER("guest", rekusoyen_boot(NULL, 0, NULL, 0, &whole, &booted), no_memory[whole.format]);
        CHECK_ANSWER("map", rekusoyen_boot(guest.bytes, GUEST, NULL, 0, &whole, &booted), no_memory[whole.format]);
        boot = whole;
        boot.image = NULL;
        boot.image_len = 0;
        CHECK_ANSWER(
            "image", rekusoyen_boot(guest.bytes, GUEST, setup.map, 2, &boot, &booted), no_image[whole.format]);
        boot = whole;
        boot.rows = NULL;
        boot.rows_len = 0;
        if (!is_tree)
            CHECK_ANSWER(
                "rows", rekusoyen_boot(guest.bytes, GUEST, setup.map, 2, &boot, &booted), REKUSOYEN_KERNEL_NOT_IN_ROWS);
        boot = whole;
        boot.tree = NULL;
        boot.tree_len = 0;
        if (is_tree)
            CHECK_ANSWER(
                "tree", rekusoyen_boot(guest.bytes, GUEST, setup.map, 2, &boot, &booted), REKUSOYEN_LINE_NOT_IN_TREE);
        CHECK_KEPT("refused", &guest);
        guest = lend_filled(GUEST);
        boot = whole;
        boot.ramdisk = NULL;
        boot.ramdisk_len = 0;
        boot.line.boot = is_tree ? whole.line.boot : NULL;
        boot.line.boot_len = is_tree ? whole.line.boot_len : 0;
        boot.rows = is_tree ? NULL : whole.rows;
        boot.tree = is_tree ? whole.tree : NULL;
        CHECK_ANSWER(
            "ramdisk and texts", rekusoyen_boot(guest.bytes, GUEST, setup.map, 2, &boot, &booted), REKUSOYEN_ACCEPTED);
        CHECK_LEFT("ramdisk and texts", &guest, guest.bytes);
    }
}

void test_boots(void)
{
    check_accepted();
    check_empty();
    check_entries();
    check_line_limits();
    check_texts();
    check_room();
    check_apart();
    check_ramdisks();
    check_rows();
    check_order();
    check_fits();
    check_raw();
}
