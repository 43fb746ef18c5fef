/*
 * Fills guest memory by one call of the library, and writes it to files for QEMU: what is not zero of it, and a ROM
 * that enters the kernel as its boot protocol says. Prints QEMU's words for them, one a line. A refusal is printed as
 * `refused NUMBER NAME`, with status 1; nothing is written then.
 *
 * usage: fill page32|page64|pvh IMAGE RAMDISK LINE FOLDER
 *        fill tree IMAGE RAMDISK LINE FOLDER TREE
 * LINE is a file with the command line, without a zero. TREE is a device tree that has the line, and names the ramdisk.
 */
#include "../../c/rekusoyen.h"

#include <inttypes.h>
#include <stdio.h>
#include <stdlib.h>
#include <string.h>
#include <sys/mman.h>

#define MIB ((uint64_t)1 << 20)
#define PAGE ((uint64_t)4096)

/* Memory of QEMU's machine pc with -m 256M, without the hole for devices and ROM; and of virt with -m 512M. The first
 * 2 MiB of the latter are QEMU's own. */
static const uint64_t pc_map[] = {0, 0xa0000, MIB, 255 * MIB};
static const uint64_t virt_map[] = {1026 * MIB, 510 * MIB};

/* Where page or start block and the line go on a pc, and the tables that the ROM makes for 64-bit mode. */
enum { PC_DATA = 0x7000, PC_LINE = 0x20000, PC_TABLES = 0x80000 };

static void fail(const char *what)
{
    fprintf(stderr, "fill: %s\n", what);
    exit(2);
}

struct file {
    uint8_t *bytes;
    size_t size;
};

static struct file read_file(const char *name)
{
    struct file file = {NULL, 0};
    FILE *in = fopen(name, "rb");
    if (in == NULL || fseek(in, 0, SEEK_END) != 0)
        fail(name);
    file.size = (size_t)ftell(in);
    file.bytes = malloc(file.size + 1);
    rewind(in);
    if (file.bytes == NULL || fread(file.bytes, 1, file.size, in) != file.size)
        fail(name);
    fclose(in);
    return file;
}

static void write_file(const char *folder, const char *name, const void *bytes, size_t size)
{
    char path[4096];
    snprintf(path, sizeof path, "%s/%s", folder, name);
    FILE *out = fopen(path, "wb");
    if (out == NULL || fwrite(bytes, 1, size, out) != size || fclose(out) != 0)
        fail(path);
}

/* ---- a device tree */

static uint64_t number(const uint8_t *bytes, size_t size)
{
    uint64_t number = 0;
    for (size_t i = 0; i < size; i++)
        number = number << 8 | bytes[i];
    return number;
}

/* The offset of the value of the first property of a name in a flattened device tree, and its length. */
static size_t property(const struct file *tree, const char *name, size_t *length)
{
    enum { BEGIN = 1, END_NODE = 2, PROPERTY = 3, NOP = 4 };
    const char *const names = (const char *)tree->bytes + number(tree->bytes + 12, 4);
    size_t at = number(tree->bytes + 8, 4);
    for (;;) {
        const uint64_t token = number(tree->bytes + at, 4);
        at += 4;
        if (token == BEGIN) {
            at += strlen((const char *)tree->bytes + at) + 1;
        } else if (token == PROPERTY) {
            *length = number(tree->bytes + at, 4);
            const char *const found = names + number(tree->bytes + at + 4, 4);
            at += 8;
            if (strcmp(found, name) == 0)
                return at;
            at += *length;
        } else if (token != END_NODE && token != NOP) {
            fail("the device tree lacks a property");
        }
        at = (at + 3) / 4 * 4;
    }
}

/* ---- the ROMs */

/*
 * The end of a ROM of 64 KiB, from FFFFFE00 hex on: it goes to protected mode with flat segments, makes page tables and
 * goes to 64-bit mode if it is given an address for them, sets esi and ebx, clears ebp and edi, and enters the kernel.
 *
 *     .code16                             .code32                          leal 0x2000(%edx), %edi
 *     start:                              movl $0x18, %eax              2: movl %eax, (%edi)
 *     cli                                 movl %eax, %ds                   addl $0x200000, %eax
 *     lgdtl %cs:gdtr                      movl %eax, %es .. %ss            addl $8, %edi
 *     movl %cr0, %eax                     movl tables, %edi                loop 2b
 *     orb $1, %al                         movl %edi, %edx                  movl %edx, %cr3
 *     movl %eax, %cr0                     testl %edi, %edi                 movl $0x20, %eax
 *     ljmpl $8, $next                     jz enter                         movl %eax, %cr4
 *                                         xorl %eax, %eax                  movl $0xc0000080, %ecx
 *     gdt: 0, flat code of 32 bits,       movl $(6 * 1024), %ecx           rdmsr
 *     the kernel's code, flat data        rep stosl                        orl $0x100, %eax
 *     gdtr: 31, gdt                       leal 0x1003(%edx), %eax          wrmsr
 *     entry: address, 0x10                movl %eax, (%edx)                movl %cr0, %eax
 *     esi, ebx, tables                    leal 0x2003(%edx), %eax          orl $0x80000000, %eax
 *                                         movl $4, %ecx                    movl %eax, %cr0
 *     reset: jmp start                    leal 0x1000(%edx), %edi   enter: movl esi, %esi
 *                                      1: movl %eax, (%edi)                movl ebx, %ebx
 *                                         addl $0x1000, %eax               xorl %ebp, %ebp
 *                                         addl $8, %edi                    xorl %edi, %edi
 *                                         loop 1b                          ljmpl *entry
 *                                         movl $0x83, %eax
 *                                         movl $2048, %ecx
 */
static const uint8_t pc_code[] = {
    0xfa, 0x2e, 0x66, 0x0f, 0x01, 0x16, 0xa0, 0xff, 0x0f, 0x20, 0xc0, 0x0c, 0x01, 0x0f, 0x22, 0xc0,
    0x66, 0xea, 0x18, 0xfe, 0xff, 0xff, 0x08, 0x00, 0xb8, 0x18, 0x00, 0x00, 0x00, 0x8e, 0xd8, 0x8e,
    0xc0, 0x8e, 0xe0, 0x8e, 0xe8, 0x8e, 0xd0, 0x8b, 0x3d, 0xd0, 0xff, 0xff, 0xff, 0x89, 0xfa, 0x85,
    0xff, 0x74, 0x6e, 0x31, 0xc0, 0xb9, 0x00, 0x18, 0x00, 0x00, 0xf3, 0xab, 0x8d, 0x82, 0x03, 0x10,
    0x00, 0x00, 0x89, 0x02, 0x8d, 0x82, 0x03, 0x20, 0x00, 0x00, 0xb9, 0x04, 0x00, 0x00, 0x00, 0x8d,
    0xba, 0x00, 0x10, 0x00, 0x00, 0x89, 0x07, 0x05, 0x00, 0x10, 0x00, 0x00, 0x83, 0xc7, 0x08, 0xe2,
    0xf4, 0xb8, 0x83, 0x00, 0x00, 0x00, 0xb9, 0x00, 0x08, 0x00, 0x00, 0x8d, 0xba, 0x00, 0x20, 0x00,
    0x00, 0x89, 0x07, 0x05, 0x00, 0x00, 0x20, 0x00, 0x83, 0xc7, 0x08, 0xe2, 0xf4, 0x0f, 0x22, 0xda,
    0xb8, 0x20, 0x00, 0x00, 0x00, 0x0f, 0x22, 0xe0, 0xb9, 0x80, 0x00, 0x00, 0xc0, 0x0f, 0x32, 0x0d,
    0x00, 0x01, 0x00, 0x00, 0x0f, 0x30, 0x0f, 0x20, 0xc0, 0x0d, 0x00, 0x00, 0x00, 0x80, 0x0f, 0x22,
    0xc0, 0x8b, 0x35, 0xc8, 0xff, 0xff, 0xff, 0x8b, 0x1d, 0xcc, 0xff, 0xff, 0xff, 0x31, 0xed, 0x31,
    0xff, 0xff, 0x2d, 0xc0, 0xff, 0xff, 0xff,
};
enum { ROM_SIZE = 65536, CODE = 0xfe00, GDT = 0xff80, OWN_CODE = GDT + 16, GDTR = GDT + 32 };
enum { ENTRY = 0xffc0, ESI = 0xffc8, EBX = 0xffcc, TABLES = 0xffd0, RESET = 0xfff0 };

static void put(uint8_t *bytes, uint64_t value, size_t size)
{
    for (size_t i = 0; i < size; i++)
        bytes[i] = (uint8_t)(value >> 8 * i);
}

static void write_pc_rom(const char *folder, const struct rekusoyen_boot *boot, uint64_t entry)
{
    static uint8_t rom[ROM_SIZE];
    const int is_long = (boot->flags & REKUSOYEN_ENTRY_64_BIT) != 0, is_pvh = boot->entry == REKUSOYEN_ENTRY_PVH;
    const uint64_t code_32 = 0x00cf9b000000ffff, code_64 = 0x00af9b000000ffff, data = 0x00cf93000000ffff;
    memcpy(rom + CODE, pc_code, sizeof pc_code);
    put(rom + GDT + 8, code_32, 8);
    put(rom + OWN_CODE, is_long ? code_64 : code_32, 8);
    put(rom + GDT + 24, data, 8);
    put(rom + GDTR, 31, 2);
    put(rom + GDTR + 2, 0xffff0000 + GDT, 4);
    put(rom + ENTRY, entry, 4);
    put(rom + ENTRY + 4, 0x10, 2);
    put(rom + ESI, is_pvh ? 0 : boot->data_at, 4);
    put(rom + EBX, is_pvh ? boot->data_at : 0, 4);
    put(rom + TABLES, is_long ? PC_TABLES : 0, 4);
    rom[RESET] = 0xe9; /* jmp, by the distance from its end */
    put(rom + RESET + 1, (uint16_t)(CODE - RESET - 3), 2);
    write_file(folder, "rom", rom, sizeof rom);
}

/* ldr x0, tree; mov x1, x2 and x3, xzr; ldr x4, entry; br x4; tree, entry: numbers of 8 bytes. */
static void write_virt_rom(const char *folder, const struct rekusoyen_boot *boot, uint64_t entry)
{
    static const uint32_t code[] = {0x580000c0, 0xaa1f03e1, 0xaa1f03e2, 0xaa1f03e3, 0x58000084, 0xd61f0080};
    uint8_t rom[40];
    for (size_t i = 0; i < 6; i++)
        put(rom + 4 * i, code[i], 4);
    put(rom + 24, boot->data_at, 8);
    put(rom + 32, entry, 8);
    write_file(folder, "rom", rom, sizeof rom);
}

/* ---- guest memory */

static int is_zero(const uint8_t *page)
{
    return page[0] == 0 && memcmp(page, page + 1, PAGE - 1) == 0;
}

/* Writes the stretches of guest memory that are not zero, and prints QEMU's words for them. */
static void write_memory(const char *folder, const uint8_t *guest, const uint64_t *map, size_t map_len)
{
    int count = 0;
    for (size_t i = 0; i < map_len; i += 2) {
        const uint64_t end = map[i] + map[i + 1];
        for (uint64_t at = map[i]; at < end; at += PAGE) {
            const uint64_t start = at;
            while (at < end && !is_zero(guest + at))
                at += PAGE;
            if (at == start)
                continue;
            char name[32];
            snprintf(name, sizeof name, "part-%d", count++);
            write_file(folder, name, guest + start, at - start);
            printf("-device\nloader,file=%s/%s,addr=0x%" PRIx64 ",force-raw=on\n", folder, name, start);
        }
    }
    printf("-bios\n%s/rom\n", folder);
}

/* ---- the boot */

int main(int count, char **words)
{
    if (count != 6 && count != 7)
        fail("usage: fill page32|page64|pvh|tree IMAGE RAMDISK LINE FOLDER [TREE]");
    const char *const by = words[1], *const folder = words[5];
    const int is_tree = strcmp(by, "tree") == 0;
    const struct file image = read_file(words[2]), ramdisk = read_file(words[3]), line = read_file(words[4]);
    const struct file tree = is_tree && count == 7 ? read_file(words[6]) : (struct file){NULL, 0};
    const uint64_t *const map = is_tree ? virt_map : pc_map;
    const size_t map_len = is_tree ? 2 : 4;
    const uint64_t size = map[map_len - 2] + map[map_len - 1];
    uint64_t rows[] = {0, 0x9fc00, 1, 0, 0, 0, 0, 0};

    struct rekusoyen_boot boot = {
        .image = image.bytes, .image_len = image.size, .format = rekusoyen_kind(image.bytes, image.size),
        .line = {line.bytes, line.size, NULL, 0}, .ramdisk = ramdisk.bytes, .ramdisk_len = ramdisk.size, .rows = rows,
        .tree = tree.bytes, .tree_len = tree.size};
    if (is_tree) {
        struct rekusoyen_plan plan;
        size_t length;
        boot.entry = REKUSOYEN_ENTRY_TREE;
        boot.flags = REKUSOYEN_OFFSET_GIVEN;
        boot.offset = map[0];
        boot.line_at = property(&tree, "bootargs", &length);
        const size_t at = property(&tree, "linux,initrd-start", &length);
        boot.ramdisk_at = number(tree.bytes + at, length);
        if (rekusoyen_plan(
                size, map, map_len, boot.image, boot.image_len, boot.format, boot.flags, boot.offset, 0, &plan) != 0)
            fail("the kernel cannot be loaded");
        const uint64_t placed[] = {
            plan.kernel.load, plan.kernel.end - plan.kernel.load, boot.ramdisk_at, boot.ramdisk_len};
        if (rekusoyen_place(size, map, map_len, placed, 4, 0, size, 8, tree.size, &boot.data_at) != 0)
            fail("there is no room for the tree");
    } else {
        const int is_pvh = strcmp(by, "pvh") == 0;
        const size_t width = is_pvh ? 4 : 3;
        boot.entry = is_pvh ? REKUSOYEN_ENTRY_PVH : REKUSOYEN_ENTRY_ZERO_PAGE;
        boot.flags = strcmp(by, "page64") == 0 ? REKUSOYEN_ENTRY_64_BIT : 0;
        boot.line_at = PC_LINE;
        boot.data_at = PC_DATA;
        rows[width] = pc_map[2];
        rows[width + 1] = pc_map[3];
        rows[width + 2] = 1;
        boot.rows_len = 2 * width;
        if (rekusoyen_place_high(size, map, map_len, NULL, 0, MIB, size, PAGE, ramdisk.size, &boot.ramdisk_at) != 0)
            fail("there is no room for the ramdisk");
    }

    uint8_t *const guest = mmap(NULL, size, PROT_READ | PROT_WRITE, MAP_PRIVATE | MAP_ANONYMOUS | MAP_NORESERVE, -1, 0);
    if (guest == MAP_FAILED)
        fail("no memory for the guest");
    struct rekusoyen_booted booted;
    const uint32_t answer = rekusoyen_boot(guest, size, map, map_len, &boot, &booted);
    if (answer != REKUSOYEN_ACCEPTED) {
        printf("refused %" PRIu32 " %s\n", answer, rekusoyen_answer_name(answer));
        return 1;
    }
    if (is_tree)
        write_virt_rom(folder, &boot, booted.entry);
    else
        write_pc_rom(folder, &boot, booted.entry);
    write_memory(folder, guest, map, map_len);
    return 0;
}
