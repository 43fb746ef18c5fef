#include "images.h"

#include <string.h>

void put_number(struct image *image, size_t place, size_t width, uint64_t number)
{
    for (size_t i = 0; i < width; i++)
        image->bytes[place + i] = (uint8_t)(number >> (8 * i));
}

uint64_t get_number(const struct image *image, size_t place, size_t width)
{
    uint64_t number = 0;
    for (size_t i = width; i-- > 0;)
        number = number << 8 | (place + i < image->size ? image->bytes[place + i] : 0);
    return number;
}

void append(struct image *image, const void *bytes, size_t size)
{
    if (size != 0)
        memcpy(image->bytes + image->size, bytes, size);
    image->size += size;
}

struct image elf_image(uint64_t entry, const struct program_header *headers, size_t count, const void *body, size_t size)
{
    struct image image = {{0x7f, 'E', 'L', 'F'}, ELF_HEADER_SIZE + count * PROGRAM_HEADER_SIZE};
    put_number(&image, EI_DATA, 1, 1);
    put_number(&image, E_ENTRY, 8, entry);
    put_number(&image, E_PHOFF, 8, ELF_HEADER_SIZE);
    put_number(&image, E_PHENTSIZE, 2, PROGRAM_HEADER_SIZE);
    put_number(&image, E_PHNUM, 2, count);
    for (size_t i = 0; i < count; i++) {
        size_t place = ELF_HEADER_SIZE + i * PROGRAM_HEADER_SIZE;
        put_number(&image, place + P_TYPE, 4, headers[i].type);
        put_number(&image, place + P_OFFSET, 8, image.size + headers[i].offset);
        put_number(&image, place + P_PADDR, 8, headers[i].paddr);
        put_number(&image, place + P_FILESZ, 8, headers[i].filesz);
        put_number(&image, place + P_MEMSZ, 8, headers[i].memsz);
    }
    append(&image, body, size);
    return image;
}

struct image small_elf(void)
{
    const struct program_header header = {LOADABLE, 0, 16, 3, 8};
    return elf_image(16, &header, 1, "\xaa\xbb\xcc", 3);
}

struct image job_of(const struct image *image, const char *line)
{
    struct image job = {.size = line != NULL ? 28 : 16};
    const uint64_t size = line != NULL ? strlen(line) : 0;
    const uint64_t table[] = {line != NULL ? 2 : 1, 1, job.size, image->size, 3, job.size + image->size, size};
    for (size_t i = 0; i < job.size / 4; i++)
        put_number(&job, 4 * i, 4, table[i]);
    append(&job, image->bytes, image->size);
    if (line != NULL)
        append(&job, line, size);
    return job;
}

static void append_filled_up(struct image *image, const char *bytes, uint32_t size)
{
    append(image, bytes, size);
    append(image, "\0\0\0", (4 - size % 4) % 4);
}

void append_note(struct image *image, uint32_t type, const char *name, uint32_t name_size, const char *text, uint32_t text_size)
{
    put_number(image, image->size, 4, name_size);
    put_number(image, image->size + 4, 4, text_size);
    put_number(image, image->size + 8, 4, type);
    image->size += NOTE_HEADER_SIZE;
    append_filled_up(image, name, name_size);
    append_filled_up(image, text, text_size);
}

struct image bz_image(uint8_t sectors, uint32_t start, const void *kernel, size_t size)
{
    struct image image;
    image.size = ((sectors == 0 ? 4 : sectors) + 1) * 512;
    for (size_t i = 0; i < image.size; i++)
        image.bytes[i] = (uint8_t)(i * 29 + 3);
    put_number(&image, SETUP_SECTS, 1, sectors);
    memcpy(image.bytes + HEADER_MAGIC, "HdrS", 4);
    put_number(&image, VERSION, 2, 0x20f);
    put_number(&image, LOADFLAGS, 1, 1);
    put_number(&image, CODE32_START, 4, start);
    append(&image, kernel, size);
    return image;
}

struct image arm64_image(uint64_t text_offset, uint64_t image_size)
{
    struct image image = {{0}, ARM64_HEADER_SIZE};
    for (size_t i = 0; i < image.size; i++)
        image.bytes[i] = (uint8_t)(200 - i);
    put_number(&image, TEXT_OFFSET, 8, text_offset);
    put_number(&image, IMAGE_SIZE, 8, image_size);
    put_number(&image, FLAGS, 8, 0xfffffffffffffffe);
    memcpy(image.bytes + MAGIC, "ARM\x64", 4);
    return image;
}
