/* Images, built field by field. */
#ifndef IMAGES_H
#define IMAGES_H

#include <stddef.h>
#include <stdint.h>

struct image {
    uint8_t bytes[4096];
    size_t size;
};

/* Puts a number of `width` bytes, the least first. */
void put_number(struct image *image, size_t place, size_t width, uint64_t number);

/* Such a number; bytes past the end of the image are 0. */
uint64_t get_number(const struct image *image, size_t place, size_t width);

/* Puts bytes after those that are there. */
void append(struct image *image, const void *bytes, size_t size);

/* Fields of the ELF header and of a program header, and the sizes of both. */
enum { EI_DATA = 5, E_ENTRY = 24, E_PHOFF = 32, E_PHENTSIZE = 54, E_PHNUM = 56, ELF_HEADER_SIZE = 64 };
enum { P_TYPE = 0, P_OFFSET = 8, P_PADDR = 24, P_FILESZ = 32, P_MEMSZ = 40, PROGRAM_HEADER_SIZE = 56 };

/* Types of program headers. */
enum { LOADABLE = 1, DYNAMIC = 2, NOTES = 4 };

struct program_header {
    uint32_t type;
    uint64_t offset; /* from the start of the body on */
    uint64_t paddr;
    uint64_t filesz;
    uint64_t memsz;
};

/* An ELF image: its header, the program headers, the body. */
struct image elf_image(uint64_t entry, const struct program_header *headers, size_t count, const void *body, size_t size);

/* The smallest one that loads something: AA BB CC hex to address 16, in a segment of 8 bytes. */
struct image small_elf(void);

/* A job of the desk program: this image, and if it is not NULL this line. */
struct image job_of(const struct image *image, const char *line);

/* Puts the 12 bytes of a note's header, and its name and descriptor, each filled up to a multiple of 4. */
enum { NOTE_HEADER_SIZE = 12, PVH_NOTE_TYPE = 18 };

void append_note(struct image *image, uint32_t type, const char *name, uint32_t name_size, const char *text, uint32_t text_size);

/* Where the setup header begins, and fields of it. */
enum { SETUP_HEADER = 0x1f1 };
enum { SETUP_SECTS = 0x1f1, HEADER_MAGIC = 0x202, VERSION = 0x206, LOADFLAGS = 0x211, CODE32_START = 0x214 };

/* A bzImage of protocol 2.15, loaded high: a setup of so many sectors, all whose bytes hold something, and the kernel. */
struct image bz_image(uint8_t sectors, uint32_t start, const void *kernel, size_t size);

/* Fields of the header of an arm64 Image. */
enum { TEXT_OFFSET = 8, IMAGE_SIZE = 16, FLAGS = 24, MAGIC = 56, ARM64_HEADER_SIZE = 64 };

/* An arm64 Image that is a header alone, all of whose bytes hold something. */
struct image arm64_image(uint64_t text_offset, uint64_t image_size);

#endif
