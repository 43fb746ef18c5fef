/*
 * Loads a kernel image of any format from standard input into guest memory, and a command line with it.
 *
 * build: cc example.c $(pkg-config --cflags --libs rekusoyen) -o example
 * usage: example < IMAGE
 */
#include "rekusoyen.h"

#include <inttypes.h>
#include <stdio.h>
#include <stdlib.h>

/* The size of guest memory, above that of every image taken here, and where the line goes. */
#define SIZE ((size_t)64 << 20)
#define LINE_ADDRESS 0x20000

int main(void)
{
    static uint8_t line[REKUSOYEN_LINE_SIZE];
    const uint64_t map[] = {0, SIZE}; /* one range: guest memory has no hole */
    struct rekusoyen_kernel kernel;
    uint8_t *image = malloc(SIZE), *guest = calloc(SIZE, 1);
    if (image == NULL || guest == NULL)
        return 1;
    size_t image_len = fread(image, 1, SIZE, stdin);
    if (!feof(stdin)) {
        fputs("example: the image was not read to its end\n", stderr);
        return 1;
    }

    uint32_t format = rekusoyen_kind(image, image_len);
    if (format == REKUSOYEN_UNKNOWN) {
        fputs("example: this is neither an ELF image nor a bzImage nor an arm64 Image\n", stderr);
        return 1;
    }
    uint32_t answer = rekusoyen_load(guest, SIZE, map, 2, image, image_len, format, 0, 0, 0, &kernel);
    if (answer == REKUSOYEN_ACCEPTED)
        answer = rekusoyen_line_new(line, sizeof line, 256);
    if (answer == REKUSOYEN_ACCEPTED)
        answer = rekusoyen_line_insert(line, sizeof line, (const uint8_t *)"console", 7, (const uint8_t *)"ttyS0", 5);
    if (answer == REKUSOYEN_ACCEPTED)
        answer = rekusoyen_line_load(guest, SIZE, map, 2, LINE_ADDRESS, line, sizeof line);
    if (answer != REKUSOYEN_ACCEPTED) {
        fprintf(stderr, "example: refused, %" PRIu32 " %s: %s\n",
                answer, rekusoyen_answer_name(answer), rekusoyen_answer_sentence(answer));
        return 1;
    }
    printf("load %" PRIu64 ", end %" PRIu64 ", pvh %" PRIu64 " at %" PRIu64 ", line %s\n",
           kernel.load, kernel.end, kernel.pvh, kernel.pvh_entry, (const char *)guest + LINE_ADDRESS);
    return 0;
}
