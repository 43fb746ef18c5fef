/* rekusoyen_elf_note. */
#include "check.h"
#include "images.h"
#include "tests.h"

/* A walk over the image that `notes_image` makes, and what is expected of it. */
struct walk {
    const char *what;
    uint64_t p_offset, p_filesz;
    size_t image_len;
    size_t out_len;
    uint32_t answer;
    struct rekusoyen_note note;
};

/* Where each note begins, and the end of the last. */
enum { EMPTY = 0, OTHER_TYPE = 12, OTHER_NAME = 32, PVH = 52, SHORT = 72, HUGE_NAME = 88, HUGE_TEXT = 100, END = 112 };

static struct image notes_image(void)
{
    struct image image = {{0}, 0};
    append_note(&image, 0, "", 0, "", 0);
    append_note(&image, 1, "Xen", 4, "abc", 3);
    append_note(&image, PVH_NOTE_TYPE, "Xeo", 4, "abcd", 4);
    append_note(&image, PVH_NOTE_TYPE, "Xen", 4, "\x00\x00\x10\x00", 4);
    append_note(&image, PVH_NOTE_TYPE, "Xen", 4, "", 0);
    append_note(&image, 1, "", 0, "", 0);
    put_number(&image, HUGE_NAME, 4, 0xfffffffd);
    append_note(&image, 1, "", 0, "", 0);
    put_number(&image, HUGE_TEXT + 4, 4, UINT32_MAX);
    return image;
}

#define OUT REKUSOYEN_NOTE_NUMBERS
/* The PVH note found as the last of so many headers; and so many headers without it. */
#define FOUND(count) \
    {.pvh = REKUSOYEN_PVH_PRESENT, .pvh_entry = 0x100000, .headers = (count), .pvh_offset = PVH + 16, .pvh_size = 4}
#define NOT_FOUND(count) {.pvh = REKUSOYEN_PVH_NOT_PRESENT, .headers = (count)}

static const struct walk walks[] = {
    {"the PVH note first", PVH, 20, END, OUT, REKUSOYEN_ACCEPTED, FOUND(1)},
    {"a size that ends within the PVH note", PVH, 1, END, OUT, REKUSOYEN_ACCEPTED, FOUND(1)},
    {"an image that ends with the PVH note", PVH, 20, SHORT, OUT, REKUSOYEN_ACCEPTED, FOUND(1)},
    {"three notes before the PVH note", EMPTY, 72, END, OUT, REKUSOYEN_ACCEPTED, FOUND(4)},
    {"a size that ends before the PVH note", EMPTY, 52, END, OUT, REKUSOYEN_ACCEPTED, NOT_FOUND(3)},
    {"a size of 0, at any place", UINT64_MAX, 0, END, OUT, REKUSOYEN_ACCEPTED, NOT_FOUND(0)},
    {"no image", 0, 0, 0, OUT, REKUSOYEN_ACCEPTED, NOT_FOUND(0)},
    {"a note header past the image", EMPTY, 20, 11, OUT, REKUSOYEN_READ_NOTE_HEADER, {0}},
    {"a place past the image", UINT64_MAX, 1, END, OUT, REKUSOYEN_READ_NOTE_HEADER, {0}},
    {"the next note header past the image", OTHER_TYPE, 40, OTHER_NAME + 11, OUT, REKUSOYEN_READ_NOTE_HEADER, {0}},
    {"a name past the image", PVH, 20, PVH + 15, OUT, REKUSOYEN_READ_NOTE_HEADER, {0}},
    {"a descriptor past the image", PVH, 20, PVH + 19, OUT, REKUSOYEN_READ_NOTE_HEADER, {0}},
    {"a PVH note without an address", SHORT, 16, END, OUT, REKUSOYEN_INVALID_PVH_NOTE, {0}},
    {"a huge name", HUGE_NAME, 12, END, OUT, REKUSOYEN_OVERFLOW, {0}},
    {"a huge descriptor", HUGE_TEXT, 12, END, OUT, REKUSOYEN_OVERFLOW, {0}},
    {"a list of no values", PVH, 20, END, 0, REKUSOYEN_NO_ROOM, {0}},
    {"a list that is too short, before all else", UINT64_MAX, 1, END, OUT - 1, REKUSOYEN_NO_ROOM, {0}},
    {"a list that is too long", PVH, 20, END, OUT + 1, REKUSOYEN_NO_ROOM, {0}},
};

void test_notes(void)
{
    struct image whole = notes_image();
    CHECK(whole.size == END, "the notes end at %zu", whole.size);
    for (size_t i = 0; i < sizeof walks / sizeof walks[0]; i++) {
        const struct walk *walk = &walks[i];
        struct lent image = lend_bytes(whole.bytes, walk->image_len);
        struct lent out = lend_list(walk->out_len);
        uint32_t answer =
            walk->out_len == OUT
                ? rekusoyen_elf_note(image.bytes, image.size, walk->p_offset, walk->p_filesz, (void *)out.bytes)
                : rekusoyen_raw_elf_note(
                      image.bytes, image.size, walk->p_offset, walk->p_filesz, numbers_of(&out), walk->out_len);
        CHECK_ANSWER(walk->what, answer, walk->answer);
        CHECK_KEPT(walk->what, &image);
        CHECK_LEFT(walk->what, &out, walk->answer == REKUSOYEN_ACCEPTED ? (const void *)&walk->note : out.before);
    }
}
