/* Loads of images, and walks over notes. */
#include "loads.h"

int read_load(struct bytes body, struct load *load)
{
    const size_t image = number(body, 17, 4), guest = number(body, 21, 4);
    *load = (struct load){
        (uint32_t)number(body, 0, 1), number(body, 1, 8), number(body, 9, 8), slice(body, 25, image),
        slice(body, 25 + image, guest), slice(body, 25 + image + guest, body.size)};
    return body.size >= 25 + image + guest && guest <= LONGEST_GUEST;
}

static void say_pvh(uint64_t pvh, uint64_t entry, uint64_t offset, uint64_t size)
{
    say(pvh == REKUSOYEN_PVH_PRESENT ? " pvh at" : pvh == REKUSOYEN_PVH_IGNORED ? " pvh ignored" : " pvh none");
    if (pvh != REKUSOYEN_PVH_PRESENT)
        return;
    say_number(entry);
    say(" note");
    say_number(offset);
    say_number(size);
}

void say_load(uint32_t format, uint32_t answer, const struct rekusoyen_kernel *kernel, struct bytes image)
{
    uint8_t header[REKUSOYEN_SETUP_HEADER_SIZE];
    say(format == REKUSOYEN_ELF ? "elf" : format == REKUSOYEN_BZIMAGE ? "bzimage" : "arm64");
    say_answer(answer);
    if (answer != REKUSOYEN_ACCEPTED)
        return;
    say_number(kernel->load);
    say_number(kernel->end);
    if (format == REKUSOYEN_ELF)
        say_pvh(kernel->pvh, kernel->pvh_entry, kernel->pvh_offset, kernel->pvh_size);
    if (format == REKUSOYEN_BZIMAGE &&
        rekusoyen_setup_header(image.at, image.size, kernel->load, header, sizeof header) == 0) {
        say(" header ");
        say_hex(header, sizeof header);
    }
}

int answer_load(uint32_t format, const struct map *over, struct bytes body)
{
    struct load load;
    struct rekusoyen_kernel kernel;
    if (!read_load(body, &load) || load.rest.size != 0)
        return 0;
    const struct map map = over != NULL ? *over : whole(load.before.size);
    uint8_t *const guest = guest_of(load.before);
    const uint32_t answer = rekusoyen_load(
        guest, load.before.size, map.numbers, map.count, load.image.at, load.image.size, format, load.flags,
        load.offset, load.highmem, &kernel);
    say_load(format, answer, &kernel, load.image);
    say_guest(load.before.at, guest, load.before.size);
    return 1;
}

int answer_note(struct bytes body)
{
    struct rekusoyen_note note;
    if (body.size < 16)
        return 0;
    const struct bytes image = slice(body, 16, body.size);
    const uint32_t answer = rekusoyen_elf_note(image.at, image.size, number(body, 0, 8), number(body, 8, 8), &note);
    say("note");
    say_answer(answer);
    if (answer != REKUSOYEN_ACCEPTED)
        return 1;
    say_pvh(note.pvh, note.pvh_entry, note.pvh_offset, note.pvh_size);
    say(" headers");
    say_number(note.headers);
    return 1;
}
