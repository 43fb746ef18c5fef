/* A slice of length 0 may be any pointer, NULL too: every argument that is a slice, in turn. */
#include "lines.h"
#include "loads.h"
#include "tests.h"

static void check_loads(const struct format *format)
{
    const uint32_t number = format->number;
    const uint8_t *const image = format->image.bytes;
    const size_t size = format->image.size;
    struct lent guest = lend_filled(GUEST), lists[] = {
        lend_list(REKUSOYEN_KERNEL_NUMBERS), lend_list(REKUSOYEN_PLAN_NUMBERS), lend_list(REKUSOYEN_STATE_NUMBERS),
        lend_list(REKUSOYEN_STEP_NUMBERS)};
    struct rekusoyen_kernel *const kernel = (void *)lists[0].bytes;
    struct rekusoyen_plan *const plan = (void *)lists[1].bytes;
    uint64_t *const state = numbers_of(&lists[2]), *const step = numbers_of(&lists[3]);
    CHECK_ANSWER("guest", rekusoyen_load(NULL, 0, NULL, 0, image, size, number, 0, 0, 0, kernel), format->no_room);
    CHECK_ANSWER(
        "image", rekusoyen_load(guest.bytes, GUEST, WHOLE(GUEST), NULL, 0, number, 0, 0, 0, kernel), format->no_image);
    CHECK_ANSWER(
        "map", rekusoyen_load(guest.bytes, GUEST, NULL, 0, image, size, number, 0, 0, 0, kernel), format->no_room);
    CHECK_ANSWER(
        "kernel", rekusoyen_raw_load(guest.bytes, GUEST, WHOLE(GUEST), image, size, number, 0, 0, 0, NULL, 0),
        REKUSOYEN_NO_ROOM);
    CHECK_ANSWER("map", rekusoyen_plan(GUEST, NULL, 0, image, size, number, 0, 0, 0, plan), format->no_room);
    CHECK_ANSWER("memory", rekusoyen_plan(0, NULL, 0, image, size, number, 0, 0, 0, plan), format->no_room);
    CHECK_ANSWER("image", rekusoyen_plan(GUEST, WHOLE(GUEST), NULL, 0, number, 0, 0, 0, plan), format->no_image);
    CHECK_ANSWER(
        "plan", rekusoyen_raw_plan(GUEST, WHOLE(GUEST), image, size, number, 0, 0, 0, NULL, 0), REKUSOYEN_NO_ROOM);
    CHECK_ANSWER(
        "part", rekusoyen_raw_part(GUEST, WHOLE(GUEST), image, size, number, 0, 0, 0, NULL, 0), REKUSOYEN_NO_ROOM);
    CHECK_ANSWER("state", rekusoyen_raw_begin(NULL, 0, number, 0, 0, 0), REKUSOYEN_NO_ROOM);
    CHECK_ANSWER(
        "state", rekusoyen_raw_step(NULL, 0, NULL, 0, NULL, 0, NULL, 0, 1, step, REKUSOYEN_STEP_NUMBERS),
        REKUSOYEN_NO_ROOM);
    CHECK_ANSWER(
        "step", rekusoyen_raw_step(NULL, 0, NULL, 0, NULL, 0, state, REKUSOYEN_STATE_NUMBERS, 1, NULL, 0),
        REKUSOYEN_NO_ROOM);
    CHECK_KEPT("refused", &guest);
    for (size_t i = 0; i < 4; i++)
        CHECK_KEPT("refused", &lists[i]);

    /* a part of no image, and a load of no image into no memory in steps */
    static const struct rekusoyen_part none;
    struct lent part = lend_list(REKUSOYEN_PART_NUMBERS);
    struct rekusoyen_state begun;
    struct rekusoyen_step stepped;
    CHECK_ANSWER(
        "part", rekusoyen_part(0, NULL, 0, NULL, 0, number, 0, 0, 0, (void *)part.bytes), REKUSOYEN_ACCEPTED);
    CHECK_LEFT("part", &part, &none);
    CHECK_ANSWER("begin", rekusoyen_begin(&begun, number, 0, 0, 0), REKUSOYEN_ACCEPTED);
    CHECK_ANSWER("step", rekusoyen_step(NULL, 0, NULL, 0, NULL, 0, &begun, 1, &stepped), REKUSOYEN_ACCEPTED);
    CHECK(stepped.answered == 1 && stepped.answer == format->no_image, "a step of no image");
}

static void check_images(void)
{
    struct lent note = lend_list(REKUSOYEN_NOTE_NUMBERS), header = lend_filled(REKUSOYEN_SETUP_HEADER_SIZE);
    CHECK(rekusoyen_kind(NULL, 0) == REKUSOYEN_UNKNOWN, "the kind of no image");
    CHECK_ANSWER("image", rekusoyen_elf_note(NULL, 0, 0, 1, (void *)note.bytes), REKUSOYEN_READ_NOTE_HEADER);
    CHECK_ANSWER("note", rekusoyen_raw_elf_note(header.bytes, header.size, 0, 1, NULL, 0), REKUSOYEN_NO_ROOM);
    CHECK_ANSWER("header", rekusoyen_setup_header(header.bytes, header.size, 0, NULL, 0), REKUSOYEN_NO_ROOM);
    CHECK_KEPT("refused", &header);
    CHECK_KEPT("refused", &note);
}

static void check_starts(void)
{
    struct lent numbers = lend_list(1);
    const uint64_t no = 0;
    CHECK_ANSWER(
        "start", rekusoyen_start_write(NULL, 0, NULL, 0, 0, 0, 0, 0, 0, 0, NULL, 0, NULL, 0), REKUSOYEN_BAD_PART);
    CHECK_ANSWER("start", rekusoyen_start_check(NULL, 0, NULL, 0, 0), REKUSOYEN_BAD_PART);
    CHECK_ANSWER("start", rekusoyen_raw_start_block(NULL, 0, 0, NULL, 0), REKUSOYEN_NO_ROOM);
    rekusoyen_start_modules(NULL, 0, 0, NULL, 0);
    rekusoyen_start_ranges(NULL, 0, 0, numbers_of(&numbers), 1);
    CHECK_LEFT("start", &numbers, &no);
}

static void check_pages(void)
{
    struct lent page = lend_filled(REKUSOYEN_PAGE_SIZE), header = lend_filled(REKUSOYEN_SETUP_HEADER_SIZE);
    struct lent list = lend_list(REKUSOYEN_PAGE_NUMBERS), numbers = lend_list(REKUSOYEN_PAGE_READ_ROWS);
    struct rekusoyen_page *const values = (void *)list.bytes;
    uint64_t *rows = numbers_of(&numbers);
    const size_t rows_len = REKUSOYEN_PAGE_READ_ROWS;
    CHECK_ANSWER(
        "page", rekusoyen_page_build(NULL, 0, header.bytes, header.size, 0, 0, 0, NULL, 0), REKUSOYEN_BAD_PAGE_SIZE);
    CHECK_ANSWER("header", rekusoyen_page_build(page.bytes, page.size, NULL, 0, 0, 0, 0, NULL, 0), REKUSOYEN_NO_ROOM);
    CHECK_ANSWER(
        "page", rekusoyen_page_read(NULL, 0, values, rows, rows_len, header.bytes, header.size),
        REKUSOYEN_BAD_PAGE_SIZE);
    CHECK_ANSWER(
        "values", rekusoyen_raw_page_read(page.bytes, page.size, NULL, 0, rows, rows_len, header.bytes, header.size),
        REKUSOYEN_NO_ROOM);
    CHECK_ANSWER(
        "rows", rekusoyen_page_read(page.bytes, page.size, values, NULL, 0, header.bytes, header.size),
        REKUSOYEN_NO_ROOM);
    CHECK_ANSWER(
        "header", rekusoyen_page_read(page.bytes, page.size, values, rows, rows_len, NULL, 0), REKUSOYEN_NO_ROOM);
    CHECK_KEPT("refused", &page);
    CHECK_KEPT("refused", &header);
    CHECK_KEPT("refused", &list);
    CHECK_KEPT("refused", &numbers);
}

static void check_lines_refused(void)
{
    const struct line good = line_of((struct text)T("a"), (struct text)T(""), 9);
    struct lent line = lend_bytes(good.bytes, sizeof good.bytes), guest = lend_filled(32), list = lend_list(1);
    uint8_t *bytes = line.bytes;
    const size_t size = line.size;
    uint64_t *one = numbers_of(&list);
    CHECK_ANSWER("line", rekusoyen_line_new(NULL, 0, 1), REKUSOYEN_NO_ROOM);
    CHECK_ANSWER("line", rekusoyen_line_try_from(NULL, 0, NULL, 0, 1), REKUSOYEN_NO_ROOM);
    CHECK_ANSWER("line", rekusoyen_line_insert(NULL, 0, NULL, 0, NULL, 0), REKUSOYEN_NO_ROOM);
    CHECK_ANSWER("line", rekusoyen_line_insert_multiple(NULL, 0, NULL, 0, NULL, 0, NULL, 0), REKUSOYEN_NO_ROOM);
    CHECK_ANSWER(
        "values", rekusoyen_line_insert_multiple(bytes, size, NULL, 0, NULL, 0, NULL, 0), REKUSOYEN_MISSING_VAL);
    CHECK_ANSWER("line", rekusoyen_line_insert_str(NULL, 0, NULL, 0), REKUSOYEN_NO_ROOM);
    CHECK_ANSWER("line", rekusoyen_line_insert_init_args(NULL, 0, NULL, 0), REKUSOYEN_NO_ROOM);
    CHECK_ANSWER("line", rekusoyen_line_add_virtio_mmio_device(NULL, 0, 1, 1, 1, 1, 1), REKUSOYEN_NO_ROOM);
    CHECK_ANSWER("line", rekusoyen_line_as_cstring(NULL, 0, guest.bytes, 32, one), REKUSOYEN_NO_ROOM);
    CHECK_ANSWER("out", rekusoyen_line_as_cstring(bytes, size, NULL, 0, one), REKUSOYEN_NO_ROOM);
    CHECK_ANSWER("count", rekusoyen_raw_line_as_cstring(bytes, size, guest.bytes, 32, NULL, 0), REKUSOYEN_NO_ROOM);
    CHECK_ANSWER("a", rekusoyen_line_equal(NULL, 0, bytes, size, one), REKUSOYEN_NO_ROOM);
    CHECK_ANSWER("b", rekusoyen_line_equal(bytes, size, NULL, 0, one), REKUSOYEN_NO_ROOM);
    CHECK_ANSWER("out", rekusoyen_raw_line_equal(bytes, size, bytes, size, NULL, 0), REKUSOYEN_NO_ROOM);
    CHECK_ANSWER("guest", rekusoyen_line_load(NULL, 0, NULL, 0, 0, bytes, size), REKUSOYEN_COMMAND_LINE_OVERFLOW);
    CHECK_ANSWER("map", rekusoyen_line_load(guest.bytes, 32, NULL, 0, 0, bytes, size), REKUSOYEN_COMMAND_LINE_OVERFLOW);
    CHECK_ANSWER("line", rekusoyen_line_load(guest.bytes, 32, WHOLE(32), 0, NULL, 0), REKUSOYEN_NO_ROOM);
    CHECK_KEPT("refused", &line);
    CHECK_KEPT("refused", &guest);
    CHECK_KEPT("refused", &list);
}

/* An empty text from NULL, in each place of a text; the line after all of them. */
static void check_lines_accepted(void)
{
    const size_t no_bytes = 0;
    const struct line after = line_of((struct text)T("= =  "), (struct text)T(""), 64);
    struct lent line = lend_filled(REKUSOYEN_LINE_SIZE);
    CHECK_ANSWER("text", rekusoyen_line_try_from(line.bytes, line.size, NULL, 0, 64), REKUSOYEN_ACCEPTED);
    CHECK_ANSWER("key, value", rekusoyen_line_insert(line.bytes, line.size, NULL, 0, NULL, 0), REKUSOYEN_ACCEPTED);
    CHECK_ANSWER(
        "values", rekusoyen_line_insert_multiple(line.bytes, line.size, NULL, 0, NULL, 0, &no_bytes, 1),
        REKUSOYEN_ACCEPTED);
    CHECK_ANSWER("slug", rekusoyen_line_insert_str(line.bytes, line.size, NULL, 0), REKUSOYEN_ACCEPTED);
    CHECK_ANSWER("slug", rekusoyen_line_insert_str(line.bytes, line.size, NULL, 0), REKUSOYEN_ACCEPTED);
    CHECK_ANSWER("slug", rekusoyen_line_insert_init_args(line.bytes, line.size, NULL, 0), REKUSOYEN_ACCEPTED);
    CHECK_LEFT("accepted", &line, after.bytes);
}

void test_empty_slices(void)
{
    for (EACH_FORMAT(number)) {
        const struct format format = format_of(number);
        check_loads(&format);
    }
    check_images();
    check_pages();
    check_starts();
    check_lines_refused();
    check_lines_accepted();
}
