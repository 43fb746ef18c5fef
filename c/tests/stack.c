/*
 * How much stack a call uses. It runs on a thread of the smallest stack that the system allows (16 KiB, where it allows
 * that), which is filled before; what is no longer as filled was used.
 */
#include "boot_calls.h"
#include "loads.h"
#include "tests.h"

#include <pthread.h>
#include <stdio.h>
#include <stdlib.h>
#include <string.h>
#include <unistd.h>

#define SMALL_STACK ((size_t)16384)
#define FILL 0xa7

/* What is left unfilled below the frame that fills. */
#define OWN_FRAME 64

static uint8_t line[REKUSOYEN_LINE_SIZE], other_line[REKUSOYEN_LINE_SIZE];
static uint8_t guest[GUEST], setup_header[REKUSOYEN_SETUP_HEADER_SIZE], page[REKUSOYEN_PAGE_SIZE];
static uint64_t number, rows[REKUSOYEN_PAGE_READ_ROWS];
static struct format formats[REKUSOYEN_ARM64 + 1];
static struct rekusoyen_kernel kernel;
static struct rekusoyen_plan plan;
static struct rekusoyen_part part;
static struct rekusoyen_state state;
static struct rekusoyen_step stepped;
static struct rekusoyen_note note;
static struct rekusoyen_page values;
static struct rekusoyen_start start;
static const uint8_t text[] = "text";
static const size_t ends[] = {2, 4};
static uint8_t quotes[REKUSOYEN_LINE_LIMIT];
static struct image job;
static uint8_t job_text[REKUSOYEN_JOB_TEXT_SIZE];
static uint64_t word_starts[1], word_ends[1], word_splits[1];

/* As many ranges as a map has; all that is loaded goes to the second. */
static const uint64_t ranges[] = {
    0,   1, ADDRESS, SIZE, 400, 1, 402, 1, 404, 1, 406, 1, 408, 1, 410, 1,
    412, 1, 414,     1,    416, 1, 418, 1, 420, 1, 422, 1, 424, 1, 426, 8,
};

#define RANGES (sizeof ranges / sizeof ranges[0])

/* The calls of a load, in the format that is measured. */
static struct format *format;

static uint32_t load(void)
{
    return rekusoyen_load(
        guest, sizeof guest, ranges, RANGES, format->image.bytes, format->image.size, format->number, 0, 0, 0, &kernel);
}

/* The first step, which looks at all headers and copies, after a call of rekusoyen_begin. */
static uint32_t step(void)
{
    const uint32_t answer = rekusoyen_begin(&state, format->number, 0, 0, 0);
    if (answer != REKUSOYEN_ACCEPTED)
        return answer;
    return rekusoyen_step(
        guest, sizeof guest, ranges, RANGES, format->image.bytes, format->image.size, &state, 8, &stepped);
}

static uint32_t begin(void)
{
    return rekusoyen_begin(&state, format->number, 0, 0, 0);
}

static uint32_t make_plan(void)
{
    return rekusoyen_plan(
        sizeof guest, ranges, RANGES, format->image.bytes, format->image.size, format->number, 0, 0, 0, &plan);
}

static uint32_t make_part(void)
{
    return rekusoyen_part(
        sizeof guest, ranges, RANGES, format->image.bytes, format->image.size, format->number, 0, 0, 0, &part);
}

static uint32_t kind(void)
{
    return rekusoyen_kind(format->image.bytes, format->image.size) == format->number ? 0 : REKUSOYEN_BAD_LIST;
}

static uint32_t make_header(void)
{
    return rekusoyen_setup_header(
        format->image.bytes, format->image.size, ADDRESS, setup_header, sizeof setup_header);
}

static uint32_t elf_note(void)
{
    return rekusoyen_elf_note(format->image.bytes, format->image.size, ELF_HEADER_SIZE, PROGRAM_HEADER_SIZE, &note);
}

static uint32_t page_build(void)
{
    return rekusoyen_page_build(
        page, sizeof page, setup_header, sizeof setup_header, 1, 2, 3, rows, REKUSOYEN_PAGE_READ_ROWS);
}

static uint32_t start_write(void)
{
    static const uint64_t map[] = {0, sizeof page}, list[] = {1, 2, 3, 0};
    return rekusoyen_start_write(page, sizeof page, map, 2, 0, 56, 88, 1, 2, 3, list, 4, list, 4);
}

static uint32_t start_check(void)
{
    static const uint64_t map[] = {0, sizeof page};
    return rekusoyen_start_check(page, sizeof page, map, 2, 0);
}

static uint32_t start_block(void)
{
    rekusoyen_start_block(page, sizeof page, 0, &start);
    return start.magic == REKUSOYEN_START_MAGIC ? 0 : REKUSOYEN_BAD_LIST;
}

static uint32_t start_modules(void)
{
    rekusoyen_start_modules(page, sizeof page, 56, rows, 4);
    return rows[0] == 1 ? 0 : REKUSOYEN_BAD_LIST;
}

static uint32_t start_ranges(void)
{
    rekusoyen_start_ranges(page, sizeof page, 88, rows, 4);
    return rows[0] == 1 ? 0 : REKUSOYEN_BAD_LIST;
}

static uint32_t page_read(void)
{
    return rekusoyen_page_read(
        page, sizeof page, &values, rows, REKUSOYEN_PAGE_READ_ROWS, setup_header, sizeof setup_header);
}

static uint32_t line_new(void)
{
    return rekusoyen_line_new(line, sizeof line, REKUSOYEN_LINE_LIMIT);
}

static uint32_t line_try_from(void)
{
    return rekusoyen_line_try_from(other_line, sizeof other_line, text, 4, REKUSOYEN_LINE_LIMIT);
}

static uint32_t line_insert(void)
{
    return rekusoyen_line_insert(line, sizeof line, text, 4, text, 4);
}

static uint32_t line_insert_multiple(void)
{
    return rekusoyen_line_insert_multiple(line, sizeof line, text, 4, text, 4, ends, 2);
}

static uint32_t line_insert_str(void)
{
    return rekusoyen_line_insert_str(line, sizeof line, text, 4);
}

static uint32_t line_insert_init_args(void)
{
    return rekusoyen_line_insert_init_args(line, sizeof line, text, 4);
}

static uint32_t line_add_virtio_mmio_device(void)
{
    return rekusoyen_line_add_virtio_mmio_device(line, sizeof line, UINT64_MAX, UINT64_MAX, UINT32_MAX, 1, UINT32_MAX);
}

static uint32_t line_as_cstring(void)
{
    return rekusoyen_line_as_cstring(other_line, sizeof other_line, guest, sizeof guest, &number);
}

static uint32_t line_equal(void)
{
    return rekusoyen_line_equal(line, sizeof line, other_line, sizeof other_line, &number);
}

static uint32_t line_load(void)
{
    return rekusoyen_line_load(guest, sizeof guest, ranges, RANGES, ADDRESS, other_line, sizeof other_line);
}

static uint32_t line_plan(void)
{
    return rekusoyen_line_plan(sizeof guest, ranges, RANGES, ADDRESS, other_line, sizeof other_line);
}

/* A line of one word that is only quotes: the reader of plain text and that of quoted text alternate at each. */
static uint32_t line_words(void)
{
    return rekusoyen_line_words(quotes, sizeof quotes, word_starts, 1, word_ends, 1, word_splits, 1, &number);
}

static uint32_t do_job(void)
{
    return rekusoyen_job(job.bytes, job.size, job_text, sizeof job_text);
}

/* Every function, in an order in which each call is accepted; those of a load in every format. */
#define OF_FORMAT(format) \
    {"rekusoyen_load", load, REKUSOYEN_LOAD_STACK_SIZE, (format)}, \
    {"rekusoyen_plan", make_plan, REKUSOYEN_LOAD_STACK_SIZE, (format)}, \
    {"rekusoyen_part", make_part, REKUSOYEN_LOAD_STACK_SIZE, (format)}, \
    {"rekusoyen_begin", begin, REKUSOYEN_STEP_STACK_SIZE, (format)}, \
    {"rekusoyen_step", step, REKUSOYEN_STEP_STACK_SIZE, (format)}, \
    {"rekusoyen_kind", kind, REKUSOYEN_LOAD_STACK_SIZE, (format)}, \
    {"rekusoyen_setup_header", make_header, REKUSOYEN_LOAD_STACK_SIZE, (format)}

static const struct {
    const char *name;
    uint32_t (*make)(void);
    size_t limit;
    uint32_t format;
} calls[] = {
    OF_FORMAT(REKUSOYEN_ELF),
    OF_FORMAT(REKUSOYEN_BZIMAGE),
    OF_FORMAT(REKUSOYEN_ARM64),
    {"rekusoyen_elf_note", elf_note, REKUSOYEN_LOAD_STACK_SIZE, REKUSOYEN_ELF},
    {"rekusoyen_page_build", page_build, REKUSOYEN_LOAD_STACK_SIZE, 0},
    {"rekusoyen_page_read", page_read, REKUSOYEN_LOAD_STACK_SIZE, 0},
    {"rekusoyen_start_write", start_write, REKUSOYEN_LOAD_STACK_SIZE, 0},
    {"rekusoyen_start_check", start_check, REKUSOYEN_LOAD_STACK_SIZE, 0},
    {"rekusoyen_start_block", start_block, REKUSOYEN_LOAD_STACK_SIZE, 0},
    {"rekusoyen_start_modules", start_modules, REKUSOYEN_LOAD_STACK_SIZE, 0},
    {"rekusoyen_start_ranges", start_ranges, REKUSOYEN_LOAD_STACK_SIZE, 0},
    {"rekusoyen_line_new", line_new, REKUSOYEN_LINE_STACK_SIZE, 0},
    {"rekusoyen_line_try_from", line_try_from, REKUSOYEN_LINE_STACK_SIZE, 0},
    {"rekusoyen_line_insert", line_insert, REKUSOYEN_LINE_STACK_SIZE, 0},
    {"rekusoyen_line_insert_multiple", line_insert_multiple, REKUSOYEN_LINE_STACK_SIZE, 0},
    {"rekusoyen_line_insert_str", line_insert_str, REKUSOYEN_LINE_STACK_SIZE, 0},
    {"rekusoyen_line_insert_init_args", line_insert_init_args, REKUSOYEN_LINE_STACK_SIZE, 0},
    {"rekusoyen_line_add_virtio_mmio_device", line_add_virtio_mmio_device, REKUSOYEN_LINE_STACK_SIZE, 0},
    {"rekusoyen_line_as_cstring", line_as_cstring, REKUSOYEN_LINE_STACK_SIZE, 0},
    {"rekusoyen_line_equal", line_equal, REKUSOYEN_LINE_STACK_SIZE, 0},
    {"rekusoyen_line_load", line_load, REKUSOYEN_LINE_STACK_SIZE, 0},
    {"rekusoyen_line_plan", line_plan, REKUSOYEN_LINE_STACK_SIZE, 0},
    {"rekusoyen_line_words", line_words, REKUSOYEN_LINE_STACK_SIZE, 0},
    {"rekusoyen_boot, 32-bit", boot_by_page_32, REKUSOYEN_BOOT_STACK_SIZE, 0},
    {"rekusoyen_boot, 64-bit", boot_by_page_64, REKUSOYEN_BOOT_STACK_SIZE, 0},
    {"rekusoyen_boot, 64-bit ELF", boot_by_page_64_elf, REKUSOYEN_BOOT_STACK_SIZE, 0},
    {"rekusoyen_boot, PVH", boot_by_pvh, REKUSOYEN_BOOT_STACK_SIZE, 0},
    {"rekusoyen_boot, tree", boot_by_tree, REKUSOYEN_BOOT_STACK_SIZE, 0},
    {"rekusoyen_boot_plan, 32-bit", plan_by_page_32, REKUSOYEN_BOOT_STACK_SIZE, 0},
    {"rekusoyen_boot_plan, 64-bit", plan_by_page_64, REKUSOYEN_BOOT_STACK_SIZE, 0},
    {"rekusoyen_boot_plan, 64-bit ELF", plan_by_page_64_elf, REKUSOYEN_BOOT_STACK_SIZE, 0},
    {"rekusoyen_boot_plan, PVH", plan_by_pvh, REKUSOYEN_BOOT_STACK_SIZE, 0},
    {"rekusoyen_boot_plan, tree", plan_by_tree, REKUSOYEN_BOOT_STACK_SIZE, 0},
    {"rekusoyen_line_check", check_a_line, REKUSOYEN_BOOT_STACK_SIZE, 0},
    {"rekusoyen_has_room", find_room, REKUSOYEN_BOOT_STACK_SIZE, 0},
    {"rekusoyen_put", put_bytes, REKUSOYEN_BOOT_STACK_SIZE, 0},
    {"rekusoyen_place", place_low, REKUSOYEN_BOOT_STACK_SIZE, 0},
    {"rekusoyen_place_high", place_high, REKUSOYEN_BOOT_STACK_SIZE, 0},
    {"rekusoyen_job", do_job, REKUSOYEN_JOB_STACK_SIZE, 0}, /* the last: it needs a larger stack */
};

#define CALLS (sizeof calls / sizeof calls[0])

static uint32_t answers[CALLS];
static size_t used[CALLS];

/* The calls that are measured on one stack, and that stack. */
struct calls {
    size_t first, end;
    void *stack;
};

/* Fills the stack from its bottom up to this frame, which is at the place of that of a call. */
static __attribute__((noinline)) void fill(volatile uint8_t *bottom)
{
    volatile uint8_t *end = (uint8_t *)__builtin_frame_address(0) - OWN_FRAME;
    while (bottom < end)
        *bottom++ = FILL;
}

/* Makes each call with the stack below this frame filled, and looks how far down it was changed. */
static void *measure(void *data)
{
    const struct calls *const these = data;
    volatile uint8_t *bottom = these->stack, *top = __builtin_frame_address(0);
    for (size_t i = these->first; i < these->end; i++) {
        format = &formats[calls[i].format];
        fill(bottom);
        answers[i] = calls[i].make();
        volatile uint8_t *kept = bottom;
        while (kept < top && *kept == FILL)
            kept++;
        used[i] = (size_t)(top - kept);
    }
    return NULL;
}

/* Measures calls on a thread with a stack of this size, or the smallest one that the system allows. */
static void measure_on(size_t size, size_t first, size_t end)
{
    struct calls these = {first, end, NULL};
    pthread_attr_t attributes;
    pthread_t thread;
    const long least = sysconf(_SC_THREAD_STACK_MIN);
    size = least > (long)size ? (size_t)least : size;
    const int started = posix_memalign(&these.stack, 65536, size) == 0 && pthread_attr_init(&attributes) == 0 &&
                        pthread_attr_setstack(&attributes, these.stack, size) == 0 &&
                        pthread_create(&thread, &attributes, measure, &these) == 0 && pthread_join(thread, NULL) == 0;
    CHECK(started, "a thread with a stack of its own ran");
    size_t most = 0;
    for (size_t i = first; started && i < end; i++) {
        CHECK_ANSWER(calls[i].name, answers[i], REKUSOYEN_ACCEPTED);
        CHECK(used[i] <= calls[i].limit, "%s used %zu bytes of stack", calls[i].name, used[i]);
        if (getenv("REKUSOYEN_TELL_STACK"))
            printf("c: %-38s %-8s %zu bytes of stack\n", calls[i].name, formats[calls[i].format].name, used[i]);
        most = used[i] > most ? used[i] : most;
    }
    printf("c: on a thread of %zu bytes, a call used up to %zu bytes of stack\n", size, most);
    free(these.stack);
}

void test_stack(void)
{
    formats[0].name = "";
    for (EACH_FORMAT(which))
        formats[which] = format_of(which);
    memset(quotes, '"', sizeof quotes);
    for (size_t i = 0; i < REKUSOYEN_PAGE_READ_ROWS; i++)
        rows[i] = i % 3 == 0 ? i : 1;
    const struct image image = small_elf();
    job = job_of(&image, "quiet");
    prepare_boot_calls();
    measure_on(SMALL_STACK, 0, CALLS - 1);
    measure_on(2 * REKUSOYEN_JOB_STACK_SIZE, CALLS - 1, CALLS);
}
