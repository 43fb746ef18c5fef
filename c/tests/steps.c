/* rekusoyen_begin and rekusoyen_step, in every format. */
#include "loads.h"
#include "tests.h"

#include <string.h>

#define TOP UINT64_MAX
#define BYTES 128
#define STATE REKUSOYEN_STATE_NUMBERS
#define STEP REKUSOYEN_STEP_NUMBERS

/* Guest memory has two ranges; bytes of every image go to both, or to the second. */
static const uint64_t ranges[] = {0, 30, 32, 96};
#define RANGES (sizeof ranges / sizeof ranges[0])

/* An image to load: its parts, of which a later one may be over an earlier, all their bytes, and the result. */
struct subject {
    uint32_t format;
    struct image image;
    struct rekusoyen_part parts[3];
    size_t total;
    struct rekusoyen_kernel kernel;
};

/* Three segments with bytes, the last over the first; between them one of memory only and one that is not loaded. */
static struct image segments(void)
{
    const struct program_header headers[] = {
        {LOADABLE, 0, 16, 3, 3}, {DYNAMIC, 0, 0, 5, 5}, {LOADABLE, 0, 48, 0, 8}, {LOADABLE, 3, 40, 2, 2},
        {LOADABLE, 5, 17, 2, 2},
    };
    return elf_image(16, headers, 5, "onetwxy", 7);
}

static struct subject subject_of(uint32_t format)
{
    const size_t body = ELF_HEADER_SIZE + 5 * PROGRAM_HEADER_SIZE;
    switch (format) {
    case REKUSOYEN_ELF:
        return (struct subject){
            format, segments(), {{16, body, 3}, {40, body + 3, 2}, {17, body + 5, 2}}, 7, AT(16, 56)};
    case REKUSOYEN_BZIMAGE:
        return (struct subject){format, bz_image(1, 40, "kernel", 6), {{40, 1024, 6}}, 6, AT(40, 46)};
    default:
        return (struct subject){
            format, arm64_image(50, 100), {{50, 0, ARM64_HEADER_SIZE}}, ARM64_HEADER_SIZE, AT(50, 150)};
    }
}

/* A load in steps, and its buffers. */
struct run {
    struct subject subject;
    uint8_t guest[BYTES], start[BYTES];
    struct rekusoyen_state state;
    struct rekusoyen_step step;
    size_t copied;
};

/* Offset and highmem are not given, and are kept as any numbers. */
static struct run begun(const struct subject *subject)
{
    struct run run = {.subject = *subject};
    for (size_t i = 0; i < BYTES; i++)
        run.guest[i] = run.start[i] = (uint8_t)(100 + i);
    memset(&run.state, 0xa5, sizeof run.state);
    memset(&run.step, 0x5a, sizeof run.step);
    CHECK_ANSWER("begin", rekusoyen_begin(&run.state, subject->format, 0, 7, 7), REKUSOYEN_ACCEPTED);
    return run;
}

static uint32_t step(struct run *run, uint64_t budget)
{
    const struct image *image = &run->subject.image;
    return rekusoyen_step(
        run->guest, BYTES, ranges, RANGES, image->bytes, image->size, &run->state, budget, &run->step);
}

/* Guest memory is the whole load's after as many bytes. */
static void check_guest(const struct run *run, const char *what)
{
    uint8_t expected[BYTES];
    size_t left = run->copied;
    memcpy(expected, run->start, BYTES);
    for (size_t i = 0; i < 3; i++) {
        const struct rekusoyen_part *part = &run->subject.parts[i];
        const size_t size = left < part->size ? left : (size_t)part->size;
        memcpy(expected + part->address, run->subject.image.bytes + part->offset, size);
        left -= size;
    }
    CHECK(memcmp(run->guest, expected, BYTES) == 0, "%s: guest memory after %zu bytes", what, run->copied);
}

/* One step, and all that it leaves. */
static void check_step(struct run *run, uint64_t budget)
{
    const uint64_t left = run->subject.total - run->copied, copies = budget < left ? budget : left;
    struct rekusoyen_step expected = {.copied = copies, .answered = copies == left};
    if (copies == left)
        expected.kernel = run->subject.kernel;
    CHECK_ANSWER("a step", step(run, budget), REKUSOYEN_ACCEPTED);
    run->copied += copies;
    CHECK(
        memcmp(&run->step, &expected, sizeof expected) == 0, "a step of budget %zu returns other values",
        (size_t)budget);
    check_guest(run, "a step");
}

/* A call that is refused changes nothing. */
static void check_refused(
    const struct run *run, const char *what, uint32_t expected, size_t guest_len, const uint64_t *map, size_t map_len,
    size_t image_len, size_t state_len, uint64_t budget, size_t step_len)
{
    struct run after = *run;
    uint64_t numbers[STEP + 1];
    memcpy(numbers, &run->step, sizeof run->step);
    const uint32_t answer = rekusoyen_raw_step(
        after.guest, guest_len, map, map_len, after.subject.image.bytes, image_len, after.state.numbers, state_len,
        budget, numbers, step_len);
    CHECK_ANSWER(what, answer, expected);
    CHECK(memcmp(after.guest, run->guest, BYTES) == 0, "%s: guest memory is changed", what);
    CHECK(memcmp(&after.state, &run->state, sizeof after.state) == 0, "%s: the state is changed", what);
    CHECK(memcmp(numbers, &run->step, sizeof run->step) == 0, "%s: the values are changed", what);
}

/* Every refusal of a call, in a load; `first` if no step was made yet, so that lengths and map are free. */
static void check_refusals(const struct run *run, int first)
{
    static const uint64_t bad[] = {0, 30, 30, 2}, other[] = {0, 30, 32, 95};
    const size_t size = run->subject.image.size;
    check_refused(run, "a short state", REKUSOYEN_NO_ROOM, BYTES, ranges, RANGES, size, STATE - 1, 1, STEP);
    check_refused(run, "few values", REKUSOYEN_NO_ROOM, BYTES, ranges, RANGES, size, STATE, 1, STEP - 1);
    check_refused(run, "many values", REKUSOYEN_NO_ROOM, BYTES, ranges, RANGES, size, STATE, 1, STEP + 1);
    check_refused(run, "a bad map", REKUSOYEN_BAD_MAP, BYTES, bad, 4, size, STATE, 1, STEP);
    check_refused(run, "a bad map before no budget", REKUSOYEN_BAD_MAP, BYTES, bad, 4, size, STATE, 0, STEP);
    check_refused(run, "no budget", REKUSOYEN_NO_BUDGET, BYTES, ranges, RANGES, size, STATE, 0, STEP);
    if (first)
        return;
    check_refused(
        run, "no budget before another length", REKUSOYEN_NO_BUDGET, BYTES, ranges, RANGES, size - 1, STATE, 0, STEP);
    check_refused(run, "a shorter image", REKUSOYEN_LENT_CHANGED, BYTES, ranges, RANGES, size - 1, STATE, 1, STEP);
    check_refused(
        run, "shorter guest memory", REKUSOYEN_LENT_CHANGED, BYTES - 1, ranges, RANGES - 2, size, STATE, 1, STEP);
    check_refused(run, "another map", REKUSOYEN_LENT_CHANGED, BYTES, other, 4, size, STATE, 1, STEP);
    check_refused(run, "one range less", REKUSOYEN_LENT_CHANGED, BYTES, ranges, RANGES - 2, size, STATE, TOP, STEP);
}

/* Every split of the load into portions: bit i says that a portion ends after byte i. */
static void check_splits(const struct subject *subject)
{
    for (unsigned split = 0; split < 1u << (subject->total - 1); split++) {
        struct run run = begun(subject);
        size_t portion = 1;
        for (size_t i = 0; i + 1 < subject->total; i++, portion++) {
            if (split >> i & 1) {
                check_step(&run, portion);
                portion = 0;
            }
        }
        check_step(&run, portion);
        check_step(&run, 1);
    }
}

/* Equal budgets, with every refused call before each step; the answer comes when it must, and is repeated. */
static void check_budget(const struct subject *subject, uint64_t budget)
{
    struct run run = begun(subject);
    for (size_t made = 0; run.copied < subject->total; made++) {
        check_refusals(&run, made == 0);
        check_step(&run, budget);
    }
    check_refusals(&run, 0);
    check_step(&run, budget);
    check_step(&run, TOP);
}

/* The state can be copied, and the load goes on from the copy. */
static void check_copy(const struct subject *subject)
{
    struct run run = begun(subject);
    check_step(&run, 2);
    struct run other = run;
    check_step(&run, 3);
    check_step(&other, TOP);
    check_step(&run, TOP);
    CHECK(memcmp(run.guest, other.guest, BYTES) == 0, "two runs from one state differ");
}

/* A number that no call writes at its place. */
static void check_bad_states(const struct subject *subject)
{
    static const struct {
        const char *what;
        size_t place;
        uint64_t number;
    } bad[] = {
        {"no stage", 0, 3},           {"no stage at all", 0, TOP},   {"no option", 6, 2},
        {"no option for highmem", 8, 2}, {"an unknown format", 42, 0},  {"no format", 42, 4},
        {"no format at all", 42, TOP}, {"no answer", 43, 15},         {"no answer at all", 43, TOP},
        {"no PVH code", 46, 3},
    };
    for (size_t made = 0; made < 3; made++) {
        for (size_t i = 0; i < sizeof bad / sizeof bad[0]; i++) {
            struct run run = begun(subject);
            const size_t size = subject->image.size;
            if (made > 0)
                check_step(&run, made == 1 ? 2 : TOP);
            run.state.numbers[bad[i].place] = bad[i].number;
            check_refused(&run, bad[i].what, REKUSOYEN_BAD_LIST, BYTES, ranges, RANGES, size, STATE, 1, STEP);
            check_refused(&run, bad[i].what, REKUSOYEN_BAD_LIST, BYTES, ranges, RANGES - 1, size, STATE, 0, STEP);
        }
    }
    /* any other state is taken, and a step keeps to its budget and to the map */
    for (size_t place = 0; place < STATE; place++) {
        struct run run = begun(subject);
        check_step(&run, 2);
        run.state.numbers[place] ^= 1;
        const uint32_t answer = step(&run, 1);
        CHECK(
            answer == 0 || answer == REKUSOYEN_LENT_CHANGED || answer == REKUSOYEN_BAD_LIST, "place %zu: %u", place,
            (unsigned)answer);
        CHECK(answer != 0 || run.step.copied <= 1, "place %zu: %zu bytes", place, (size_t)run.step.copied);
        CHECK(run.guest[30] == run.start[30] && run.guest[31] == run.start[31], "place %zu: a hole is changed", place);
    }
}

/* An image that is refused is answered in the first step, with no bytes copied; one that changes keeps to the budget. */
static void check_answers(const struct subject *subject, const struct subject *other, uint32_t refusal)
{
    struct run run = begun(subject);
    const struct rekusoyen_step refused = {.answered = 1, .answer = refusal};
    run.subject.image = other->image;
    CHECK_ANSWER("a refused image", step(&run, TOP), REKUSOYEN_ACCEPTED);
    CHECK(memcmp(&run.step, &refused, sizeof refused) == 0, "a refused image returns other values");
    check_guest(&run, "a refused image");
    memcpy(run.subject.image.bytes, subject->image.bytes, sizeof subject->image.bytes);
    CHECK_ANSWER("the refusal again", step(&run, TOP), REKUSOYEN_ACCEPTED);
    CHECK(memcmp(&run.step, &refused, sizeof refused) == 0, "the refusal is not repeated");
    check_guest(&run, "the refusal again");

    struct run changed = begun(subject);
    check_step(&changed, 2);
    memset(changed.subject.image.bytes, 0xff, changed.subject.image.size);
    CHECK_ANSWER("a changed image", step(&changed, 3), REKUSOYEN_ACCEPTED);
    CHECK(changed.step.copied <= 3, "a changed image copies %zu bytes", (size_t)changed.step.copied);
}

void test_steps(void)
{
    static const uint32_t refusals[] = {
        0, REKUSOYEN_INVALID_ELF_MAGIC_NUMBER, REKUSOYEN_INVALID_BZ_IMAGE, REKUSOYEN_BAD_IMAGE_MAGIC};
    for (EACH_FORMAT(format)) {
        const struct subject subject = subject_of(format);
        const struct subject other = subject_of(format == REKUSOYEN_ELF ? REKUSOYEN_BZIMAGE : REKUSOYEN_ELF);
        if (subject.total < 8)
            check_splits(&subject);
        for (uint64_t budget = 1; budget <= subject.total + 1; budget++)
            check_budget(&subject, budget);
        check_budget(&subject, TOP - 1);
        check_budget(&subject, TOP);
        check_copy(&subject);
        check_bad_states(&subject);
        check_answers(&subject, &other, refusals[format]);
    }
}
