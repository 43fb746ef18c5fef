/* The seven calls that are lent a line to change: the texts that they leave, and the refusals of their own arguments. */
#include "lines.h"
#include "tests.h"

#include <string.h>

/* A call on a line, and the texts after it where it is accepted; where it is refused every byte stays. */
struct row {
    const char *what;
    struct text boot, init;
    uint64_t capacity;
    struct call call;
    uint32_t answer;
    struct text boot_after, init_after;
};

#define EMPTY T("")

/* The makings: they leave a whole line over whatever bytes they were lent. */
static const struct {
    const char *what;
    struct call call;
    uint32_t answer;
    struct text boot, init;
} makings[] = {
    {"new", {.function = NEW, .capacity = 1}, REKUSOYEN_ACCEPTED, EMPTY, EMPTY},
    {"new of the greatest capacity", {.function = NEW, .capacity = 16384}, REKUSOYEN_ACCEPTED, EMPTY, EMPTY},
    {"new of capacity 0", {.function = NEW, .capacity = 0}, REKUSOYEN_INVALID_CAPACITY, EMPTY, EMPTY},
    {"new above the limit", {.function = NEW, .capacity = 16385}, REKUSOYEN_INVALID_CAPACITY, EMPTY, EMPTY},
    {"new far above it", {.function = NEW, .capacity = UINT64_MAX}, REKUSOYEN_INVALID_CAPACITY, EMPTY, EMPTY},

#define TRY(c, t) {.function = TRY_FROM, .capacity = (c), .text = T(t)}
    {"no text", TRY(1, ""), REKUSOYEN_ACCEPTED, EMPTY, EMPTY},
    {"boot text alone", TRY(8, "\t a b \n"), REKUSOYEN_ACCEPTED, T("a b"), EMPTY},
    {"both texts", TRY(7, " a -- b "), REKUSOYEN_ACCEPTED, T("a"), T("b")},
    {"init text alone", TRY(6, " -- b"), REKUSOYEN_ACCEPTED, EMPTY, T("b")},
    {"a separator in quotes", TRY(16, "a=\"x -- y\" -- z"), REKUSOYEN_ACCEPTED, T("a=\"x -- y\""), T("z")},
    {"any bytes", TRY(9, "\xff\0a -- \x01"), REKUSOYEN_ACCEPTED, T("\xff\0a"), T("\x01")},
    {"a text that is too long", TRY(15, "a=\"x -- y\" -- z"), REKUSOYEN_INVALID_CAPACITY, EMPTY, EMPTY},
    {"a text and capacity 0", TRY(0, "a"), REKUSOYEN_INVALID_CAPACITY, EMPTY, EMPTY},
    {"a text and a capacity above the limit", TRY(16385, "a"), REKUSOYEN_INVALID_CAPACITY, EMPTY, EMPTY},
};

#define STR(t) {.function = INSERT_STR, .text = T(t)}
#define ARGS(t) {.function = INSERT_INIT_ARGS, .text = T(t)}
#define PAIR(k, v) {.function = INSERT, .text = T(k), .value = T(v)}
#define LIST(k, v, n, ...) {.function = INSERT_MULTIPLE, .text = T(k), .value = T(v), .ends_len = (n), .ends = {__VA_ARGS__}}
#define DEVICE(s, a, i, h, n) {.function = ADD_DEVICE, .size = (s), .address = (a), .irq = (i), .has_id = (h), .id = (n)}

static const struct row rows[] = {
    {"a slug", EMPTY, EMPTY, 4, STR("\v a\f"), REKUSOYEN_ACCEPTED, T("a"), EMPTY},
    {"a slug after another", T("a"), EMPTY, 5, STR("b c"), REKUSOYEN_TOO_LARGE, EMPTY, EMPTY},
    {"a slug that just fits", T("a"), EMPTY, 6, STR("b c"), REKUSOYEN_ACCEPTED, T("a b c"), EMPTY},
    {"a slug beside init text", T("a"), T("z"), 9, STR("b"), REKUSOYEN_ACCEPTED, T("a b"), T("z")},
    {"no room beside init text", T("a"), T("z"), 8, STR("b"), REKUSOYEN_TOO_LARGE, EMPTY, EMPTY},
    {"an empty slug costs a space", T("a"), EMPTY, 3, STR(" "), REKUSOYEN_ACCEPTED, T("a "), EMPTY},
    {"for which there must be room", T("a"), EMPTY, 2, STR(""), REKUSOYEN_TOO_LARGE, EMPTY, EMPTY},
    {"an empty slug alone", EMPTY, EMPTY, 1, STR(""), REKUSOYEN_ACCEPTED, EMPTY, EMPTY},
    {"a slug with a blank inside", EMPTY, EMPTY, 1, STR("a\tb"), REKUSOYEN_INVALID_ASCII, EMPTY, EMPTY},
    {"a slug with a byte 127", EMPTY, EMPTY, 9, STR("\x7f"), REKUSOYEN_INVALID_ASCII, EMPTY, EMPTY},

    {"init text", T("a"), EMPTY, 7, ARGS(" z\r"), REKUSOYEN_ACCEPTED, T("a"), T("z")},
    {"no room for the separator", T("a"), EMPTY, 6, ARGS("z"), REKUSOYEN_TOO_LARGE, EMPTY, EMPTY},
    {"init text after another", EMPTY, T("y"), 8, ARGS("z"), REKUSOYEN_ACCEPTED, EMPTY, T("y z")},
    {"no room after another", EMPTY, T("y"), 7, ARGS("z"), REKUSOYEN_TOO_LARGE, EMPTY, EMPTY},
    {"an empty init slug changes nothing", T("a"), EMPTY, 6, ARGS(""), REKUSOYEN_ACCEPTED, T("a"), EMPTY},
    {"but asks for the separator's room", T("a"), EMPTY, 5, ARGS(""), REKUSOYEN_TOO_LARGE, EMPTY, EMPTY},
    {"init text that is not printable", EMPTY, EMPTY, 1, ARGS("\x80"), REKUSOYEN_INVALID_ASCII, EMPTY, EMPTY},

    {"a key and a value", EMPTY, EMPTY, 8, PAIR("foo", "bar"), REKUSOYEN_ACCEPTED, T("foo=bar"), EMPTY},
    {"no room for them", EMPTY, EMPTY, 7, PAIR("foo", "bar"), REKUSOYEN_TOO_LARGE, EMPTY, EMPTY},
    {"both empty", T("a"), EMPTY, 4, PAIR("", ""), REKUSOYEN_ACCEPTED, T("a ="), EMPTY},
    {"a quoted value", T("a"), T("z"), 15, PAIR("k", "\"v v\""), REKUSOYEN_ACCEPTED, T("a k=\"v v\""), T("z")},
    {"a key that is not printable", EMPTY, EMPTY, 1, PAIR("= \x01", "\"\"\" \n"), REKUSOYEN_INVALID_ASCII, EMPTY, EMPTY},
    {"a key with a space", EMPTY, EMPTY, 1, PAIR("= ", "\"\"\" \n"), REKUSOYEN_HAS_SPACE, EMPTY, EMPTY},
    {"a key with an equals sign", EMPTY, EMPTY, 1, PAIR("=", "\"\"\" \n"), REKUSOYEN_HAS_EQUALS, EMPTY, EMPTY},
    {"a value that is not printable", EMPTY, EMPTY, 1, PAIR("k", "\"\"\" \n"), REKUSOYEN_INVALID_ASCII, EMPTY, EMPTY},
    {"a quote inside a value", EMPTY, EMPTY, 1, PAIR("k", "\"\"\" "), REKUSOYEN_INVALID_QUOTE, EMPTY, EMPTY},
    {"a space in a value that is not quoted", EMPTY, EMPTY, 1, PAIR("k", "\"v "), REKUSOYEN_NO_QUOTE_SPACE, EMPTY, EMPTY},

    {"three values", T("a"), EMPTY, 12, LIST("k", "12345", 3, 2, 2, 5), REKUSOYEN_ACCEPTED, T("a k=12,,345"), EMPTY},
    {"no room for three", T("a"), EMPTY, 11, LIST("k", "12345", 3, 2, 2, 5), REKUSOYEN_TOO_LARGE, EMPTY, EMPTY},
    {"ends that fall", EMPTY, EMPTY, 1, LIST("\x01", "12345", 3, 3, 2, 5), REKUSOYEN_BAD_LIST, EMPTY, EMPTY},
    {"a last end below the length", EMPTY, EMPTY, 1, LIST("\x01", "12345", 2, 2, 4), REKUSOYEN_BAD_LIST, EMPTY, EMPTY},
    {"a last end past the length", EMPTY, EMPTY, 1, LIST("\x01", "12345", 1, UINT64_MAX), REKUSOYEN_BAD_LIST, EMPTY, EMPTY},
    {"a list's key that is not printable", EMPTY, EMPTY, 1, LIST("= \x01", "1", 0, 0), REKUSOYEN_INVALID_ASCII, EMPTY, EMPTY},
    {"a list's key with a space", EMPTY, EMPTY, 1, LIST("= ", "1", 0, 0), REKUSOYEN_HAS_SPACE, EMPTY, EMPTY},
    {"a list's key with an equals sign", EMPTY, EMPTY, 1, LIST("=", "1", 0, 0), REKUSOYEN_HAS_EQUALS, EMPTY, EMPTY},
    {"no values", EMPTY, EMPTY, 1, LIST("k", "1", 0, 0), REKUSOYEN_MISSING_VAL, EMPTY, EMPTY},
    {"the first value at fault", EMPTY, EMPTY, 1, LIST("k", "a b\n", 2, 3, 4), REKUSOYEN_NO_QUOTE_SPACE, EMPTY, EMPTY},
    {"the second value at fault", EMPTY, EMPTY, 1, LIST("k", "ab\n", 2, 2, 3), REKUSOYEN_INVALID_ASCII, EMPTY, EMPTY},
    {"a quote inside the last value", EMPTY, EMPTY, 1, LIST("k", "\"a\"b", 2, 1, 4), REKUSOYEN_INVALID_QUOTE, EMPTY, EMPTY},

#define NAME "virtio_mmio.device="
    {"a device", EMPTY, EMPTY, 99, DEVICE(4096, 4096, 5, 1, 42), REKUSOYEN_ACCEPTED, T(NAME "4K@0x1000:5:42"), EMPTY},
    {"a device without an ID", T("a"), EMPTY, 99, DEVICE(3 << 20, 0xabc, 0, 0, 7),
     REKUSOYEN_ACCEPTED, T("a " NAME "3M@0xabc:0"), EMPTY},
    {"a device of G", EMPTY, EMPTY, 99, DEVICE(1 << 30, 0, 5, 9, 0), REKUSOYEN_ACCEPTED, T(NAME "1G@0x0:5:0"), EMPTY},
    {"the longest device", EMPTY, EMPTY, 81, DEVICE(UINT64_MAX, UINT64_MAX, UINT32_MAX, UINT32_MAX, UINT32_MAX),
     REKUSOYEN_ACCEPTED, T(NAME "18446744073709551615@0xffffffffffffffff:4294967295:4294967295"), EMPTY},
    {"no room for a device", EMPTY, EMPTY, 33, DEVICE(4096, 4096, 5, 1, 42), REKUSOYEN_TOO_LARGE, EMPTY, EMPTY},
    {"a device of size 0", EMPTY, EMPTY, 1, DEVICE(0, 4096, 5, 1, 42), REKUSOYEN_MMIO_SIZE, EMPTY, EMPTY},
};

/* Makes a call on bytes that hold `before`. */
static void check_call(
    const char *what, const struct line *before, const struct call *call, uint32_t answer, const struct line *after)
{
    struct lent line = lend_bytes(before->bytes, sizeof before->bytes);
    CHECK_ANSWER(what, make_call(what, call, &line), answer);
    CHECK_LEFT(what, &line, answer == REKUSOYEN_ACCEPTED ? after->bytes : before->bytes);
}

/* The longest texts that a line takes. */
static void check_longest(void)
{
    uint8_t text[REKUSOYEN_LINE_LIMIT];
    memset(text, 'x', sizeof text);
    const struct text none = EMPTY, longest = {text, sizeof text - 1}, longer = {text, sizeof text};
    const struct line empty = line_of(none, none, REKUSOYEN_LINE_LIMIT), full = line_of(longest, none, REKUSOYEN_LINE_LIMIT);
    const struct call insert = {.function = INSERT_STR, .text = longest}, more = {.function = INSERT_STR, .text = longer};
    const struct call make = {.function = TRY_FROM, .text = longest, .capacity = REKUSOYEN_LINE_LIMIT};
    const struct call make_more = {.function = TRY_FROM, .text = longer, .capacity = REKUSOYEN_LINE_LIMIT};
    const struct call space = STR("");
    check_call("the longest slug", &empty, &insert, REKUSOYEN_ACCEPTED, &full);
    check_call("a longer slug", &empty, &more, REKUSOYEN_TOO_LARGE, NULL);
    check_call("a full line", &full, &space, REKUSOYEN_TOO_LARGE, NULL);
    check_call("the longest text", &empty, &make, REKUSOYEN_ACCEPTED, &full);
    check_call("a longer text", &full, &make_more, REKUSOYEN_INVALID_CAPACITY, NULL);
}

void test_line_calls(void)
{
    for (size_t i = 0; i < sizeof makings / sizeof makings[0]; i++) {
        const struct line after = line_of(makings[i].boot, makings[i].init, makings[i].call.capacity);
        struct line before;
        memset(before.bytes, 0x5a, sizeof before.bytes);
        check_call(makings[i].what, &before, &makings[i].call, makings[i].answer, &after);
    }
    for (size_t i = 0; i < sizeof rows / sizeof rows[0]; i++) {
        const struct line before = line_of(rows[i].boot, rows[i].init, rows[i].capacity);
        const struct line after = line_of(rows[i].boot_after, rows[i].init_after, rows[i].capacity);
        check_call(rows[i].what, &before, &rows[i].call, rows[i].answer, &after);
    }
    check_longest();
}
