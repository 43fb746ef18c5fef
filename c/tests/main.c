/* Runs every test. With the word `small-elf` it writes a small ELF image to standard output instead, for the example. */
#include "check.h"
#include "images.h"
#include "tests.h"

#include <stdio.h>
#include <string.h>

int main(int count, char **words)
{
    if (count == 2 && strcmp(words[1], "small-elf") == 0) {
        const struct image image = small_elf();
        return fwrite(image.bytes, 1, image.size, stdout) != image.size;
    }
    test_answers();
    test_formats();
    test_elf();
    test_notes();
    test_bzimage();
    test_arm64();
    test_pages();
    test_starts();
    test_line_calls();
    test_line_bytes();
    test_line_output();
    test_maps();
    test_steps();
    test_plans();
    test_line_words();
    test_jobs();
    test_boots();
    test_layout();
    test_long_slices();
    test_empty_slices();
    check_all_reached();
    test_stack();
    return report();
}
