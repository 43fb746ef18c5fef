/* The tests, one subject each. */
#ifndef TESTS_H
#define TESTS_H

void test_answers(void);
void test_formats(void);
void test_elf(void);
void test_notes(void);
void test_bzimage(void);
void test_arm64(void);
void test_pages(void);
void test_starts(void);
void test_line_calls(void);
void test_line_bytes(void);
void test_line_output(void);
void test_maps(void);
void test_steps(void);
void test_plans(void);
void test_line_words(void);
void test_jobs(void);
void test_boots(void);
void test_layout(void);
void test_long_slices(void);
void test_empty_slices(void);
void test_stack(void);

#endif
