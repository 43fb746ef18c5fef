/* Jobs of the desk program. */
#include "check.h"
#include "images.h"
#include "tests.h"

#include <string.h>

/* Makes a job, and checks that exactly this text comes of it, and zeros after it. */
static void check_job(const char *what, const void *bytes, size_t size, const char *expected)
{
    uint8_t all[REKUSOYEN_JOB_TEXT_SIZE] = {0};
    struct lent job = lend_bytes(bytes, size), text = lend_filled(sizeof all);
    memcpy(all, expected, strlen(expected));
    CHECK_ANSWER(what, rekusoyen_job(job.bytes, job.size, text.bytes, text.size), REKUSOYEN_ACCEPTED);
    CHECK_KEPT(what, &job);
    CHECK_LEFT(what, &text, all);
}

void test_jobs(void)
{
    const struct image image = small_elf();
    const char *const line = "quiet";
    struct image job = job_of(&image, NULL);
    check_job("an image", job.bytes, job.size, "load 16\nend 24\npvh ignored\n");
    check_job("a job that is cut", job.bytes, job.size - 1, "refused 70\n");
    check_job("an empty job", NULL, 0, "refused 70\n");
    static const uint8_t longest[REKUSOYEN_JOB_LIMIT + 1];
    check_job("a job that is too long", longest, sizeof longest, "refused 70\n");
    job = job_of(&image, line);
    check_job("an image with a line", job.bytes, job.size, "load 16\nend 24\npvh ignored\n");
    job.bytes[job.size - 3] = 0;
    check_job("a line that is refused", job.bytes, job.size, "refused 31\n");

    job = job_of(&image, line);
    for (size_t size = 0; size <= REKUSOYEN_JOB_TEXT_SIZE + 1; size++) {
        if (size == REKUSOYEN_JOB_TEXT_SIZE)
            continue;
        struct lent text = lend_filled(size);
        CHECK_ANSWER("a text of another size", rekusoyen_job(job.bytes, job.size, text.bytes, size), REKUSOYEN_NO_ROOM);
        CHECK_KEPT("a text of another size", &text);
    }
}
