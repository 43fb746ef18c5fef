/* The desk program over the library: reads a job from standard input and prints what came of it. */
#include "rekusoyen.h"

#include <stdio.h>
#include <string.h>

/* One byte more than a job may have, so that a longer one is seen to be longer. */
static uint8_t job[REKUSOYEN_JOB_LIMIT + 1];

int main(void)
{
    uint8_t text[REKUSOYEN_JOB_TEXT_SIZE];
    const size_t size = fread(job, 1, sizeof job, stdin);
    if (ferror(stdin) || rekusoyen_job(job, size, text, sizeof text) != REKUSOYEN_ACCEPTED)
        return 1;
    const char *const end = memchr(text, 0, sizeof text);
    const size_t length = end != NULL ? (size_t)(end - (const char *)text) : sizeof text;
    return fwrite(text, 1, length, stdout) != length || fflush(stdout) != 0;
}
