/* How long one call of frame_jobs_run takes: the least mean of some rounds, in microseconds by the clock. `tools/host
 * --times` builds and runs it; docs/SPEED.md has what it said. */
#define _POSIX_C_SOURCE 199309L
#include "frame_jobs.h"
#include <stdio.h>
#include <stdlib.h>
#include <string.h>
#include <time.h>

enum { ROUNDS = 9, MANY = 10000, ROOM = 1 << 20 };

static uint8_t out[ROOM];

static double now(void)
{
    struct timespec at;
    clock_gettime(CLOCK_MONOTONIC, &at);
    return (double)at.tv_sec * 1e6 + (double)at.tv_nsec * 1e-3;
}

static void run(const char *script, size_t len)
{
    size_t out_len;
    int status = frame_jobs_run((const uint8_t *)script, len, false, NULL, 0, out, sizeof out, &out_len);
    if (status != 0) {
        fprintf(stderr, "a script ended with status %d\n", status);
        exit(1);
    }
}

/* The least mean of one call, in rounds of so many. */
static void tell(const char *what, const char *script, int calls)
{
    size_t len = strlen(script);
    double least = 1e12;
    run(script, len);
    for (int round = 0; round < ROUNDS; round++) {
        double began = now();
        for (int k = 0; k < calls; k++)
            run(script, len);
        double mean = (now() - began) / calls;
        least = mean < least ? mean : least;
    }
    printf("%s: %.1f\n", what, least);
}

int main(void)
{
    static char numbers[MANY * 8], printed[MANY * 8 + 16];
    char *at = numbers + sprintf(numbers, "array x %d =", MANY);
    for (int k = 0; k < MANY; k++)
        at += sprintf(at, " %d", k * 7 % 1000);
    strcpy(at, "\n");
    sprintf(printed, "%sprint x\n", numbers);

    tell("an empty script", "", 20000);
    tell("an array of four numbers and its print", "array x 4 = 1 2 3 4\nprint x\n", 10000);
    tell("one job over four elements",
         "job triple(x: ro array, y: wo array) { for k in 0..len(x) { y[k] = x[k] * 3; } }\n"
         "array x 4 = 1 2 3 4\narray y 4\nschedule h triple(x, y)\ncomplete h\nprint y\n", 5000);
    tell("10,000 indexes in 40 pieces",
         "parallel fall(y: rw array, v: rw array) { v[index] = v[index] - 10; y[index] = y[index] + v[index]; }\n"
         "array y 10000\narray v 10000\nschedule h fall(y, v) 10000 250\ncomplete h\n", 200);
    tell("an array of 10,000 numbers, read from text", numbers, 200);
    tell("and printed", printed, 200);
    return 0;
}
