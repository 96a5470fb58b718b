/* A C program that runs frame scripts: one with a table, one that is refused, one whose text finds no room, and one in
 * two threads at once. It checks each answer, and ends with 0 where all are right. `tools/host` builds and runs it. */
#include "frame_jobs.h"

#include <pthread.h>
#include <stdio.h>
#include <string.h>

static const char prices[] =
    "parallel double_all(p: rw array) { p[index] = p[index] * 2; }\n"
    "column p \"price\"\n"
    "schedule doubled double_all(p) 3 1\n"
    "complete doubled\n"
    "print p\n";
static const char table[] = "price\n3\n5\n7\n";
static const char doubled[] = "p = [6, 10, 14]\n";

/* Runs a script, shows what it answers, and says whether that is what was wanted. */
static int answers(const char *script, const char *rows, size_t size, int wanted, const char *text)
{
    uint8_t out[256];
    size_t len = 0;
    int status = frame_jobs_run((const uint8_t *)script, strlen(script), rows != NULL, (const uint8_t *)rows,
                                rows == NULL ? 0 : strlen(rows), out, size, &len);
    size_t there = len < size ? len : size;
    printf("status %d, %zu bytes: %.*s\n", status, len, (int)there, (const char *)out);
    return status == wanted && there == strlen(text) && memcmp(out, text, there) == 0;
}

/* Runs the script many times, and counts the answers that are wrong. */
static void *repeat(void *wrong)
{
    for (int i = 0; i < 500; i++) {
        uint8_t out[64];
        size_t len = 0;
        int status = frame_jobs_run((const uint8_t *)prices, strlen(prices), true, (const uint8_t *)table,
                                    strlen(table), out, sizeof out, &len);
        if (status != FRAME_JOBS_DONE || len != strlen(doubled) || memcmp(out, doubled, len) != 0)
            ++*(int *)wrong;
    }
    return NULL;
}

/* Two threads at once; answers how many answers were wrong. */
static int in_two_threads(void)
{
    int first = 0, second = 0;
    pthread_t one, two;
    if (pthread_create(&one, NULL, repeat, &first) != 0 || pthread_create(&two, NULL, repeat, &second) != 0)
        return 1;
    pthread_join(one, NULL);
    pthread_join(two, NULL);
    return first + second;
}

int main(void)
{
    int right = answers(prices, table, 256, FRAME_JOBS_DONE, doubled);
    right &= answers("array a\n", NULL, 256, FRAME_JOBS_SCRIPT_REFUSED, "script refused line 1: syntax\n");
    right &= answers(prices, NULL, 256, FRAME_JOBS_TABLE_REFUSED, "table refused: no column price\n");
    right &= answers(prices, table, 5, FRAME_JOBS_NO_ROOM, "p = [");
    int wrong = in_two_threads();
    printf("two threads, 1000 calls: %d wrong\n", wrong);
    return right && wrong == 0 ? 0 : 1;
}
