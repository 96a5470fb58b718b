/* An engine's loop: 1,000 frames over 10,000 particles, each frame a script of eight jobs that is run by four threads of
 * the host. The arrays go in as numbers and come back as numbers, and are compared with the same in plain C. Then it
 * prints what a frame costs. It ends with 0 where all is right. `tools/host` builds and runs it.
 *
 * host [FRAMES] runs so many frames; 1,000 where none is given. */
#define _POSIX_C_SOURCE 200809L
#include "frame_jobs.h"

#include <pthread.h>
#include <sched.h>
#include <stdatomic.h>
#include <stdio.h>
#include <stdlib.h>
#include <string.h>
#include <time.h>

enum { PARTICLES = 10000, HELPERS = 3, ROUNDS = 200 };

static const char script[] =
    "parallel pull(v: rw array, p: ro array) { v[index] = v[index] - p[index] / 64; }\n"
    "parallel slow(v: rw array) { v[index] = v[index] - v[index] / 128; }\n"
    "parallel move(p: rw array, v: ro array) { p[index] = p[index] + v[index]; }\n"
    "parallel weigh(e: wo array, u: ro array, w: ro array) { e[index] = u[index] * u[index] + w[index] * w[index]; }\n"
    "job total(e: ro array, t: wo ref) { var s = 0; for k in 0..len(e) { s = s + e[k]; } t = s; }\n"
    "column x \"x\"\n"
    "column y \"y\"\n"
    "column u \"u\"\n"
    "column w \"w\"\n"
    "array e 10000\n"
    "reference t\n"
    "schedule pulled_x pull(u, x) 10000 500\n"
    "schedule pulled_y pull(w, y) 10000 500\n"
    "schedule slowed_x slow(u) 10000 500 after pulled_x\n"
    "schedule slowed_y slow(w) 10000 500 after pulled_y\n"
    "schedule moved_x move(x, u) 10000 500 after slowed_x\n"
    "schedule moved_y move(y, w) 10000 500 after slowed_y\n"
    "schedule weighed weigh(e, u, w) 10000 500 after slowed_x slowed_y\n"
    "schedule done total(e, t) after weighed\n"
    "complete done\n"
    "complete moved_x\n"
    "complete moved_y\n";

/* Places, speeds and the energy of the particles. */
typedef struct {
    int64_t x[PARTICLES], y[PARTICLES], u[PARTICLES], w[PARTICLES], e[PARTICLES], total;
} world;

static world ours, plain;

static void must(int well, const char *what)
{
    if (!well) {
        fprintf(stderr, "host: %s\n", what);
        exit(1);
    }
}

static double microseconds(void)
{
    struct timespec now;
    clock_gettime(CLOCK_MONOTONIC, &now);
    return (double)now.tv_sec * 1e6 + (double)now.tv_nsec / 1e3;
}

static void begin(world *it)
{
    for (int64_t i = 0; i < PARTICLES; i++) {
        it->x[i] = (i * 7919) % 20011 - 10000;
        it->y[i] = (i * 104729) % 30011 - 15000;
        it->u[i] = i % 17 - 8;
        it->w[i] = i % 23 - 11;
    }
}

/* A frame in plain C. */
static void step(world *it)
{
    for (int i = 0; i < PARTICLES; i++)
        it->u[i] -= it->x[i] / 64;
    for (int i = 0; i < PARTICLES; i++)
        it->w[i] -= it->y[i] / 64;
    for (int i = 0; i < PARTICLES; i++)
        it->u[i] -= it->u[i] / 128;
    for (int i = 0; i < PARTICLES; i++)
        it->w[i] -= it->w[i] / 128;
    for (int i = 0; i < PARTICLES; i++)
        it->x[i] += it->u[i];
    for (int i = 0; i < PARTICLES; i++)
        it->y[i] += it->w[i];
    for (int i = 0; i < PARTICLES; i++)
        it->e[i] = it->u[i] * it->u[i] + it->w[i] * it->w[i];
    it->total = 0;
    for (int i = 0; i < PARTICLES; i++)
        it->total += it->e[i];
}

/* THE HOST'S THREADS. Each of them waits for a helper to be handed to it, and helps until its section is run. */
typedef struct {
    pthread_t thread;
    frame_handle helper;
    atomic_int has; /* 1: there is a helper; 0: none; -1: the thread may end */
} worker;

static worker workers[HELPERS];

static void *work(void *argument)
{
    worker *own = argument;
    for (;;) {
        int has = atomic_load(&own->has);
        if (has < 0)
            return NULL;
        if (has == 0) {
            sched_yield();
            continue;
        }
        for (uint8_t turn = FRAME_AGAIN; turn != FRAME_OVER; turn = frame_help(&own->helper))
            if (turn == FRAME_IDLE)
                sched_yield();
        frame_close(&own->helper);
        atomic_store(&own->has, 0);
    }
}

/* Runs one section of a frame with so many of the host's other threads. */
static uint8_t run_section(frame_handle *frame, uint32_t helpers)
{
    must(frame_next(frame, helpers) == FRAME_JOBS_DONE, "no section");
    for (uint32_t k = 0; k < helpers; k++)
        if (frame_helper(frame, &workers[k].helper) == FRAME_JOBS_DONE)
            atomic_store(&workers[k].has, 1);
    while (frame_turn(frame) == FRAME_AGAIN) {}
    uint8_t status = frame_end(frame);
    for (; status == FRAME_BUSY; status = frame_end(frame))
        sched_yield();
    return status;
}

static void give(frame_handle *columns, const char *name, const int64_t *values)
{
    must(frame_column(columns, (const uint8_t *)name, strlen(name), values, PARTICLES) == FRAME_JOBS_DONE, "no column");
}

static void take(frame_handle *frame, const char *name, int64_t *values, size_t count)
{
    size_t there;
    must(frame_read(frame, (const uint8_t *)name, strlen(name), values, count, &there) == FRAME_JOBS_DONE
             && there == count, "not read");
}

/* What the parts of frames took, in microseconds. */
typedef struct {
    double in, run, out;
} cost;

/* A frame by the script: arrays in, run, arrays out. */
static cost run_frame(frame_handle *read, world *it, uint32_t helpers)
{
    frame_handle columns = {NULL}, frame = {NULL};
    double start = microseconds();
    give(&columns, "x", it->x);
    give(&columns, "y", it->y);
    give(&columns, "u", it->u);
    give(&columns, "w", it->w);
    must(frame_begin(read, &columns, &frame) == FRAME_JOBS_DONE, "not begun");
    double begun = microseconds();
    uint8_t status;
    do
        status = run_section(&frame, helpers);
    while (status == FRAME_NEXT);
    must(status == FRAME_JOBS_DONE, "another status");
    double ran = microseconds();
    take(&frame, "x", it->x, PARTICLES);
    take(&frame, "y", it->y, PARTICLES);
    take(&frame, "u", it->u, PARTICLES);
    take(&frame, "w", it->w, PARTICLES);
    take(&frame, "e", it->e, PARTICLES);
    take(&frame, "t", &it->total, 1);
    double done = microseconds();
    frame_close(&frame);
    return (cost){begun - start, ran - begun, done - ran};
}

static frame_handle open_script(void)
{
    frame_handle read = {NULL};
    uint32_t line = 0;
    must(frame_open((const uint8_t *)script, strlen(script), &read, &line) == FRAME_JOBS_DONE, "not read");
    return read;
}

/* Calls at wrong times, names that there aren't, and short buffers. */
static void wrong_calls(void)
{
    frame_handle read = open_script(), columns = {NULL}, frame = {NULL}, helper = {NULL};
    uint32_t line = 0;
    int64_t few[3];
    size_t there = 0;
    frame_report_of report;
    must(frame_turn(&frame) == FRAME_NOT_NOW && frame_help(&helper) == FRAME_NOT_NOW, "an empty handle is run");
    must(frame_open((const uint8_t *)"x", 1, &read, &line) == FRAME_NOT_NOW, "a handle is overwritten");
    must(frame_open((const uint8_t *)"array a 2\narray\n", 16, &frame, &line) == FRAME_JOBS_SCRIPT_REFUSED && line == 2,
         "no line");
    must(frame_begin(&read, &columns, &frame) == FRAME_JOBS_TABLE_REFUSED && frame.at == NULL, "a column is missing");
    give(&columns, "x", plain.x);
    give(&columns, "y", plain.y);
    give(&columns, "u", plain.u);
    give(&columns, "w", plain.w);
    must(frame_begin(&read, &columns, &frame) == FRAME_JOBS_DONE && columns.at == NULL, "not begun");
    must(frame_turn(&frame) == FRAME_NOT_NOW && frame_end(&frame) == FRAME_NOT_NOW, "no section was made");
    must(frame_next(&frame, 1) == FRAME_JOBS_DONE, "no section");
    must(frame_helper(&frame, &helper) == FRAME_JOBS_DONE, "no helper");
    must(frame_end(&frame) == FRAME_BUSY, "it ended before it was run");
    must(frame_read(&frame, (const uint8_t *)"x", 1, few, 3, &there) == FRAME_NOT_NOW, "it is read before its end");
    while (frame_turn(&frame) == FRAME_AGAIN) {}
    must(frame_end(&frame) == FRAME_BUSY, "it ended before its helper");
    must(frame_help(&helper) == FRAME_OVER, "it isn't run");
    frame_close(&helper);
    must(frame_help(&helper) == FRAME_NOT_NOW, "a helper runs after its end");
    must(frame_end(&frame) == FRAME_JOBS_DONE, "it doesn't end");
    must(frame_read(&frame, (const uint8_t *)"done", 4, few, 3, &there) == FRAME_NONE, "jobs are read");
    must(frame_read(&frame, (const uint8_t *)"z", 1, few, 3, &there) == FRAME_NONE, "a name that there isn't");
    must(frame_read(&frame, (const uint8_t *)"x", 1, few, 3, &there) == FRAME_JOBS_NO_ROOM && there == PARTICLES,
         "no room");
    must(frame_report(&frame, &report) == FRAME_JOBS_DONE && report.refused == 0 && report.traps == 0, "no report");
    frame_close(&frame);
    frame_close(&read);
}

int main(int count, char **words)
{
    int frames = count > 1 ? atoi(words[1]) : 1000;
    for (int k = 0; k < HELPERS; k++)
        must(pthread_create(&workers[k].thread, NULL, work, &workers[k]) == 0, "no thread");

    begin(&ours);
    begin(&plain);
    double start = microseconds();
    frame_handle read = open_script();
    double opened = microseconds() - start;
    for (int n = 0; n < frames; n++) {
        run_frame(&read, &ours, HELPERS);
        step(&plain);
        must(memcmp(&ours, &plain, sizeof ours) == 0, "a frame differs from plain C");
    }
    printf("%d frames of %d particles by %d threads: as in plain C\n", frames, PARTICLES, HELPERS + 1);
    wrong_calls();
    printf("calls at wrong times: answered, and nothing changed\n");

    printf("microseconds: opening %.0f", opened);
    int rounds = frames < ROUNDS ? frames : ROUNDS;
    for (uint32_t helpers = 0; helpers <= HELPERS; helpers += helpers + 1) {
        cost least = {1e9, 1e9, 1e9};
        for (int n = 0; n < rounds; n++) {
            cost it = run_frame(&read, &ours, helpers);
            least.in = it.in < least.in ? it.in : least.in;
            least.run = it.run < least.run ? it.run : least.run;
            least.out = it.out < least.out ? it.out : least.out;
        }
        printf("; %u threads: arrays in %.0f, run %.0f, arrays out %.0f", helpers + 1, least.in, least.run, least.out);
    }
    double least = 1e9;
    for (int n = 0; n < rounds; n++) {
        double from = microseconds();
        step(&plain);
        double took = microseconds() - from;
        least = took < least ? took : least;
    }
    printf("; plain C on one thread: %.0f\n", least);

    frame_close(&read);
    for (int k = 0; k < HELPERS; k++) {
        atomic_store(&workers[k].has, -1);
        pthread_join(workers[k].thread, NULL);
    }
    return 0;
}
