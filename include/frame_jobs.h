/* Runs frame scripts inside a C or C++ program: whole, on the thread that calls (frame_jobs_run), or frame by frame with
 * the program's own arrays and threads (frame_open and the calls after it).
 *
 * Link libframe_jobs.a and the three functions over malloc, realloc and free in liblibc_c.a of the kit. docs/EMBEDDING.md
 * has a whole program and its link line.
 *
 * Threads: no call starts one, waits, sleeps or takes a lock. A call keeps nothing but what its handles have and touches
 * nothing but what it is given, so several threads may call at once, each with handles, buffers and lengths of its own.
 * Call none from a signal handler, nor in the child of a fork of a program with threads, since they take memory from
 * malloc. None sets a signal handler or raises an exception.
 */
#ifndef FRAME_JOBS_H
#define FRAME_JOBS_H

#ifndef __cplusplus
#include <stdbool.h>
#endif
#include <stddef.h>
#include <stdint.h>

#ifdef __cplusplus
extern "C" {
#endif

/* The statuses are those of the command frame_run; 2 and 6, which are about words and files, don't come. */
enum frame_jobs_status {
    /* The script ran; no statement was refused and no job trapped. The text is what it printed. */
    FRAME_JOBS_DONE = 0,
    /* It ran, a statement was refused and no job trapped. The text is what it printed, with the refusals. */
    FRAME_JOBS_STATEMENT_REFUSED = 1,
    /* The bytes are no script, and nothing ran. The text says at which line and why. */
    FRAME_JOBS_SCRIPT_REFUSED = 3,
    /* The table is none, or lacks a column of the script; nothing ran. The text says what is wrong. */
    FRAME_JOBS_TABLE_REFUSED = 4,
    /* It ran and a job trapped. The text is what it printed, then the first trap and the number of traps. */
    FRAME_JOBS_TRAPPED = 5,
    /* The text is longer than the buffer, which has its first bytes. *out_len is the length of the whole text, so a call
     * with so large a buffer has room. The script ran, or was refused, all the same. */
    FRAME_JOBS_NO_ROOM = 7,
    /* malloc found no memory. *out_len is 0, and what the buffer holds means nothing. */
    FRAME_JOBS_NO_MEMORY = 8,
    /* A limit of the language is passed. The text says which. */
    FRAME_JOBS_PAST_LIMIT = 9
};

/* Runs the script of these bytes, with the table of those bytes where `has_table` is true, and answers a status.
 *
 * In every case but 7 and 8 the first *out_len bytes of `out` are the text, which isn't ended by a zero.
 *
 * All four blocks stay the caller's; none is kept, and nothing is handed over to be freed. `script` and `table` are read
 * alone, and may be NULL where their length is 0. `out` is written and may be NULL where `out_size` is 0. `out` and
 * `out_len` overlap none of the others, and nobody else touches the four blocks meanwhile. No length is above
 * PTRDIFF_MAX. These are the caller's duties, and nothing checks them; every value of the bytes themselves is allowed.
 */
uint8_t frame_jobs_run(const uint8_t *script, size_t script_len, bool has_table, const uint8_t *table, size_t table_len,
                       uint8_t *out, size_t out_size, size_t *out_len);

/* FRAMES: a script is read once and run again and again, with other arrays, by the program's own threads.
 *
 *     frame_open(text, length, &script, &line);               once
 *     frame_column(&columns, name, name_len, values, count);  for each array of the frame
 *     frame_begin(&script, &columns, &frame);
 *     do {
 *         frame_next(&frame, helpers);
 *         frame_helper(&frame, &helper);                      for each thread that helps, which calls
 *                                                             frame_help(&helper) until that answers FRAME_OVER,
 *                                                             and then frame_close(&helper)
 *         while (frame_turn(&frame) == FRAME_AGAIN) {}        meanwhile, on the frame's own thread
 *         status = frame_end(&frame);                         again while that answers FRAME_BUSY
 *     } while (status == FRAME_NEXT);
 *     frame_read(&frame, name, name_len, values, room, &count);
 *     frame_close(&frame);
 *     frame_close(&script);                                   once
 *
 * A handle is the program's to keep and to move, but not to look into. It is empty where `at` is NULL, as it is at first.
 * What it has is given up by frame_close alone, or by a call that says so. A copy of a handle is no second one: use one
 * of them only. A handle may go from thread to thread, by a lock, a start or a join of a thread, or a sequentially
 * consistent atomic, and is given to one call at a time. Different handles, those of one frame and its helpers too, may
 * be given to calls on different threads at once.
 *
 * A call that isn't one for what its handle has answers FRAME_NOT_NOW, and changes nothing: a call at a wrong time is
 * never undefined. Blocks (text, names, values, buffers) stay the caller's, and each call is done with them when it
 * returns; what is said of them at frame_jobs_run holds of each call. No handle overlaps another one or a block.
 */
typedef struct frame_handle {
    void *at;
} frame_handle;

/* What the calls on handles answer beside the statuses above. */
enum frame_status {
    /* The call isn't one for what its handles have. Nothing was changed. */
    FRAME_NOT_NOW = 10,
    /* frame_turn: not all segments of the section are run. frame_help: a piece was run. */
    FRAME_AGAIN = 11,
    /* frame_help: nothing was found to run now. There may be later. */
    FRAME_IDLE = 12,
    /* From then on always. frame_turn: exactly where all segments of the section are run. frame_help: only where this
     * helper has seen that each job of the section is finished, so that nothing is left for it to run; close it. */
    FRAME_OVER = 13,
    /* frame_end: the script tests what it has computed, and goes on: frame_next is the next call. */
    FRAME_NEXT = 14,
    /* frame_end: frame_turn didn't answer FRAME_OVER yet, or helpers aren't closed yet. The frame is as it was. */
    FRAME_BUSY = 15,
    /* frame_helper: exactly where all places are given out. frame_read: no such name, or nothing that can be read as
     * numbers. */
    FRAME_NONE = 16
};

/* Reads a script into an empty handle. 0, or 3 where the bytes are no script, with the line of the first faulty token in
 * *line; 8; or 9 where they are more than a script may have. The handle is empty after all but 0. */
uint8_t frame_open(const uint8_t *script, size_t script_len, frame_handle *handle, uint32_t *line);

/* Gives the empty handle `other` the script of `script`: a second owner, so that another thread can begin frames of it at
 * the same time. 0 or 8. The script is freed when the last of its handles and frames is closed. */
uint8_t frame_share(frame_handle *script, frame_handle *other);

/* Copies an array of numbers into a handle for arrays, or into an empty one, under the name that a `column` statement of
 * the script asks for. Each array has a length of its own; of two of one name the first counts. 0; or 8, and then the
 * handle is empty. */
uint8_t frame_column(frame_handle *columns, const uint8_t *name, size_t name_len, const int64_t *values, size_t count);

/* Begins a frame of a script in the empty handle `frame`, with the arrays of `columns`, which may be empty, and is so
 * afterwards: the frame owns them, or they are given up where there is none. The script stays as it is. 0; 4 where a
 * column is missing; 9 where a limit of the language is passed; or 8. */
uint8_t frame_begin(frame_handle *script, frame_handle *columns, frame_handle *frame);

/* Makes the next section of a frame, the first one too, and all memory that its run needs, with a place for each of so
 * many helpers: exactly the least of `helpers`, of the pieces that its jobs have, and of 63. 0; or 8, and then the frame
 * is given up and its handle empty. */
uint8_t frame_next(frame_handle *frame, uint32_t helpers);

/* Gives the empty handle `helper` a place in the section of `frame`, for another thread. 0; 16 exactly where all places
 * are given out; or 8, and the place is left. A place is given out once: a helper that is closed leaves none. Called by
 * the thread that owns the frame, before or while the section is run. */
uint8_t frame_helper(frame_handle *frame, frame_handle *helper);

/* Runs at most one segment of the script, or one piece of a job while the script waits for a job, and returns at once.
 * 13 exactly where all segments of the section are run, and from then on always; else 11. Called by the thread that owns
 * the frame, which is the script's; it gets through with no helper too. */
uint8_t frame_turn(frame_handle *frame);

/* Runs at most one piece of a job of the helper's section, and returns at once. 13 only where the helper has seen that
 * each job of the section is finished, and from then on always; else 11 or 12. */
uint8_t frame_help(frame_handle *helper);

/* Ends a section of which frame_turn answered 13, once its helpers are closed. 0, 1 or 5: it was the last one, and this is
 * the status of the script; the handle has what it came to, for frame_read, frame_text and frame_report. 14: another one
 * follows. 8: the frame is given up, and its handle empty. 15: not yet, and nothing is changed; only where frame_turn
 * didn't answer 13 in this section, or frame_helper was called for it while a place was left. */
uint8_t frame_end(frame_handle *frame);

/* Copies to `out` what the container of this name holds at the script's end: the elements of an array or a list, or the
 * value of a reference. *out_len is how many there are. 0; or 7 where there are more than `room`, and then `out` has the
 * first ones. 16, and nothing is written, where the script has no such name, or it is one of a map, of a stream, of
 * jobs, of a part of a container, or of a container that was refused, lost or disposed. */
uint8_t frame_read(frame_handle *frame, const uint8_t *name, size_t name_len, int64_t *out, size_t room,
                   size_t *out_len);

/* Copies to `out` what the script prints, with the lines of its refusals and traps. 0; or 7 where that is longer than
 * `room`, and then `out` has the first bytes. *out_len is the length of the whole text. */
uint8_t frame_text(frame_handle *frame, uint8_t *out, size_t room, size_t *out_len);

/* What a frame came to, as numbers. */
typedef struct frame_report_of {
    /* How many statements were refused. */
    uint64_t refused;
    /* How many runs of kernels trapped. */
    uint64_t traps;
    /* The first trap: its job, counted from 1 in the order of the script; its index; and which trap: 1 overflow,
     * 2 division by zero, 3 range, 4 another index's place, 5 full, 6 missing key, 7 present key, 8 written twice,
     * 9 too many steps. Where there is none all three are 0. */
    uint32_t job;
    uint32_t index;
    uint32_t trap;
} frame_report_of;

/* Copies the report of a frame at its end. 0. */
uint8_t frame_report(frame_handle *frame, frame_report_of *report);

/* Gives up what a handle has, whatever it is, and frees it. The handle is empty afterwards. A frame may be given up at any
 * time; while helpers of its section are left, their threads may go on, and the last one that is closed frees it. */
void frame_close(frame_handle *handle);

#ifdef __cplusplus
}
#endif

#endif
