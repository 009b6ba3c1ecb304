/* tv.h: checks one LLVM module against another, in this process. docs/C_API.md says how to use it.
 *
 *     tv_options options = TV_DEFAULT_OPTIONS;
 *     tv_report *report;
 *     uint32_t status = tv_check(source, source_length, target, target_length, &options, &report);
 *     ..
 *     tv_free(report);
 *
 * The library's own functions are tv_check_into and tv_version, which are proved. The functions that this
 * file defines are C, and nothing is proved of them: they keep a report in memory of malloc, and refuse null
 * pointers. The library hands no memory out and keeps none between calls, so a handle is made here.
 *
 * Link with libtv_c.a and the kit's C library (liblibc_c.a), through which tv calls malloc, realloc and free.
 *
 * What each call asks of its caller, which nothing checks:
 *   - a pointer points to as many bytes as the length beside it says, and a length is below 2^63;
 *   - the bytes of a report's buffer and report_length overlap nothing else that the call is given, and no
 *     other thread reads or writes them during the call;
 *   - nothing writes the texts and the options during the call;
 *   - it is not called from a signal handler, nor in the forked child of a process with threads;
 *   - malloc, realloc and free are those of one allocator, and align a block to each power of two up to 16
 *     that divides its size;
 *   - the thread has a stack of 8 MiB, as threads have by default.
 * Calls may run in several threads at once. Each runs on the caller's thread and starts none.
 */
#ifndef TV_H
#define TV_H

#include <stddef.h>
#include <stdint.h>
#include <stdlib.h>
#include <string.h>

#ifdef __cplusplus
extern "C" {
#endif

/* The version of the report's form, as tv_version writes it: a report begins with "tv " and it. */
#define TV_VERSION "1"

/* The options of `tv check` with these names, in their ranges: turns 0 to 64, blocks 0 to 4, bytes 0 to 32,
 * rounds 0 to 4096, conflicts 0 (no limit) to 2^63 - 1, weight 1 to 10000000. */
typedef struct tv_options {
    uint64_t turns;
    uint64_t blocks;
    uint64_t bytes;
    uint64_t rounds;
    uint64_t conflicts;
    uint64_t weight;
} tv_options;

/* What `tv check` takes where an option is not given. */
#define TV_DEFAULT_OPTIONS {4, 2, 8, 64, 0, 100000}

/* What a check answers. 0 to 9 are the statuses of `tv check`. */
enum {
    TV_CORRECT = 0,      /* all rows are correct, or there are none */
    TV_INCORRECT = 1,    /* a row is incorrect */
    TV_UNKNOWN = 2,      /* none is incorrect, one is unknown */
    TV_NOT_JUDGED = 3,   /* none of these, and a function was not judged */
    TV_TOO_LONG = 6,     /* a text has more than 16777216 bytes: a line says which */
    TV_NO_MEMORY = 8,    /* memory ran out: there is no report */
    TV_NO_MODULE = 9,    /* a text is no module: a line says which, and where */
    TV_BAD_OPTIONS = 16, /* an option is out of its range: there is no report */
    TV_NULL = 17         /* a pointer is null: there is no report (tv_check) */
};

/* Checks two texts, and copies the first bytes of the report into `report`, as many as fit into
 * `report_room`. *report_length is the length of the whole report, 0 where there is none. Where that is
 * greater than the room, a call with more room gives the whole, and judges again. The report's bytes end
 * with a line feed, and no byte 0 comes after them. No pointer may be null, also for a length of 0. */
uint32_t tv_check_into(const char *source, size_t source_length, const char *target,
                       size_t target_length, const tv_options *options, char *report,
                       size_t report_room, size_t *report_length);

/* Copies as much of the version as fits into `room`, without a byte 0 after it, and answers its length. */
size_t tv_version(char *version, size_t room);

/* A report, or the line that says why there is none. */
typedef struct tv_report {
    size_t length;
    char *bytes;
} tv_report;

/* The length of a report. */
static inline size_t tv_report_length(const tv_report *report) {
    return report == NULL ? 0 : report->length;
}

/* Copies as much of a report as fits into `room`, and answers its whole length. */
static inline size_t tv_report_copy(const tv_report *report, char *room, size_t length) {
    size_t whole = tv_report_length(report);
    if (room != NULL && whole != 0 && length != 0) {
        memcpy(room, report->bytes, whole < length ? whole : length);
    }
    return whole;
}

/* Frees a report. A null pointer is none. */
static inline void tv_free(tv_report *report) {
    if (report != NULL) {
        free(report->bytes);
        free(report);
    }
}

/* A report with room for so many bytes, or null. */
static inline tv_report *tv_report_with_room(size_t room) {
    tv_report *report = (tv_report *)malloc(sizeof *report);
    if (report == NULL) {
        return NULL;
    }
    report->length = 0;
    report->bytes = (char *)malloc(room);
    if (report->bytes == NULL) {
        free(report);
        return NULL;
    }
    return report;
}

/* Checks two texts. With 0 to 3, 6 and 9 *out is the report or the line, to be given to tv_free; else it
 * is null. A report of more than 65536 bytes is judged twice. */
static inline uint32_t tv_check(const char *source, size_t source_length, const char *target,
                                size_t target_length, const tv_options *options, tv_report **out) {
    size_t room = 65536;
    if (out != NULL) {
        *out = NULL;
    }
    if (source == NULL || target == NULL || options == NULL || out == NULL) {
        return TV_NULL;
    }
    for (;;) {
        tv_report *report = tv_report_with_room(room);
        uint32_t status;
        if (report == NULL) {
            return TV_NO_MEMORY;
        }
        status = tv_check_into(source, source_length, target, target_length, options,
                               report->bytes, room, &report->length);
        if (status == TV_NO_MEMORY || status == TV_BAD_OPTIONS) {
            tv_free(report);
            return status;
        }
        if (report->length <= room) {
            *out = report;
            return status;
        }
        room = report->length;
        tv_free(report);
    }
}

#ifdef __cplusplus
}
#endif

#endif
