/* Calls the C library, and ends with the number of the first check that fails, or 0. */
#include <pthread.h>
#include <stdio.h>

#include "tv.h"

#define CHECK(n, held)                       \
    do {                                     \
        if (!(held)) {                       \
            fprintf(stderr, "check %d\n", n); \
            return n;                        \
        }                                    \
    } while (0)

static const char SAME[] = "define i8 @f(i8 %x) {\n  ret i8 %x\n}\n";
static const char OTHER[] = "define i8 @f(i8 %x) {\n  ret i8 0\n}\n";
static const char NONE[] = "define i8 @f(i8 %x) {\n";

static const char CORRECT[] =
    "tv 2 turns 4 blocks 2 bytes 8 rounds 64 conflicts 0 weight 100000\n"
    "@f correct\n"
    "correct 1 incorrect 0 unknown 0 refused 0 signature 0 missing 0 extra 0\n";
static const char INCORRECT[] =
    "tv 2 turns 4 blocks 2 bytes 8 rounds 64 conflicts 0 weight 100000\n"
    "@f incorrect\n"
    "  arg 0 = 1\n"
    "  source returns 1\n"
    "  target returns 0\n"
    "correct 0 incorrect 1 unknown 0 refused 0 signature 0 missing 0 extra 0\n";
static const char STOPPED[] = "target:2:1: text ends\n";

static const tv_options USUAL = TV_DEFAULT_OPTIONS;

/* Whether a check of SAME against a text has this status and this report. */
static int answers(const char *target, uint32_t status, const char *text) {
    char room[1024];
    tv_report *report;
    uint32_t got = tv_check(SAME, strlen(SAME), target, strlen(target), &USUAL, &report);
    size_t length = tv_report_length(report);
    int same = got == status && length == strlen(text) && length <= sizeof room &&
               tv_report_copy(report, room, sizeof room) == length && memcmp(room, text, length) == 0;
    tv_free(report);
    return same;
}

/* What a thread does: the same check again and again. */
struct work {
    const char *target;
    uint32_t status;
    const char *text;
    int held;
};

static void *works(void *given) {
    struct work *work = (struct work *)given;
    work->held = 1;
    for (int i = 0; i < 8; i++) {
        work->held = work->held && answers(work->target, work->status, work->text);
    }
    return NULL;
}

static int two_threads(void) {
    struct work work[2] = {{SAME, TV_CORRECT, CORRECT, 0}, {OTHER, TV_INCORRECT, INCORRECT, 0}};
    pthread_t threads[2];
    for (int i = 0; i < 2; i++) {
        if (pthread_create(&threads[i], NULL, works, &work[i]) != 0) {
            return 0;
        }
    }
    for (int i = 0; i < 2; i++) {
        pthread_join(threads[i], NULL);
    }
    return work[0].held && work[1].held;
}

int main(void) {
    CHECK(1, answers(SAME, TV_CORRECT, CORRECT));
    CHECK(2, answers(OTHER, TV_INCORRECT, INCORRECT));
    CHECK(3, answers(NONE, TV_NO_MODULE, STOPPED));

    /* an empty module against one with a function: an extra one */
    tv_report *report;
    CHECK(4, tv_check("", 0, SAME, strlen(SAME), &USUAL, &report) == TV_NOT_JUDGED);
    tv_free(report);

    /* options out of range */
    tv_options options = USUAL;
    options.turns = 65;
    CHECK(5, tv_check(SAME, strlen(SAME), SAME, strlen(SAME), &options, &report) == TV_BAD_OPTIONS);
    CHECK(6, report == NULL && tv_report_length(report) == 0);
    options = USUAL;
    options.weight = 0;
    CHECK(7, tv_check(SAME, strlen(SAME), SAME, strlen(SAME), &options, &report) == TV_BAD_OPTIONS);
    options = USUAL;
    options.conflicts = (uint64_t)1 << 63;
    CHECK(8, tv_check(SAME, strlen(SAME), SAME, strlen(SAME), &options, &report) == TV_BAD_OPTIONS);

    /* null pointers */
    CHECK(9, tv_check(NULL, 0, SAME, strlen(SAME), &USUAL, &report) == TV_NULL && report == NULL);
    CHECK(10, tv_check(SAME, strlen(SAME), SAME, strlen(SAME), NULL, &report) == TV_NULL);
    CHECK(11, tv_check(SAME, strlen(SAME), SAME, strlen(SAME), &USUAL, NULL) == TV_NULL);

    /* a small buffer: its bytes are the report's first, and nothing is written behind it */
    char small[8] = "........";
    size_t length = 0;
    CHECK(12, tv_check_into(SAME, strlen(SAME), SAME, strlen(SAME), &USUAL, small, 4, &length) == TV_CORRECT);
    CHECK(13, length == strlen(CORRECT) && memcmp(small, "tv 2....", 8) == 0);
    CHECK(14, tv_check_into(SAME, strlen(SAME), SAME, strlen(SAME), &USUAL, small, 0, &length) == TV_CORRECT);
    CHECK(15, length == strlen(CORRECT) && memcmp(small, "tv 2....", 8) == 0);

    /* a text that is too long */
    size_t many = 16777217;
    char *blanks = (char *)malloc(many);
    CHECK(16, blanks != NULL);
    memset(blanks, ' ', many);
    CHECK(17, tv_check(blanks, many, SAME, strlen(SAME), &USUAL, &report) == TV_TOO_LONG);
    char line[32];
    CHECK(18, tv_report_copy(report, line, sizeof line) == 16 && memcmp(line, "too long source\n", 16) == 0);
    tv_free(report);
    free(blanks);

    /* the version */
    char version[8] = "........";
    CHECK(19, tv_version(version, sizeof version) == strlen(TV_VERSION));
    CHECK(20, memcmp(version, TV_VERSION, strlen(TV_VERSION)) == 0 && version[strlen(TV_VERSION)] == '.');

    CHECK(21, two_threads());
    return 0;
}
