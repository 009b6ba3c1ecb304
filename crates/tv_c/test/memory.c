/* Lets each allocation of a check fail in turn, and ends with 0 where each call says so, and the first call
 * in which none fails has the report. Linked with --wrap=malloc and --wrap=realloc. */
#include <stdio.h>

#include "tv.h"

static const char SAME[] = "define i8 @f(i8 %x) {\n  ret i8 %x\n}\n";
static const tv_options USUAL = TV_DEFAULT_OPTIONS;

void *__real_malloc(size_t size);
void *__real_realloc(void *block, size_t size);
void *__wrap_malloc(size_t size);
void *__wrap_realloc(void *block, size_t size);

/* How many allocations come before the one that fails, and whether it was reached. */
static long left;
static int failed;

static int fails(void) {
    if (left == 0) {
        failed = 1;
        return 1;
    }
    left--;
    return 0;
}

void *__wrap_malloc(size_t size) {
    return fails() ? NULL : __real_malloc(size);
}

void *__wrap_realloc(void *block, size_t size) {
    return fails() ? NULL : __real_realloc(block, size);
}

int main(void) {
    char room[1024];
    for (long before = 0; before < 1000000; before++) {
        size_t length = 1;
        left = before;
        failed = 0;
        uint32_t status = tv_check_into(SAME, strlen(SAME), SAME, strlen(SAME), &USUAL, room,
                                        sizeof room, &length);
        if (!failed) {
            return status == TV_CORRECT && before > 0 ? 0 : 1;
        }
        /* a call may do without what it did not get */
        if (status != TV_CORRECT && !(status == TV_NO_MEMORY && length == 0)) {
            fprintf(stderr, "allocation %ld: status %u\n", before, (unsigned)status);
            return 2;
        }
    }
    return 3;
}
