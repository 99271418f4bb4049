/* Commits that nobody waits for, in a process whose memory is refused: one allocation of a commit after the
 * other, until one has none left. After each the file begins again, and what it says then is in the log.
 *
 *   refused ADDRESS
 *
 * It is linked so that malloc, calloc and realloc of the client come by here.
 */
#include "../pagelog_file.h"

#include <sched.h>
#include <stdio.h>
#include <stdlib.h>
#include <string.h>

void *__real_malloc(size_t size);
void *__real_calloc(size_t count, size_t size);
void *__real_realloc(void *old, size_t size);
void *__wrap_malloc(size_t size);
void *__wrap_calloc(size_t count, size_t size);
void *__wrap_realloc(void *old, size_t size);

static long left; /* allocations until one is refused; 0: none is */

static bool is_refused(void) {
    return left > 0 && --left == 0;
}

void *__wrap_malloc(size_t size) {
    return is_refused() ? NULL : __real_malloc(size);
}

void *__wrap_calloc(size_t count, size_t size) {
    return is_refused() ? NULL : __real_calloc(count, size);
}

void *__wrap_realloc(void *old, size_t size) {
    return is_refused() ? NULL : __real_realloc(old, size);
}

static void expect(const char *what, long at, bool holds) {
    if (holds) return;
    fprintf(stderr, "allocation %ld: %s\n", at, what);
    exit(1);
}

static struct pagelog_file *open_as(const char *address, bool reads_only) {
    struct pagelog_file_options options = {.service = {.address = address, .principal = 2},
                                           .reads_only = reads_only,
                                           .has_operator = !reads_only,
                                           .operator_principal = 1,
                                           .unwaited = 64,
                                           .check_ms = 3600000};
    memset(options.service.token, 0x22, PAGELOG_TOKEN_BYTES);
    memset(options.operator_token, 0x11, PAGELOG_TOKEN_BYTES);
    struct pagelog_file *file = pagelog_file_new(&options);
    expect("it opens", 0, file && pagelog_file_open(file) == PAGELOG_DONE);
    return file;
}

static bool write_byte(struct pagelog_file *file, uint64_t offset, uint8_t byte) {
    return pagelog_file_write(file, offset, &byte, 1) == PAGELOG_DONE;
}

/* Begins until all replies to what was sent have been read, and nobody has waited for them. */
static void read_replies(struct pagelog_file *file, long at) {
    struct pagelog_file_state state = pagelog_file_state_of(file);
    while (state.wire.replies < state.wire.requests) {
        sched_yield();
        expect("a begin", at, pagelog_file_begin(file) == PAGELOG_DONE);
        state = pagelog_file_state_of(file);
    }
}

/* Refuses the allocation `at` of a commit, after another one that was answered or as the first one; false
 * where the commit has not so many. */
static bool refuse(const char *address, long at, bool is_first) {
    struct pagelog_file *file = open_as(address, false);
    uint8_t byte = (uint8_t)(2 * at + is_first), found = 0;
    size_t count;
    expect("a begin", at, pagelog_file_begin(file) == PAGELOG_DONE);
    if (!is_first) {
        expect("a write", at, write_byte(file, 0, byte));
        expect("a commit", at, pagelog_file_commit(file) == PAGELOG_DONE);
        read_replies(file, at);
    }
    expect("another write", at, write_byte(file, 1, byte));
    left = at;
    enum pagelog_outcome outcome = pagelog_file_commit(file);
    bool is_met = left == 0;
    left = 0;
    expect("why", at, outcome == PAGELOG_DONE || outcome == PAGELOG_NO_MEMORY);
    if (outcome != PAGELOG_DONE) pagelog_file_undo(file);
    expect("a begin after it", at, pagelog_file_begin(file) == PAGELOG_DONE);
    expect("a write after it", at, write_byte(file, 2, byte));
    expect("a commit after it", at, pagelog_file_commit(file) == PAGELOG_DONE);
    expect("it comes into the log", at, pagelog_file_settle(file) == PAGELOG_DONE);
    pagelog_file_free(file);
    file = open_as(address, true);
    expect("a read", at, pagelog_file_read(file, 2, &found, 1, &count) == PAGELOG_DONE);
    expect("it is in the log", at, found == byte);
    pagelog_file_free(file);
    return is_met;
}

int main(int count, char **words) {
    long refused = 0;
    for (int is_first = 0; is_first < 2; is_first++)
        for (long at = 1; refuse(words[count - 1], at, is_first); at++)
            refused++;
    printf("%ld allocations of a commit refused\n", refused);
    return 0;
}
