// Loaded before the C library, runs the program once for each number of REFUSE_PLACES, each time in a
// process of its own, in which it refuses the allocation of this number, counted from 1, or none where
// that is 0. Then it runs it once for each number of REFUSE_THREADS, and refuses the start of that
// thread. What the C library allocates to start a thread is not counted.
//
// For each run it writes a line: what it refused, how the program ended, how many microseconds it took,
// how many allocations and threads it had and how many of them were refused, and the end of what the
// program wrote. A run that does not end by itself is ended after REFUSE_PATIENCE seconds.
//
// The program may read in REFUSE_MET whether the refusal of its run was met: 0 until then, and then 1.
#define _GNU_SOURCE
#include <dlfcn.h>
#include <errno.h>
#include <pthread.h>
#include <stdatomic.h>
#include <stdio.h>
#include <stdlib.h>
#include <sys/mman.h>
#include <sys/wait.h>
#include <time.h>
#include <unistd.h>

typedef int (*starter)(pthread_t *, const pthread_attr_t *, void *(*)(void *), void *);

// What a run has counted, which the process that started it reads.
struct tally {
    atomic_long allocations, threads, refusals;
};

static struct tally *tally;
static long at, thread_at;
static char *met;
static void *(*next_malloc)(size_t);
static void *(*next_realloc)(void *, size_t);
static starter next_create;
// Whether this thread is starting another one.
static _Thread_local int is_starting __attribute__((tls_model("initial-exec")));

static int refused(atomic_long *count, long number) {
    if (atomic_fetch_add(count, 1) + 1 != number) return 0;
    atomic_fetch_add(&tally->refusals, 1);
    if (met) *met = '1';
    return 1;
}

void *malloc(size_t size) {
    if (!next_malloc) next_malloc = (void *(*)(size_t))dlsym(RTLD_NEXT, "malloc");
    if (tally && !is_starting && refused(&tally->allocations, at)) return NULL;
    return next_malloc(size);
}

void *realloc(void *old, size_t size) {
    if (!next_realloc) next_realloc = (void *(*)(void *, size_t))dlsym(RTLD_NEXT, "realloc");
    if (tally && !is_starting && refused(&tally->allocations, at)) return NULL;
    return next_realloc(old, size);
}

int pthread_create(pthread_t *thread, const pthread_attr_t *how, void *(*runs)(void *), void *with) {
    if (!next_create) next_create = (starter)dlsym(RTLD_NEXT, "pthread_create");
    if (tally && refused(&tally->threads, thread_at)) return EAGAIN;
    is_starting = 1;
    int status = next_create(thread, how, runs, with);
    is_starting = 0;
    return status;
}

static long microseconds(void) {
    struct timespec now;
    clock_gettime(CLOCK_MONOTONIC, &now);
    return now.tv_sec * 1000000 + now.tv_nsec / 1000;
}

// The end of what was written there, on one line.
static void end_of(int said, char *text, long size) {
    off_t len = lseek(said, 0, SEEK_END);
    long count = pread(said, text, size - 1, len < size ? 0 : len - size + 1);
    text[count > 0 ? count : 0] = 0;
    for (; *text; text++)
        if (*text < ' ') *text = ' ';
}

static void tell(const char *what, long number, int status, long began, int said) {
    char text[400];
    int ended = WIFEXITED(status) ? WEXITSTATUS(status) : 128 + WTERMSIG(status);
    end_of(said, text, sizeof text);
    dprintf(1, "%s %ld %d %ld %ld %ld %ld %s\n", what, number, ended, microseconds() - began, atomic_load(&tally->allocations),
            atomic_load(&tally->threads), atomic_load(&tally->refusals), text);
}

// Starts a run that refuses this, and waits for its end. Whether this is the run.
static int is_run(const char *what, long number, long *place, unsigned patience) {
    int status = 0, said = memfd_create("said", 0);
    *tally = (struct tally){0};
    long began = microseconds();
    pid_t run = said < 0 ? -1 : fork();
    if (run == 0) {
        *place = number;
        dup2(said, 1);
        dup2(said, 2);
        close(said);
        alarm(patience);
        return 1;
    }
    if (run < 0 || waitpid(run, &status, 0) != run) _exit(125);
    tell(what, number, status, began, said);
    close(said);
    return 0;
}

// A run for each of the numbers. Whether this is one of them.
static int are_runs(const char *what, const char *numbers, long *place, unsigned patience) {
    for (char *end; numbers; numbers = end) {
        long number = strtol(numbers, &end, 10);
        if (end == numbers) break;
        if (is_run(what, number, place, patience)) return 1;
    }
    return 0;
}

__attribute__((constructor)) static void begin(void) {
    const char *places = getenv("REFUSE_PLACES"), *starts = getenv("REFUSE_THREADS"), *word = getenv("REFUSE_PATIENCE");
    if (!places && !starts) return;
    unsigned patience = word ? atoi(word) : 60;
    met = getenv("REFUSE_MET");
    tally = mmap(NULL, sizeof *tally, PROT_READ | PROT_WRITE, MAP_SHARED | MAP_ANONYMOUS, -1, 0);
    if (tally == MAP_FAILED) _exit(125);
    if (are_runs("allocation", places, &at, patience) || are_runs("thread", starts, &thread_at, patience)) return;
    _exit(0);
}
