/* Numbers in bytes, the high one first, a clock, the waits between tries, and asserts: what both the wire and
 * the file need, and no caller sees. */
#ifndef PAGELOG_COMMON_H
#define PAGELOG_COMMON_H

#include <endian.h>
#include <stddef.h>
#include <stdint.h>
#include <string.h>
#include <time.h>

/* Writes a number in `size` bytes, 1 to 8, and returns the place after it. */
static inline uint8_t *pagelog_write_number(uint8_t *to, uint64_t value, size_t size) {
    uint64_t bytes = htobe64(value << (64 - 8 * size));
    memcpy(to, &bytes, size);
    return to + size;
}

static inline uint64_t pagelog_read_number(const uint8_t *from, size_t size) {
    uint64_t value = 0;
    for (size_t i = 0; i < size; i++)
        value = value << 8 | from[i];
    return value;
}

/* Nanoseconds of a clock that never goes back, and milliseconds of it. */
static inline uint64_t pagelog_now_ns(void) {
    struct timespec now;
    clock_gettime(CLOCK_MONOTONIC, &now);
    return (uint64_t)now.tv_sec * 1000000000 + (uint64_t)now.tv_nsec;
}

static inline uint64_t pagelog_now(void) {
    return pagelog_now_ns() / 1000000;
}

/* When a wait of `ms` is over that began at `ns`, and one that begins now: never too soon, so rounded up. */
static inline uint64_t pagelog_end_of_wait(uint64_t ns, uint64_t ms) {
    return (ns + 999999) / 1000000 + ms;
}

static inline uint64_t pagelog_after(uint64_t ms) {
    return pagelog_end_of_wait(pagelog_now_ns(), ms);
}

/* Sleeps for `*ms` before the next try. The wait after it is twice as long, up to `most`. */
static inline void pagelog_back_off(unsigned *ms, unsigned most) {
    struct timespec wait = {.tv_sec = *ms / 1000, .tv_nsec = 1000000L * (*ms % 1000)};
    *ms = 2 * *ms < most ? 2 * *ms : most;
    nanosleep(&wait, NULL);
}

/* What is always so. In a build for tests (make checked) the process ends where it is not; in any other
 * nothing is looked at, and nothing ends it. */
#ifdef PAGELOG_CHECKED
#define pagelog_assert(is_so) ((is_so) ? (void)0 : __builtin_trap())
#else
#define pagelog_assert(is_so) ((void)sizeof(is_so))
#endif

#endif
