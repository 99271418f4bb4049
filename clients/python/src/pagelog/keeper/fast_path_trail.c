#include "fast_path_parts.h"

#include <openssl/sha.h>
#include <string.h>
#include <time.h>
#include <zlib.h>

/* The lines of a service's audit list that speak of a batch, as the row of the trail that they become. */

enum {
    ENTRIES = 3,     /* the kind of a reply with lines */
    ENTRIES_HEAD = 3, /* its kind, and how many lines */
    LINE_SIZE = 53,
    ASKED_MOST = 1024, /* lines of one reply */
    QUESTIONS = 8,   /* for one batch */
    HEAD = WAY_SHA + 20, /* before lines, of what is digested: the digest before, their first number, how many, and when they were seen */
};

void forget_lines(struct trail *trail) {
    trail->count = trail->questions = 0;
}

bool take_lines(struct way *way, const uint8_t *body, size_t len, bool *is_more) {
    struct trail *trail = &way->trail;
    size_t count = len < ENTRIES_HEAD ? 0 : (size_t)number_in(body + 1, 2);
    if (count == 0 || count > ASKED_MOST || body[0] != ENTRIES || len != ENTRIES_HEAD + count * LINE_SIZE ||
        number_in(body + ENTRIES_HEAD, 8) != trail->kept + trail->count + 1) {
        return false;
    }
    size_t have = HEAD + trail->count * LINE_SIZE;
    if (!grow(&trail->lines, &trail->lines_room, have + count * LINE_SIZE)) {
        return false;
    }
    memcpy(trail->lines + have, body + ENTRIES_HEAD, count * LINE_SIZE);
    trail->count += count;
    *is_more = count == ASKED_MOST;
    return !*is_more || ++trail->questions < QUESTIONS;
}

/* The time in microseconds since 1970. */
static uint64_t now_us(void) {
    struct timespec now;
    clock_gettime(CLOCK_REALTIME, &now);
    return (uint64_t)now.tv_sec * 1000000 + (uint64_t)now.tv_nsec / 1000;
}

bool pack_lines(struct trail *trail) {
    uint64_t now = now_us();
    trail->next_seen = now > trail->seen ? now : trail->seen;
    memcpy(trail->lines, trail->digest, WAY_SHA);
    put_number(trail->lines + WAY_SHA + 4, trail->count); /* four bytes, of the eight */
    put_number(trail->lines + WAY_SHA, trail->kept + 1);
    put_number(trail->lines + WAY_SHA + 12, trail->next_seen);
    size_t len = trail->count * LINE_SIZE;
    SHA256(trail->lines, HEAD + len, trail->next_digest);
    uLongf packed = compressBound(len);
    if (!grow(&trail->data, &trail->data_room, packed) || compress2(trail->data, &packed, trail->lines + HEAD, len, 1) != Z_OK) {
        return false;
    }
    trail->data_len = packed;
    time_t seconds = (time_t)(trail->next_seen / 1000000);
    struct tm day;
    return gmtime_r(&seconds, &day) != NULL && strftime(trail->day, sizeof trail->day, "%Y-%m-%d", &day) > 0;
}

void enter_lines(struct trail *trail) {
    trail->kept += trail->count;
    trail->seen = trail->next_seen;
    memcpy(trail->digest, trail->next_digest, WAY_SHA);
    forget_lines(trail);
}
