/* Blocks in one piece of memory: dropped at its front, added at its end. */
#include "pagelog_tail.h"

#include "pagelog_common.h"

#include <stdlib.h>

enum { LENGTH_BYTES = 4 };

void pagelog_tail_free(struct pagelog_tail *tail) {
    free(tail->bytes);
    *tail = (struct pagelog_tail){0};
}

static void forget(struct pagelog_tail *tail) {
    tail->start = tail->end = 0;
    tail->first = tail->next;
}

/* Makes room at the end. What is held goes to the front where half of the memory is free there. */
static bool reserve(struct pagelog_tail *tail, size_t wanted) {
    size_t held = pagelog_tail_bytes(tail);
    if (tail->room - tail->end >= wanted) return true;
    if (tail->start >= held && tail->room - held >= wanted) {
        memmove(tail->bytes, tail->bytes + tail->start, held);
    } else {
        size_t room = 2 * (held + wanted);
        uint8_t *bytes = malloc(room);
        if (!bytes) return false;
        if (held > 0) memcpy(bytes, tail->bytes + tail->start, held);
        free(tail->bytes);
        tail->bytes = bytes;
        tail->room = room;
    }
    tail->start = 0;
    tail->end = held;
    return true;
}

bool pagelog_tail_add(struct pagelog_tail *tail, struct pagelog_position position, const uint8_t *block,
                      size_t length) {
    if (!is_at(position, tail->next)) {
        tail->next = position;
        forget(tail);
    }
    if (!reserve(tail, LENGTH_BYTES + length)) return false;
    uint8_t *at = pagelog_write_number(tail->bytes + tail->end, length, LENGTH_BYTES);
    memcpy(at, block, length);
    tail->end += LENGTH_BYTES + length;
    tail->next = next_of(tail->next);
    return true;
}

struct pagelog_tail_walk pagelog_tail_at(const struct pagelog_tail *tail, struct pagelog_position position) {
    struct pagelog_tail_walk walk = {tail->start, tail->first};
    size_t length;
    while (is_before(walk.position, position) && pagelog_tail_next(tail, &walk, &length))
        ;
    return walk;
}

const uint8_t *pagelog_tail_next(const struct pagelog_tail *tail, struct pagelog_tail_walk *walk,
                                 size_t *length) {
    if (walk->at >= tail->end) return NULL;
    const uint8_t *block = tail->bytes + walk->at + LENGTH_BYTES;
    *length = (size_t)pagelog_read_number(tail->bytes + walk->at, LENGTH_BYTES);
    walk->at += LENGTH_BYTES + *length;
    walk->position = next_of(walk->position);
    return block;
}

struct pagelog_position pagelog_tail_after(const struct pagelog_tail *tail, size_t bytes) {
    struct pagelog_tail_walk walk = {tail->start, tail->first};
    size_t length;
    while (walk.at - tail->start < bytes && pagelog_tail_next(tail, &walk, &length))
        ;
    return last_before(walk.position);
}

void pagelog_tail_drop(struct pagelog_tail *tail, struct pagelog_position until) {
    struct pagelog_tail_walk walk = pagelog_tail_at(tail, next_of(until));
    tail->start = walk.at;
    tail->first = walk.position;
    if (tail->start == tail->end) forget(tail);
}

void pagelog_tail_cut(struct pagelog_tail *tail, struct pagelog_position from) {
    if (!is_before(from, tail->next)) return;
    struct pagelog_tail_walk walk = pagelog_tail_at(tail, from);
    tail->end = walk.at;
    tail->next = walk.position;
    if (tail->start == tail->end) forget(tail);
}
