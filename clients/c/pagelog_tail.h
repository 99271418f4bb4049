/* The blocks of a named database that are not known to be durable yet, by their positions: what is sent again
 * where a service has died before its log was archived. Knows no service. */
#ifndef PAGELOG_TAIL_H
#define PAGELOG_TAIL_H

#include "pagelog.h"
#include "pagelog_position.h"

/* Blocks with consecutive positions, each after its length. All zeros: no blocks. */
struct pagelog_tail {
    uint8_t *bytes;
    size_t start, end, room;
    struct pagelog_position first, next; /* those held are from the first on, and before the next */
};

/* Where a walk through the blocks is. */
struct pagelog_tail_walk {
    size_t at;
    struct pagelog_position position;
};

void pagelog_tail_free(struct pagelog_tail *tail);

static inline bool pagelog_tail_is_empty(const struct pagelog_tail *tail) {
    return tail->start == tail->end;
}

/* How many bytes are held. */
static inline size_t pagelog_tail_bytes(const struct pagelog_tail *tail) {
    return tail->end - tail->start;
}

/* The position of the block with which the first ones are so many bytes, or of the last one. */
struct pagelog_position pagelog_tail_after(const struct pagelog_tail *tail, size_t bytes);

/* Adds a block at the next position. Where its position is another one, the blocks before are of no use any
 * more, and are forgotten. False where memory runs out. */
bool pagelog_tail_add(struct pagelog_tail *tail, struct pagelog_position position, const uint8_t *block,
                      size_t length);

/* Forgets the blocks up to a position, or those from it on. */
void pagelog_tail_drop(struct pagelog_tail *tail, struct pagelog_position until);
void pagelog_tail_cut(struct pagelog_tail *tail, struct pagelog_position from);

/* Goes to the block at a position, or to the end. */
struct pagelog_tail_walk pagelog_tail_at(const struct pagelog_tail *tail, struct pagelog_position position);

/* The block that the walk is at, and goes on to the next; NULL at the end. Its first 8 bytes mean nothing. */
const uint8_t *pagelog_tail_next(const struct pagelog_tail *tail, struct pagelog_tail_walk *walk,
                                 size_t *length);

#endif
