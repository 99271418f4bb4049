/* The newest transactions that a reader has read, and the blocks between them: what is laid over pages that
 * are as one of them left them. Knows no service. */
#ifndef PAGELOG_HELD_H
#define PAGELOG_HELD_H

#include "pagelog.h"
#include "pagelog_position.h"

/* The end mark of a transaction. Its session is of one writer in one run alone, so that two logs which have
 * the same mark at a position have the same blocks up to it. */
struct pagelog_held_mark {
    struct pagelog_position position;
    uint64_t session, transaction;
    size_t at; /* where the blocks after it begin */
};

/* All zeros: nothing is held. */
struct pagelog_held {
    uint8_t *bytes; /* blocks, each after its length of 4 bytes */
    size_t length, room;
    struct pagelog_held_mark *marks; /* by rising position */
    size_t count;
};

void pagelog_held_free(struct pagelog_held *held);

/* Holds this transaction alone. Where memory runs out nothing is held. */
void pagelog_held_begin(struct pagelog_held *held, const struct pagelog_held_mark *mark);

/* Adds the transaction that is next after the last one, and all blocks up to its mark. Where there is no room
 * for that, or no memory, it is held alone. */
void pagelog_held_add(struct pagelog_held *held, const struct pagelog_held_mark *mark, const uint8_t *blocks,
                      size_t length);

/* The last one; NULL where nothing is held. */
const struct pagelog_held_mark *pagelog_held_last(const struct pagelog_held *held);

/* The newest one at a position or before it; NULL where all that are held are after it. */
const struct pagelog_held_mark *pagelog_held_until(const struct pagelog_held *held,
                                                   struct pagelog_position position);

/* Makes pages, 8,192 bytes each, that are as a transaction left them into what the last one left. */
void pagelog_held_lay(const struct pagelog_held *held, const struct pagelog_held_mark *from,
                      const uint32_t *pages, size_t count, uint8_t *bytes);

#endif
