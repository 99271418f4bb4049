/* One request body, and the frame of the reply. */
#ifndef ANSWER_H
#define ANSWER_H

#include "ahead.h"
#include "store.h"
#include "table.h"

enum { HEAD_BYTES = 30, FRAME_HEAD = 4, MOST_REQUEST = 65536, MOST_PULL = 16 };
/* More than any reply takes, with the head of its frame. */
enum { REPLY_ROOM = FRAME_HEAD + 11 + MOST_PULL * (4 + BLOCK_BYTES) };

enum answered {
    ANSWERED,
    ANSWER_WAITS,  /* for a position that is not there yet; nothing was written */
    ANSWER_BROKEN, /* the disk has not what it should have: there is no reply, and the connection ends */
};

/* Writes the frame of the reply to `*out`, which moves behind it. Where a get asks for a position above what
 * is confirmed, and `may_wait`, that is `*wanted`. */
enum answered answer_body(const struct table *table, struct store *store, struct store_view *view,
                          const uint8_t *body, size_t length, bool may_wait, uint64_t *wanted, uint8_t **out);

/* Whether the body is of a get that would be answered with a page now, and which one. */
bool answer_reads(const struct table *table, struct store *store, const uint8_t *body, size_t length,
                  struct place *place);

#endif
