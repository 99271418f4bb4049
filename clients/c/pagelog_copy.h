/* One page server, as one of several that have the same pages, over a connection that is asked and read
 * without waiting. */
#ifndef PAGELOG_COPY_H
#define PAGELOG_COPY_H

#include "pagelog_line.h"
#include "pagelog_place.h"

enum { PAGELOG_COPY_PAGES = 64 }; /* of one question, at most */

struct pagelog_copy {
    struct pagelog_page_server server; /* `position` is the newest that it has told */
    uint8_t token[PAGELOG_TOKEN_BYTES];
    struct pagelog_line line;
    /* Up to this position its history is known to be the reader's, as long as the connection lasts: it may go
     * on from less after a crash. */
    struct pagelog_position proved;
    unsigned connects;            /* the connection over which that was so */
    struct pagelog_position base; /* of the question: that of the pages; 0: it is for the status alone */
    bool has_proof;               /* page 0 at the base is asked for, too */
    uint8_t *frames;              /* the question */
    size_t length, room, replies; /* of it; and how many replies it has */
    uint8_t *input;               /* what has come of them */
    size_t come, input_room;
    bool was_open, is_heard; /* there was a connection; something has come */
    uint64_t asked_ns;       /* when it was asked, */
    uint64_t usual_ns;       /* and how long the first bytes usually take; 0: not known */
    uint64_t free;           /* until when it is not asked, in milliseconds, */
    unsigned pause_ms;       /* and for how long that was */
};

/* Makes one that is not connected, of a page server, with the token that the reader has there. False where
 * its address is none. */
bool pagelog_copy_begin(struct pagelog_copy *copy, const struct pagelog_page_server *server,
                        const uint8_t token[PAGELOG_TOKEN_BYTES], struct pagelog_tls *tls);

/* Closes the connection, and frees what it has. */
void pagelog_copy_end(struct pagelog_copy *copy);

/* Begins a question: for the status, and where `base` is not 0 for pages as they were there, page 0 first
 * where its history is not known so far. False where memory runs out, or nothing can be connected to. */
bool pagelog_copy_ask(struct pagelog_copy *copy, const struct pagelog_options *reader,
                      struct pagelog_position base, const uint32_t *pages, size_t count);

/* Whether replies are awaited. */
static inline bool pagelog_copy_is_asked(const struct pagelog_copy *copy) {
    return copy->line.is_asked;
}

/* Sends and reads what goes at once. False where the connection is gone, or what comes is no reply. */
bool pagelog_copy_go_on(struct pagelog_copy *copy, short ready);

/* Whether all replies are there. */
bool pagelog_copy_is_answered(const struct pagelog_copy *copy);

/* The next reply, from 0 in `*at` on, which is moved on. False where it is none. */
bool pagelog_copy_next(const struct pagelog_copy *copy, size_t *at, struct pagelog_reply *reply);

/* Nothing is awaited any more: the connection stays only where all has come. */
void pagelog_copy_leave(struct pagelog_copy *copy);

#endif
