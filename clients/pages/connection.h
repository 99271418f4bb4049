/* One connection: bytes that came and are no whole frame yet, and replies that it has not taken. */
#ifndef CONNECTION_H
#define CONNECTION_H

#include "answer.h"
#include "shown.h"

#include <stdatomic.h>

enum {
    MOST_FRAME = FRAME_HEAD + MOST_REQUEST,
    REPLIES_AT_ONCE = 256 << 10,
    OUT_ROOM = REPLIES_AT_ONCE + REPLY_ROOM
};

struct connection {
    int socket;
    struct pagelog_secure *secure; /* NULL: without TLS */
    bool shakes;                   /* its handshake is not done */
    bool shakes_out;               /* and waits for room to send */
    uint8_t *in;
    size_t in_length;
    uint8_t *out;
    size_t out_at, out_length;
    bool is_cut;      /* it has had its share of a turn, and more may be answered */
    bool is_cold;     /* its last replies took reads of the disk */
    bool is_over;     /* it ends once its replies are sent */
    uint64_t wanted;  /* the position that its next request waits for; 0: it waits for none */
    int64_t deadline; /* of that, in ms of the system's steady clock */
    int64_t heard;    /* when it sent or took something last, by that clock */
    uint32_t watched; /* the events that it is polled for */
    struct connection *before, *after;
};

/* What a thread uses for all its connections. */
struct room {
    struct table *_Atomic *newest; /* the table that decides; NULL is in it where nobody is answered */
    _Atomic unsigned looks;        /* rises before each look at that: what was under way before is over */
    const struct table *table;
    struct store *store;
    struct store_view *view;
    const struct shown *shown;
    struct ahead *ahead;
    unsigned wait_ms;
    int64_t now;
    uint8_t *out;   /* of OUT_ROOM */
    uint8_t *spare; /* of MOST_FRAME, for the next connection that reads; NULL: none is left */
};

/* Looks which table decides now. False: nobody is answered. */
bool room_look(struct room *room);

/* Writes, answers and reads as far as that goes without waiting. False: the connection is over. */
bool connection_turn(struct connection *connection, struct room *room);

/* Frees what it has, and closes it. */
void connection_close(struct connection *connection);

#endif
