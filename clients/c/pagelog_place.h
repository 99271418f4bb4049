/* Where a named database is, and how far it is durable: what its keepers say, in lines of text
 * (docs/KEEPERS.md). It knows the wire, and nothing of files.
 *
 *   - A generation is the time of one run of a service as the one that may archive. A position is what an LSN
 * is to one service: an LSN of the generation, plus its shift. It stands for the same block in all
 * generations.
 *   - Keepers are asked side by side, each over a connection that is opened when it is asked first, and for a
 * second at most, connect included. One that does not answer is left out.
 *   - A wait ends too once who waits says so. No call repeats itself: that is the caller's, who may have to
 * look at a service meanwhile.
 *   - Used by one thread at a time, and by the process that has made it.
 */
#ifndef PAGELOG_PLACE_H
#define PAGELOG_PLACE_H

#include "pagelog.h"
#include "pagelog_position.h"

enum {
    PAGELOG_PLACE_BYTES = 256,   /* of an address, with the 0 at its end */
    PAGELOG_RUN_BYTES = 80,      /* of the name of a run, with the 0 at its end */
    PAGELOG_IDENTITY_BYTES = 40, /* of what no other database ever has, with the 0 at its end */
    PAGELOG_MOST_KEEPERS = 16,
    PAGELOG_MOST_PAGE_SERVERS = 8, /* that are told of one database */
};

/* The principal of the keepers, which no table of a named database lists. */
#define PAGELOG_KEEPER UINT32_MAX

/* Where a generation is served. */
struct pagelog_place {
    uint64_t generation;
    char database[PAGELOG_IDENTITY_BYTES]; /* also another one of the same name has another */
    char ancestor[PAGELOG_PLACE_BYTES];    /* of a copy the name of the database that it is of; else empty */
    char run[PAGELOG_RUN_BYTES];
    char after[PAGELOG_RUN_BYTES];          /* the run before, where its keeper knows that; else empty */
    char address[PAGELOG_PLACE_BYTES];      /* of the service */
    char lines[PAGELOG_PLACE_BYTES];        /* of the keeper that has it */
    struct pagelog_position archived, base; /* what is durable at least; below it nothing can be read there */
    int64_t shift;
    /* Where the run before ended; and up to which the database began as a copy, whose marks are those of
     * others. 0: with nothing */
    struct pagelog_position kept, copied;
    unsigned pages;      /* how many page servers the database has */
    bool is_page_server; /* this is one of them: its LSNs are positions, and all that it has is durable */
};

/* A position whose durability is waited for, and who knows of it. */
struct pagelog_awaited {
    uint64_t position;
    struct pagelog_place place;
};

/* A page server: it has pages at positions from `oldest` to `position`, or a later one by now. */
struct pagelog_page_server {
    char address[PAGELOG_PLACE_BYTES], run[PAGELOG_RUN_BYTES];
    struct pagelog_position position, oldest;
};

/* Why a run is lost. */
enum pagelog_loss {
    PAGELOG_NOT_LOST = 0,
    PAGELOG_DROPPED,    /* the database was dropped */
    PAGELOG_ANOTHER,    /* the keepers have another database of its name */
    PAGELOG_SUPERSEDED, /* PostgreSQL went back, and another run has gone on without this one */
};

/* How far a generation is durable. Where it is over, nothing above `end` will ever be; and all up to it is in
 * every later generation, at the same positions. A run that is lost is in no later one, and of none of its
 * blocks it is known whether they are. All of it is final. */
struct pagelog_fate {
    struct pagelog_position end;
    bool is_over;
    enum pagelog_loss loss;
};

struct pagelog_keepers;

/* The keepers of a database: `addresses` are "HOST:PORT,HOST:PORT"; their lines, and those that places name,
 * are by this TLS, or without where it is NULL. NULL where memory runs out, or the addresses or the name
 * cannot be a line's. */
struct pagelog_keepers *pagelog_keepers_new(const char *addresses, const char *name, struct pagelog_tls *tls);
void pagelog_keepers_free(struct pagelog_keepers *keepers);

/* Whose token is proved to keepers before they are asked what costs them something. */
void pagelog_keepers_prove(struct pagelog_keepers *keepers, uint32_t principal,
                           const uint8_t token[PAGELOG_TOKEN_BYTES]);

/* As pagelog_set_waiting. */
void pagelog_keepers_set_waiting(struct pagelog_keepers *keepers, bool (*goes_on)(void *argument),
                                 void *argument);

/* Whether who waits goes on with it: as of a wait that began when the first one did since that was set. */
bool pagelog_keepers_wait_on(struct pagelog_keepers *keepers);

/* After a question that who waits has ended: the same wait goes on, with another one. */
void pagelog_keepers_wait_again(struct pagelog_keepers *keepers);

/* For a child of fork(): closes the descriptors there, and nothing else. */
void pagelog_keepers_abandon(struct pagelog_keepers *keepers);

/* Whoever uses these is a client of the database of this place from now on, in its run: of another one no
 * place is taken. */
void pagelog_keepers_are_of(struct pagelog_keepers *keepers, const struct pagelog_place *place);

/* The name of the database. */
const char *pagelog_keepers_name(const struct pagelog_keepers *keepers);

/* Why pagelog_where was DENIED; NULL where no keeper has the name. */
const char *pagelog_keepers_reason(const struct pagelog_keepers *keepers);

/* Whether the last pagelog_where was refused by all keepers: none of them listens. */
bool pagelog_keepers_are_gone(const struct pagelog_keepers *keepers);

/* What was wrong with TLS of one of them, in the last question; empty: nothing. */
const char *pagelog_keepers_why(const struct pagelog_keepers *keepers);

/* The place of the highest generation that a keeper knows of, where that is `least` or above, as who knows
 * most of its archive says, of those that answer soon after the first. LOST: nobody serves it now, no keeper
 * answers, or those that do know of lower ones alone. DENIED: all that answer have no database of this name,
 * or the one that it was was dropped, or all keepers are of version 1, which cannot say which one they have.
 */
enum pagelog_outcome pagelog_where(struct pagelog_keepers *keepers, uint64_t least,
                                   struct pagelog_place *place);

/* The same where a generation `wanted` may be there: after one that knows of lower ones alone others are
 * waited for longer. */
enum pagelog_outcome pagelog_where_later(struct pagelog_keepers *keepers, uint64_t least, uint64_t wanted,
                                         struct pagelog_place *place);

/* What keepers have said of the holder's run so far: the highest generation, 0 where none has said one, and
 * whose it is; and whether some know of no such database, or of another of its name. */
struct pagelog_told {
    uint64_t generation;
    char run[PAGELOG_RUN_BYTES];
    unsigned pages; /* how many page servers the database has */
    bool is_doubtful;
};

/* As pagelog_where_later, for who has other work. Begins a question, in place of one that has not come to its
 * end. */
void pagelog_where_begin(struct pagelog_keepers *keepers, uint64_t wanted);

/* Takes the answers that have come, and waits for more `ms` at most. True once no more come. */
bool pagelog_where_take(struct pagelog_keepers *keepers, uint64_t ms, struct pagelog_told *told);

/* What has become of a position of the run of a place, once that is durable or the run is over or lost.
 * `lines` are those of who is asked first, or NULL. LOST: none has said it within some seconds; it may be
 * asked again, of who has the database by then. */
enum pagelog_outcome pagelog_fate_of(struct pagelog_keepers *keepers, const char *lines,
                                     const struct pagelog_place *place, struct pagelog_position position,
                                     struct pagelog_fate *fate);

/* The same, as the holder's keeper alone says within so many milliseconds. */
enum pagelog_outcome pagelog_fate_at_once(struct pagelog_keepers *keepers, const struct pagelog_place *place,
                                          struct pagelog_position position, uint64_t ms,
                                          struct pagelog_fate *fate);

/* The page servers of the database whose clients these are that live, those first that have most. LOST: no
 * keeper answers. */
enum pagelog_outcome pagelog_page_servers(struct pagelog_keepers *keepers,
                                          struct pagelog_page_server found[PAGELOG_MOST_PAGE_SERVERS],
                                          size_t *count);

/* The same, of all keepers side by side, for so long at most: the first that names any. */
enum pagelog_outcome pagelog_page_servers_soon(struct pagelog_keepers *keepers, uint64_t ms,
                                               struct pagelog_page_server found[PAGELOG_MOST_PAGE_SERVERS],
                                               size_t *count);

/* Tells the keeper of a place that there will be new blocks, so that it archives them before it is asked: by
 * a line that is open, and over which nothing is asked. It waits for nothing, and nothing is answered. */
void pagelog_keepers_ring(struct pagelog_keepers *keepers, const struct pagelog_place *place);

/* Tells the keeper of a place that its service had no memory: it begins the next generation, if it may. */
void pagelog_keepers_tell_full(struct pagelog_keepers *keepers, const struct pagelog_place *place);

/* What was wrong with TLS at the object's last connect; empty: nothing. */
const char *pagelog_tls_why(const struct pagelog *log);

/* The token that stands for `token` in a run of the database. */
void pagelog_token_of_run(const struct pagelog_keepers *keepers, const uint8_t token[PAGELOG_TOKEN_BYTES],
                          const char *run, uint8_t of_run[PAGELOG_TOKEN_BYTES]);

/* Leads the object to another service, with the token that its principal has there. What was learned of the
 * one before is forgotten, requests in flight are lost, and it is nobody's writer. NO_MEMORY: the object is
 * as it was. */
enum pagelog_outcome pagelog_enter(struct pagelog *log, const char *address,
                                   const uint8_t token[PAGELOG_TOKEN_BYTES]);

/* Whether the epoch of a status may be the object's own: it was begun by a failover whose reply was lost. */
bool pagelog_may_have_begun(const struct pagelog *log, const struct pagelog_reply *status);

#endif
