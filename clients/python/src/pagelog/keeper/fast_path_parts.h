/* What the parts of the fast path share. */

#ifndef PAGELOG_FAST_PATH_PARTS_H
#define PAGELOG_FAST_PATH_PARTS_H

#include "fast_path.h"

#include <libpq-fe.h>
#include <pthread.h>
#include <stdatomic.h>
#include <stdbool.h>
#include <stdlib.h>
#include <time.h>
#include <unistd.h>

enum {
    NUMBER = 24,                /* the room for a number as text */
    SESSION_WAYS = 256,         /* the most databases of one statement */
    SESSION_BYTES = 1 << 22,    /* the most bytes of one statement's blocks, but for those of one database more */
    FEW = 64,                   /* batches of more blocks go alone, over the first session: what is behind holds up nobody */
    PULL_MOST = 16,             /* blocks of one pull */
    PULLS = 64,                 /* pulls in flight */
    FRAME_MOST = 256,           /* the longest request, in bytes */
    SESSION_VALUES = 24,
};

/* What epoll has is one of these; it begins with its kind. */
enum kind { CONTROL, SERVICE, LINE, SESSION, WRITER };

/* Something that is said once the turn is over: until then nothing that was given back is freed. */
struct event {
    struct event *next;
    enum way_news news;
    void *owner;
    bool is_queued;
};

struct line {
    enum kind kind;
    struct event event;
    struct line *next, **place;         /* in the list of its way */
    struct way *way;
    int descriptor;
    uint64_t position;
    bool is_named;                      /* its client knows `of` */
    bool asked;                         /* it has waited since before the pull that is on its way */
    bool is_back;                       /* it is the keeper's */
    size_t len;
    char data[WAY_LINE];
};

/* New blocks, on their way into the archive. */
struct batch {
    size_t blocks, len, room;
    uint8_t *bytes;
    uint32_t lengths[WAY_BLOCKS], crcs[WAY_BLOCKS];
    uint64_t reached;                   /* the archived position with them */
    uint8_t chain[WAY_DIGEST];
    size_t chain_len;
    uint64_t pulls_for;                 /* the last kick before they were asked for */
};

/* Lines of the audit list, on their way into the trail. */
struct trail {
    bool is_kept;                       /* whether they are */
    uint64_t kept, seen;                /* of those that are there */
    uint8_t digest[WAY_SHA];
    size_t count, questions;            /* of those that come with the batch */
    uint8_t *lines;                     /* behind what is digested with them */
    size_t lines_room;
    uint64_t next_seen;
    uint8_t next_digest[WAY_SHA];
    char day[16];
    uint8_t *data;                      /* the lines, packed */
    size_t data_len, data_room;
};

/* What a way waits for: nothing, its service, a session, or the answer of one. */
enum phase { READY, PULLING, DUE, KEEPING };

struct way {
    enum kind kind;
    struct plane *plane;
    struct way_start start;
    char *name, *of, *log, *run, *list, *list_of;
    uint8_t *asks;                      /* a pull, and behind it a question for lines */
    struct way *next, **place;          /* of all */
    struct writers *writers;            /* of its database, if the thread gives their turns */
    struct way *next_due;
    struct way *next_active;
    struct event archived, ended;

    /* Under the plane's lock. */
    struct way *next_touched;
    bool is_touched, is_new, stops, takes_none, is_watched;
    struct line *added;
    uint64_t kick, done, found_nothing; /* as `way_done` has them; 0: there was none since */
    uint64_t reached;
    uint8_t chain[WAY_DIGEST];
    size_t chain_len;

    enum phase phase;
    struct line *lines;
    bool is_over, is_gone, rung, news_wanted, news_due, is_active, has_ended;
    enum way_end end, gone_for;         /* why it ends, or will once its statement has */
    int64_t due, asked_at;
    uint64_t kicked;                    /* the last kick */
    struct batch batch, ahead;          /* what is kept, or pulled to be; and what is pulled meanwhile, to be kept next */
    bool is_ahead;                      /* that is being pulled */
    bool tells;                         /* something is archived that nobody was told yet */
    struct trail trail;
    size_t pulls;                       /* whose replies are to come of the service */
    uint64_t first;                     /* the position that the next one of them was asked for */
    size_t depth;                       /* how many the next ones may be */
    size_t most;                        /* blocks of one */
    size_t pulled;                      /* blocks of the last one; below the most where it has come to the end */
    bool awaits_lines;
    bool is_outdated;                   /* they were asked for in another epoch: all is asked for again */
    bool expects_epoch;                 /* theirs was never told by the service */
    char why[WAY_WHY];                  /* what PostgreSQL has said of a statement in doubt */
    uint8_t *in;
    size_t in_len, in_room;
};

enum answer { FREE, ANSWERING, CONFIRMING };

struct session {
    enum kind kind;
    struct plane *plane;
    struct session *next, **place;
    struct event back;
    uint64_t key;
    PGconn *connection;
    int watched;                        /* a descriptor of its socket, which libpq may close at any time; -1: there is none */
    char *keep, *keep_block, *keep_each, *keep_lines, *flushed;
    bool is_retracted;                  /* under the plane's lock */

    enum answer answer;
    bool warned, has_row, wants_out, leaves, is_unclean, is_back;
    char why[WAY_WHY];                  /* what the server has said of its statement, or libpq of the connection */
    int64_t asked_at, due;
    int64_t confirm_at;                 /* when a standby is asked for again that had not flushed all; 0: it is being asked for */
    uint64_t wanted, standby;           /* how far one has to have flushed; how far it had; 0: not known */
    struct way *ways[SESSION_WAYS];     /* whose batches are on their way */
    bool kept[SESSION_WAYS];
    size_t count;
    uint8_t *text;                      /* the values of the statement */
    size_t len, room;
};

/* A line of one that writes, while the thread reads it. */
struct writer {
    enum kind kind;
    struct event event;
    struct writer *next, **place;       /* in the list of its database */
    struct writers *writers;
    uint64_t number, asker;
    int descriptor;
    char *of;
    bool is_back;                       /* it is the keeper's */
    bool has_turn;                      /* or waits for it, as it was given back */
    int64_t heard_at;
    size_t len;
    char data[WAY_LINE];
};

struct writers {
    struct plane *plane;
    struct writers *next, **place;
    struct way *way;                    /* of their database, if there is one */
    struct event ended;
    uint64_t key;
    char *name;
    int64_t ttl;
    struct turns *turns;
    struct writer *lines;
    uint64_t said;                      /* times that the keeper was to tell something */
    int64_t looks_at;                   /* when lines are looked for that nobody uses */
    bool takes_none;                    /* under the plane's lock */
};

/* What the keeper says to them. */
struct order {
    struct order *next;
    struct writers *writers;
    struct writer *added;               /* a line that the thread is to read; NULL: none */
    bool begins;
    struct writers_order what;
};

/* Something that the keeper is to tell. */
struct said {
    struct event event;
    uint64_t key, number;
    size_t len;
    char text[];
};

struct plane {
    int epoll, control, news;

    pthread_mutex_t lock;               /* for these */
    bool stops, takes_none;
    struct way *touched;
    struct session *lent, *sessions;    /* those that come, and those that are there */
    struct event *said, **last_said;
    struct order *orders, **last_order;

    struct writers *writers;
    struct event *events, **last_event; /* of this turn */
    struct way *ways, *active, *first_due, **last_due;
    atomic_size_t due;                  /* how many there are of those */
    int64_t wakes_at;
    bool is_over;
};

static inline int64_t now_ms(void) {
    struct timespec now;
    clock_gettime(CLOCK_MONOTONIC, &now);
    return (int64_t)now.tv_sec * 1000 + now.tv_nsec / 1000000;
}

static inline uint64_t number_in(const uint8_t *bytes, size_t count) {
    uint64_t number = 0;
    for (size_t at = 0; at < count; at++) {
        number = number << 8 | bytes[at];
    }
    return number;
}

static inline void put_number(uint8_t *bytes, uint64_t number) {
    for (size_t at = 8; at-- > 0; number >>= 8) {
        bytes[at] = (uint8_t)number;
    }
}

static inline void wake(int descriptor) {
    uint64_t one = 1;
    ssize_t written = write(descriptor, &one, sizeof one);
    (void)written; /* full: it is awake */
}

/* Room for `len` bytes, of which some are kept. */
static inline bool grow(uint8_t **bytes, size_t *room, size_t len) {
    if (len <= *room) {
        return true;
    }
    size_t wanted = len < 2048 ? 4096 : len * 2;
    uint8_t *grown = realloc(*bytes, wanted);
    if (grown == NULL) {
        return false;
    }
    *bytes = grown;
    *room = wanted;
    return true;
}

/* Looks at the clocks at this time at the latest. */
static inline void wake_by(struct plane *plane, int64_t at) {
    if (at < plane->wakes_at) {
        plane->wakes_at = at;
    }
}

/* fast_path_plane.c */

/* Has epoll tell of a descriptor, or of it no more. */
bool watch(struct plane *plane, int descriptor, void *of);
void watch_no_more(struct plane *plane, int descriptor);

/* Says so once the turn is over. */
void say(struct plane *plane, struct event *event, enum way_news news, void *owner);

/* fast_path.c */

/* A way that was begun. False without memory. */
bool begin_way(struct way *way);

/* Takes what other threads have left of it. They have given it these lines. */
void take_order(struct way *way, struct line *added, bool stops, uint64_t kick);

/* Sees to it before the turn is over. */
void set_active(struct way *way);

/* Goes on where it waits for nothing. */
void advance(struct way *way);

void end_way(struct way *way, enum way_end end);

/* How long it may be as it is, and why it ends then. */
int64_t until(const struct way *way);
enum way_end late(const struct way *way);

/* fast_path_lines.c */

/* Leaves the line to the keeper. */
void give_back(struct line *line);

/* Tells all who wait for something that is archived. Of a batch that is on its way nothing is. */
void tell_all(struct way *way);

/* Hears a line that has something to say. */
void hear_line(struct line *line);

/* Who waited before a pull that found nothing waits for what is not there. */
void tell_above(struct way *way);

/* What it was kicked for before the last pull is archived, or is not there. */
void tell_news(struct way *way);

/* Tells what is due of what was archived last. */
void tell_archived(struct way *way);

/* Whether somebody waits for what is behind a position, or there may be more. */
bool is_wanted(const struct way *way, uint64_t position);

/* fast_path_service.c */

/* Asks for new blocks: where a statement is on its way for those that come behind it. */
void begin_pull(struct way *way);

/* What has come of the service. */
void go_on_pulling(struct way *way);

/* fast_path_trail.c */

/* None are there of a batch. */
void forget_lines(struct trail *trail);

/* Takes a reply with lines, which come behind those that are there. False where it is something else, or there are too many; `is_more`
 * where there may be more. */
bool take_lines(struct way *way, const uint8_t *body, size_t len, bool *is_more);

/* Makes what is kept of them. */
bool pack_lines(struct trail *trail);

/* They are kept. */
void enter_lines(struct trail *trail);

/* fast_path_referee.c */

/* One that was lent. */
void begin_session(struct session *session);

/* Has a batch kept that is due, once a session is free. */
void set_due(struct way *way);

/* It is not due any more. */
void take_from_due(struct way *way);

/* Gives those that are due to the sessions that are free. */
void keep_due(struct plane *plane);

/* What has come of the answer, or that more of the statement can be sent. */
void go_on_keeping(struct session *session);

/* Gives it to the keeper if it is free. */
void leave_if_free(struct session *session);

/* Sees whether its time is over. Returns when it is to be seen next. */
int64_t see_clock(struct session *session, int64_t now);

void free_session(struct session *session);

/* fast_path_writers.c */

/* Does what the keeper has said. */
void take_writers_orders(struct plane *plane);

/* Hears the line of a writer that has something to say. */
void hear_writer(struct writer *line);

/* Does what is due. Returns when something is due next. */
int64_t see_writers_clock(struct writers *writers, int64_t now);

/* All lines are the keeper's, and nobody has a turn. */
void end_writers(struct writers *writers);

/* Has a way that begins know those of its database; and one that has ended no more. */
void meet_writers(struct way *way);
void leave_writers(struct way *way);

void free_writer(struct writer *line);
void free_writers(struct writers *writers);

/* fast_path_statement.c */

/* Sends the statement that keeps the batches of a session's ways. False where not all of it can be sent; it `is_asked` where some may
 * have been. */
bool send_batches(struct session *session, bool *is_asked);

#endif
