/* The fast path: one thread archives what the services of any number of databases have, as long as all is as it should be. Of each
 * database it answers the lines `durable`, pulls the new blocks, and has PostgreSQL keep them: those of all databases that are due in
 * one statement, over few connections, each under the conditions of its own. Whatever else happens to a database it leaves to the
 * keeper: that one's way ends, and says how far it came. It keeps what the keeper's statement keeps, under the same conditions, and
 * tells nobody that a block is durable before the statement's commit has returned, nor, where one is required, before a synchronous
 * standby is known to have it.
 *
 * The keeper lends connections to services and to PostgreSQL, and clients' lines. It alone closes them. `plane_run` is for one
 * thread; the others may be called of any thread while it runs, and `plane_free` after it. */

#ifndef PAGELOG_FAST_PATH_H
#define PAGELOG_FAST_PATH_H

#include <stddef.h>
#include <stdint.h>

#pragma GCC visibility push(default)

enum {
    WAY_DIGEST = 16,        /* bytes of the digest of all archived blocks */
    WAY_SHA = 32,           /* bytes of the digest of an audit list's kept lines */
    WAY_LINE = 1024,        /* the longest line of a client */
    WAY_WHY = 256,          /* of what PostgreSQL says of a statement */
    WAY_BLOCKS = 1024,      /* the most blocks of a database in one statement */
    WAY_BYTES = 1 << 20,    /* so many bytes of them are enough */
};

/* Why a way has ended. */
enum way_end {
    WAY_STOPPED = 0,        /* it was told to */
    WAY_IDLE = 1,           /* nobody has asked for a while */
    WAY_SERVICE = 2,        /* the service has not answered, or something else than new blocks */
    WAY_NOT_KEPT = 3,       /* PostgreSQL has kept nothing of it: the run holds the database no more, or the archive went back */
    WAY_DOUBT = 4,          /* it is not known whether PostgreSQL has kept the last blocks */
    WAY_NO_MEMORY = 5,
    WAY_LINES = 6,          /* the lines of its audit list are not to be had so; nothing is in doubt */
};

/* An audit list, as far as its lines are kept. */
struct way_list {
    const char *id, *of;        /* its number at the referee, and the database and run that it is of; NULL: none is kept */
    uint64_t kept;              /* the number of its last kept line */
    uint64_t seen;              /* when that was seen, in microseconds since 1970 */
    uint8_t digest[WAY_SHA];
};

/* A database. */
struct way_start {
    uint64_t key;               /* what is said of it has this number */
    const char *name;
    uint64_t generation;
    const char *of;             /* the database and the run, as a question names them behind the rest: "of=DATABASE/RUN" */
    int takes_unnamed;          /* whether the generation's number alone, of an older client, says which run is meant */
    const char *log, *run;      /* its number at the referee, and the run */
    uint64_t reached;           /* the archived position */
    uint64_t *noted;            /* where it is noted before anybody is told, as long as the way is there; NULL: nowhere */
    uint64_t shift;             /* a position less its LSN */
    uint8_t chain[WAY_DIGEST];  /* the digest of all up to there */
    size_t chain_len;           /* WAY_DIGEST; 0 where nothing is archived */
    const uint8_t *pull;        /* a request as a frame, which ends with the LSN, 8 bytes, and how many blocks, 2 bytes */
    size_t pull_len;
    struct way_list list;       /* with each batch the lines are kept that speak of it */
    const uint8_t *audit;       /* as `pull`: it ends with the number of a line, 8 bytes, and how many, 2 bytes */
    size_t audit_len;
    int is_careful;             /* until something is kept it pulls one block, which has a statement of its own: the last try has failed */
    struct way *before;         /* one that has ended: what PostgreSQL has not kept of it is tried again, and not pulled; NULL: none */
    int service;                /* a connection to the service, which does not block */
    int service_ms;             /* the longest wait for the service */
    int referee_ms;             /* for PostgreSQL's answer */
    int idle_ms;                /* without a question */
};

/* A connection to PostgreSQL. */
struct session_start {
    uint64_t key;
    void *connection;           /* PGconn: nothing else is asked over it meanwhile */
    const char *keep, *keep_block, *keep_each; /* the statements of batches, of one block, and of one block each, as they were prepared */
    const char *keep_lines;     /* that of batches some of which have lines; NULL: lines cannot be kept over it */
    const char *flushed;        /* the statement that tells how far this server and a synchronous standby have flushed; NULL: none is required */
};

enum way_news {
    WAY_LINE_BACK = 0,          /* a line is the keeper's again */
    WAY_ARCHIVED = 1,           /* what it was kicked for is archived, or is not there */
    WAY_ENDED = 2,              /* the last that is said of it, but for `way_reached`, until `way_free` */
    WAY_SESSION_BACK = 3,       /* a connection to PostgreSQL is the keeper's again */
    WRITER_BACK = 4,            /* a writer's line is the keeper's again; what is said of it has its number as the position */
    WRITER_SAID = 5,            /* this is to be told over a line that the keeper has; an empty one: its turn went on to another */
    WRITERS_ENDED = 6,          /* the last that is said of a database's writers */
};

/* What is said of a way, or of a session. */
struct way_event {
    uint64_t key;
    int news;                   /* way_news */
    int end;                    /* of a way that ended: why; of a session: whether something of a statement may be left in it; of a writer's
                                 * line: whether it has the turn, or waits for it */
    int descriptor;             /* of a line; and what follows too */
    uint64_t position;          /* what is waited for over it; 0: nothing */
    size_t len;                 /* what was read of it, and not answered; of a doubt what PostgreSQL has said */
    char data[WAY_LINE];
};

struct plane;
struct way;

/* `news` is a pipe or an eventfd, which does not block: written where there is an event. NULL without memory. */
struct plane *plane_new(int news);

/* Goes on until it is stopped: all ways have ended then, and no session is lent. */
void plane_run(struct plane *);

/* Ends all, once it is known what became of the statements that are on their way. */
void plane_stop(struct plane *);

/* Lends a connection to PostgreSQL. What `start` points to is not needed any more. False without memory. */
int plane_lend(struct plane *, const struct session_start *start);

/* Gives it back soon, once no statement is on its way over it. */
void plane_retract(struct plane *, uint64_t session);

/* How many databases have new blocks that wait for a session. */
size_t plane_due(struct plane *);

/* Takes what is said next. False where there is nothing. */
int plane_next(struct plane *, struct way_event *);

/* Where there is no way any more. */
void plane_free(struct plane *);

/* Begins that of a database. What `start` points to is not needed any more, but for `noted`. NULL without memory, or where the plane has
 * ended. */
struct way *way_new(struct plane *, const struct way_start *start);

/* From now on it reads a line, of which nothing is left unread, and over which `position` is waited for; 0: nothing. What is told over
 * it says of what, if it `is_named`. False where it takes no line any more. */
int way_add(struct way *, int descriptor, uint64_t position, int is_named);

/* There may be new blocks, for somebody who waits elsewhere. The numbers of these rise. */
void way_kick(struct way *, uint64_t number);

/* The highest of them since which a pull has begun whose blocks are archived; and the highest since which one has found nothing. */
uint64_t way_done(struct way *, uint64_t *found_nothing);

/* From now on `WAY_ARCHIVED` is said whenever something is archived, or no more. */
void way_watch(struct way *, int is_watched);

/* Ends it, once it is known what became of the statement that is on its way. */
void way_stop(struct way *);

/* The archived position, and its digest: `chain_len` bytes of them. */
uint64_t way_reached(struct way *, uint8_t chain[WAY_DIGEST], size_t *chain_len);

/* How far lines are known to be kept, of a way that has ended: of the list all but `id` and `of`. */
void way_list_of(const struct way *, struct way_list *);

/* After `WAY_ENDED`. */
void way_free(struct way *);

/* How a turn is asked for. */
enum { TURN_NOW = 1, TURN_MINE = 2, TURN_HEARTBEAT = 4, TURN_SLICES = 8 };

/* Says a text over a line; an empty one: its turn went on to another, and nothing is said. */
typedef void turns_say(void *of, uint64_t line, const char *text);

struct turns;

/* The rules of turns (turns.py) by themselves, of a database in one generation after the other. Lines have numbers, and times are in
 * milliseconds. NULL without memory. */
struct turns *turns_new(const char *name, uint64_t generation, int64_t ttl, int64_t now, turns_say *say, void *of);

/* The words of lines. False without memory. An epoch of -1 was not said. */
int turns_ask(struct turns *, uint64_t line, uint64_t asker, int how, int64_t now);
void turns_back(struct turns *, uint64_t line, int64_t epoch, int64_t now);
void turns_hold(struct turns *, uint64_t line);
void turns_gone(struct turns *, uint64_t line, int64_t now);

/* Whether it has the turn, or waits for it. */
int turns_has(const struct turns *, uint64_t line);

/* The epoch of this generation in which who has the turn writes, or had it last, as far as they have said; -1: that is not known. It may have
 * begun no epoch yet, or another one. */
int64_t turns_epoch(const struct turns *, uint64_t generation);

void turns_next(struct turns *, uint64_t generation, int is_whole, int64_t now);
void turns_expect(struct turns *, int64_t now);

/* Does what is due. Returns when something is due next. */
int64_t turns_see_clock(struct turns *, int64_t now);

/* Ends all turns. */
void turns_free(struct turns *);

/* The writers of a database, whose turns the thread gives. */
struct writers_start {
    uint64_t key;               /* what is said of them has this number; no way has it */
    const char *name;
    uint64_t generation;
    int ttl_ms;
};

enum writers_word {
    WRITERS_TURN = 0,           /* a line asks for the turn */
    WRITERS_BACK = 1,           /* gives it back, or waits no more */
    WRITERS_HOLD = 2,           /* has it in use */
    WRITERS_GONE = 3,           /* is closed */
    WRITERS_EXPECT = 4,         /* somebody has asked what became of the generation before */
    WRITERS_NEXT = 5,           /* another generation has begun: all lines are the keeper's */
    WRITERS_END = 6,            /* the keeper has the database no more */
};

/* What the keeper has them do. */
struct writers_order {
    int word;                   /* writers_word */
    uint64_t line, asker;       /* numbers */
    int how;                    /* of a turn; of the next generation, whether it is whole */
    int64_t epoch;              /* of a back; -1: it was not said */
    uint64_t generation;        /* the next one */
    int descriptor;             /* of a turn: from now on the thread reads this line, of which nothing is left unread; -1: it does not */
    const char *of;             /* what all that is said over it names: "of=DATABASE/RUN" */
    uint64_t heard;             /* how many times the keeper has done what `WRITER_SAID` says */
};

struct writers;

/* NULL without memory, or where the plane has ended. They are the thread's until `WRITERS_ENDED`. */
struct writers *writers_new(struct plane *, const struct writers_start *start);

/* False without memory, or where they have ended. */
int writers_do(struct writers *, const struct writers_order *order);

#pragma GCC visibility pop

#endif
