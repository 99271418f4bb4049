/* What the files of the wire share, and no caller sees. */
#ifndef PAGELOG_INSIDE_H
#define PAGELOG_INSIDE_H

#include "pagelog.h"
#include "pagelog_common.h"
#include "pagelog_secure.h"

#include <sys/types.h>

enum { RECORD_PUT = 1, RECORD_ZERO = 2, PUT_HEAD_BYTES = 9, BLOCK_HEAD_BYTES = 12 };

enum { SECTION_A = 1, SECTION_B, SECTION_C };

/* The faults of a block, and of a reply. */
enum {
    BLOCK_CUT = 1,
    BLOCK_LSN,
    BLOCK_ORDER,
    BLOCK_KIND,
    BLOCK_EMPTY_PUT,
    BLOCK_PUT_RANGE,
    BLOCK_TRAILING,
    BLOCK_ANNOTATIONS,
    BLOCK_LENGTH,
};
enum { REPLY_EMPTY = 1, REPLY_ROLE, REPLY_KIND, REPLY_CUT, REPLY_TRAILING, REPLY_RANGE };

/* Of the body of a request: its head, and all but the bytes of a block or a text, at most. */
enum { HEAD_BYTES = 30, FRONT_BYTES = HEAD_BYTES + 16 };

/* A buffer that grows. What is in it lies from `start` to `end`. */
struct buffer {
    uint8_t *bytes;
    size_t start, end, room;
};

/* Bytes that are sent from where they lie: after the first `at` bytes that the output holds. */
struct lent {
    size_t at, length;
    const uint8_t *bytes;
};

/* Pieces that are lent at once, at most. */
enum { MOST_LENT = 8 };

/* Of the pages that are on their way and nobody waits for, a number for all with the same low bits. */
enum { AHEAD_SLOTS = 1024 };

/* A request in flight: what its reply has to fit. */
struct asked {
    uint64_t lsn;
    uint32_t epoch, page;
    uint16_t max;
    uint8_t operation;
    uint8_t is_exact;
    bool is_unheard; /* nobody waits for the reply: it is passed over, but for a page (pagelog_set_taker) */
};

/* What a page has at an LSN of the log, from an offset on. */
struct witness {
    uint64_t lsn; /* 0: nothing is known */
    uint32_t page;
    uint16_t offset, length;
    uint8_t bytes[PAGELOG_WITNESS_BYTES];
};

/* What is in flight of the append to come: the writes of its first blocks, a report after some of them. */
struct ahead {
    size_t blocks;
    uint64_t reports; /* a bit for each of the blocks: a report follows its writes */
    size_t done;      /* replies that were read, each of them Done */
};

/* Who may end a wait. */
struct pagelog_waiter {
    bool (*goes_on)(void *); /* asked while a call waits; NULL: nobody is */
    void *argument;
    uint64_t free;    /* until when the first wait asks nobody; 0: none was begun since that was set */
    bool is_given_up; /* it has ended the wait */
};

/* Whether who waits lets the wait go on. */
bool pagelog_waits_on(struct pagelog_waiter *waiter);

struct pagelog {
    char *host, *port; /* NULL: none yet */
    struct pagelog_options options;
    pid_t process;                 /* that has made it */
    int socket;                    /* -1: not connected */
    struct pagelog_secure *secure; /* TLS over it; NULL: none */
    char why[PAGELOG_WHY_BYTES];   /* what was wrong with that last; empty: nothing */
    struct buffer output, input;   /* requests that were not sent yet; replies not read yet */
    struct lent lent[MOST_LENT]; /* bytes of these requests that are not in the buffer; none of them empty */
    size_t lent_count;
    struct asked asked[PAGELOG_IN_FLIGHT]; /* a ring: the requests in flight, the oldest first */
    size_t asked_first;
    size_t asked_count, unheard;  /* of them: those whose replies are waited for, and the others */
    uint16_t coming[AHEAD_SLOTS]; /* gets among the others, by their page */
    pagelog_take *take;           /* who is given the pages among these, with its argument; NULL: nobody */
    void *taker;
    bool is_tidying_refused;      /* a report or a tidy among them was, in the writing epoch */
    uint32_t epoch;               /* the newest that was heard of; 0: none yet */
    uint32_t writing_epoch;       /* 0: no writer */
    uint64_t end;                 /* the highest LSN known to be in the log */
    struct witness witness;       /* of the last block that is known to be there */
    struct pagelog_zone zone;     /* of the writing epoch, as far as is known */
    bool owns_epoch;              /* it was begun by this object; another may join it */
    uint32_t lost_failovers;      /* sent since the writing epoch began, whose replies were lost */
    bool is_restarted;            /* the service was restarted */
    bool stuck;                   /* the window may hold blocks of an append that is not DONE */
    struct ahead ahead;           /* of the append to come */
    struct pagelog_waiter waiter; /* who may end a wait */
    bool waits;                   /* something was sent since the last wait */
    uint64_t spin_ns;             /* how long a wait looks for its reply awake */
    uint64_t usual_ns;            /* how long the last waits took on average */
    bool is_in_group;             /* nothing is done before all replies to what is in flight are there */
    enum pagelog_outcome last;    /* the last outcome that was not DONE */
    struct pagelog_reply refused; /* and the reply that caused it, without its bytes */
    struct pagelog_counts counts;
};

/* What a request's reply has to fit. */
struct asked pagelog_asked_of(const struct pagelog_request *request);

/* Whether this reply may come to that request. A request in another epoch than the current one is denied, so
 * that a status has the epoch that was asked in. A page may be newer only where that was asked. */
bool pagelog_answers(struct asked asked, const struct pagelog_reply *reply);

/* Enters an outcome that no reply caused, and returns it. */
enum pagelog_outcome pagelog_fail(struct pagelog *log, enum pagelog_outcome outcome);

/* Whether this process has made the object, or is a child of that one. */
bool pagelog_is_own(const struct pagelog *log);

/* Sends this request alone over a connection that has nothing in flight, and reads its reply. */
enum pagelog_outcome pagelog_exchange(struct pagelog *log, const struct pagelog_request *request,
                                      struct pagelog_reply *reply);

/* Notes the last record of a block that is in the log. */
void pagelog_note_block(struct pagelog *log, const uint8_t *block);

/* Whether the service that was connected to has the history that the object has seen: DONE where it has, or
 * where the object's epoch is over and its principal may not look; FENCED where it has another; else why that
 * could not be learned. */
enum pagelog_outcome pagelog_confirm(struct pagelog *log);

/* As pagelog_send, but the bytes of a long block are sent from where they lie: they have to stay there
 * until pagelog_push, or a receive. */
enum pagelog_outcome pagelog_lend(struct pagelog *log, const struct pagelog_request *request);

/* Sends as much of what is queued as goes at once, if there is a connection. An error is met again by who
 * sends the rest. What was lent is free again. */
void pagelog_push(struct pagelog *log);

/* As pagelog_encode_request, but without the bytes at the end of the body; there are `*length` of them. */
size_t pagelog_encode_front(const struct pagelog_request *request, uint8_t front[FRONT_BYTES],
                            size_t *length);

/* Nobody waits for the replies to what is in flight. REQUIRES: each of them is Done, a page, or a refusal. */
void pagelog_pass_over(struct pagelog *log);

/* As pagelog_send, of a get whose reply nobody waits for. */
enum pagelog_outcome pagelog_send_ahead(struct pagelog *log, const struct pagelog_request *get);

/* Somebody waits for the reply to a get that was sent so, if it is in flight: whether it is. */
bool pagelog_await_ahead(struct pagelog *log, uint64_t lsn, uint32_t page);

/* Takes the next replies that nobody waits for, as far as they were read from the connection. */
void pagelog_take_ahead(struct pagelog *log);

/* Whether all that was queued has left this process. */
bool pagelog_is_pushed(const struct pagelog *log);

/* Reads what has come, without waiting, and takes the replies that are Done from it, up to the first other
 * one: how many. `*is_over` says whether there is another one, or the connection has ended; who waits meets
 * it. */
size_t pagelog_take_done(struct pagelog *log, bool *is_over);

/* Learns what a reply says about the service, and enters a refusal. */
enum pagelog_outcome pagelog_notice(struct pagelog *log, const struct pagelog_reply *reply);

/* What came is no reply to what was asked, so that nothing after it on this connection can be believed:
 * closes it. */
enum pagelog_outcome pagelog_distrust(struct pagelog *log);

/* How long a call goes on with lost connections while nothing is done. */
struct pagelog_patience {
    struct pagelog *log;
    uint64_t until;
    unsigned ms, wait_ms; /* the next wait before a try; 0: the first try, which comes at once */
    unsigned epochs;      /* that replies have reported, and the call was asked again in */
};
struct pagelog_patience pagelog_patience_of(struct pagelog *log);

/* Something was done: the patience begins again. */
void pagelog_progress(struct pagelog_patience *patience);

/* Whether there is patience for another try; it waits a little before, and longer each time. */
bool pagelog_may_try_again(struct pagelog_patience *patience);

/* Whether a call may be asked again in an epoch that a reply has reported: 64 times while there is patience,
 * and twice without any, since that is how a call learns its epoch. */
bool pagelog_may_change_epoch(struct pagelog_patience *patience);

#endif
