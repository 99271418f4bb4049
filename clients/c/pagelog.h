/* SPDX-License-Identifier: MIT OR Apache-2.0 */
/* The wire: one object is one connection to a log and page service, as one principal, to one database, in one
 * epoch.
 *
 * docs/FORMATS.md has the bytes, docs/RULES.md what the service decides, docs/CLIENT.md how a database uses
 * both.
 *
 *   - An object connects when it has to ask, and again when the connection was lost. It is used by one thread
 * at a time, and by the process that has made it: in a child of fork() it can only be freed, which sends
 * nothing.
 *   - After each connect but the first it looks whether the service has the history that it had: by the last
 * record of the last block that the object saw in the log. A principal that may neither get nor pull cannot
 * look, and is DENIED then, unless its epoch is over.
 *   - Every wait ends: `connect_ms` bounds a connect, `reply_ms` the sending of what is queued and the wait
 * for one reply to its last byte. A lost connection is opened again for `patience_ms`, so that a call whose
 * service does not answer takes about the sum of the three.
 *   - Of a peer that lies no call is without end either: a call sends what its arguments ask for, 64 times at
 * most in epochs that rise, and only twice once `patience_ms` are over; each reply takes `reply_ms` and 1 MiB
 * at most, and 16 MiB that nobody asked for are kept.
 *   - Nothing here ends the process, writes to a stream, raises a signal or keeps anything outside of the
 * object.
 *   - LSNs, pages, epochs and lengths are the service's: an LSN is 1 to 2^48, a page has 8,192 bytes.
 */
#ifndef PAGELOG_H
#define PAGELOG_H

#include <limits.h>
#include <stdbool.h>
#include <stddef.h>
#include <stdint.h>

struct pagelog_tls;

#ifdef __cplusplus
extern "C" {
#endif

enum {
    PAGELOG_PAGE_BYTES = 8192,
    PAGELOG_BLOCK_BYTES = 32768,   /* a block, encoded, at most */
    PAGELOG_ZERO_BYTES = 5,        /* a Zero in a block */
    PAGELOG_REQUEST_BYTES = 65536, /* the body of a request, at most */
    PAGELOG_REPLY_BYTES = 1048576, /* the body of a reply, at most */
    PAGELOG_TOKEN_BYTES = 16,
    PAGELOG_WINDOW = 64,        /* LSNs above the end of the log that may be written */
    PAGELOG_PULL_BLOCKS = 16,   /* blocks of one pull, at most */
    PAGELOG_AUDIT_LINES = 1024, /* lines of one audit, at most */
    PAGELOG_AUDIT_LINE_BYTES = 53,
    PAGELOG_IN_FLIGHT = 1024,    /* requests that may wait for their replies, at most */
    PAGELOG_MOST_COPIES = 6,     /* of a block, in the landing zone */
    PAGELOG_WITNESS_BYTES = 256, /* of a record, that show whether a service has the same history */
};

#define PAGELOG_LAST_LSN (UINT64_C(1) << 48)

/* For `spin_us`. */
#define PAGELOG_NO_SPIN UINT_MAX

/* ---- Outcomes: what a client does next ---- */

/* What became of a call. `pagelog_refused()` has the reply that caused it, row and value. */
enum pagelog_outcome {
    PAGELOG_DONE,       /* it is done; of an append: all blocks are in the log */
    PAGELOG_LOST,       /* no connection, or it was lost, or a time-out; asked again it may be done */
    PAGELOG_FENCED,     /* A2, A3, A4: another epoch or another primary, or a service that was restarted */
    PAGELOG_IN_DOUBT,   /* of an append only: whether it is in the log cannot be learned now */
    PAGELOG_CONFLICT,   /* C2, C3, C4, C6: the window holds something else than this object believed */
    PAGELOG_DENIED,     /* any other row; no such database; no turns left (Spent) */
    PAGELOG_NO_MEMORY,  /* the service's memory, or this process', did not suffice; nothing was changed */
    PAGELOG_AUDIT_FULL, /* the database answers nothing any more, not even to an operator */
    PAGELOG_MALFORMED,  /* an argument out of its range, an object of another process, or a reply that is none
                         */
};

/* The outcome in lower case, as "in doubt". */
const char *pagelog_outcome_name(enum pagelog_outcome outcome);

/* ---- Requests and replies ---- */

enum pagelog_role { PAGELOG_PRIMARY = 1, PAGELOG_SECONDARY, PAGELOG_PAGE_SERVER, PAGELOG_OPERATOR };

enum pagelog_operation {
    PAGELOG_WRITE = 1,
    PAGELOG_OFFER,
    PAGELOG_REPORT,
    PAGELOG_GET,
    PAGELOG_PULL,
    PAGELOG_ADVANCE,
    PAGELOG_STATUS,
    PAGELOG_FAILOVER,
    PAGELOG_SET_TABLE,
    PAGELOG_AUDIT,
    PAGELOG_TIDY,
};

/* A request; each operation reads the fields that are named after it, and no others. */
struct pagelog_request {
    uint32_t principal;
    uint8_t token[PAGELOG_TOKEN_BYTES];
    uint8_t role;
    uint32_t database;
    uint32_t epoch;
    uint8_t operation;
    uint8_t copy;         /* write */
    uint8_t exact;        /* get: 0 or 1 */
    uint16_t lo, hi;      /* pull: partitions, lo at most hi */
    uint16_t max;         /* pull: 1 to 16; audit: 1 to 1,024 */
    uint16_t partition;   /* advance */
    uint16_t steps;       /* advance: 1 to 1,024 */
    uint32_t page;        /* get */
    uint32_t to;          /* failover: the principal that becomes the primary */
    uint64_t lsn;         /* report, get: 0 to 2^48; pull: from 1 on; audit: the first entry, from 1 on */
    const uint8_t *bytes; /* write, offer: an encoded block; set_table: a text */
    size_t length;
};

enum pagelog_kind {
    PAGELOG_REPLY_DONE,
    PAGELOG_REPLY_BLOCKS,
    PAGELOG_REPLY_PAGE,
    PAGELOG_REPLY_ENTRIES,
    PAGELOG_REPLY_STATUS,
    PAGELOG_REPLY_DENIED,
    PAGELOG_REPLY_NO_MEMORY,
    PAGELOG_REPLY_AUDIT_FULL,
    PAGELOG_REPLY_SPENT,
    PAGELOG_REPLY_NO_DATABASE,
    PAGELOG_REPLY_MALFORMED,
};

/* A reply. Its bytes are those that were received, and valid until the next call with the same object. */
struct pagelog_reply {
    uint8_t kind;
    uint8_t section;  /* denied: 1 to 3, for A to C */
    uint16_t row;     /* denied */
    uint64_t value;   /* denied */
    uint8_t code;     /* malformed: the body's fault, 1 to 15 */
    uint16_t count;   /* blocks, entries: how many */
    uint64_t next;    /* blocks: where the next pull goes on */
    uint64_t at;      /* page: the LSN that it is served at */
    uint32_t epoch;   /* status */
    uint32_t primary; /* status */
    uint64_t hard;    /* status: the end of the log, the number of hardened blocks */
    uint64_t pending; /* status: how many of them came from the pending area */
    uint64_t landing; /* status: how many from the landing zone */
    const uint8_t
        *bytes; /* blocks: u32 length and block, `count` times; page: 8,192 bytes; entries: 53 bytes each */
    size_t length;
};

/* How many bytes the body of a request has, which are written to `body`, or 0 where a field is out of its
 * range or the body would be longer than `room`. 65,536 bytes of room suffice for every request. A block is
 * not looked at. */
size_t pagelog_encode_request(const struct pagelog_request *request, uint8_t *body, size_t room);

/* Reads the body of a reply. 0, or the first fault, 1 to 15, by docs/FORMATS.md, section Reply. */
unsigned pagelog_decode_reply(const uint8_t *body, size_t length, struct pagelog_reply *reply);

/* What a reply means to a client. */
enum pagelog_outcome pagelog_outcome_of(const struct pagelog_reply *reply);

/* A line of the audit list. */
struct pagelog_audit_line {
    uint64_t number, pass;
    uint32_t principal;
    uint8_t role;
    uint32_t epoch;
    uint8_t operation;
    uint64_t a, b;
    uint8_t section; /* 0: it was allowed */
    uint16_t row;
    uint64_t value;
};

/* Reads one of the 53-byte lines of a reply Entries. */
void pagelog_read_audit_line(const uint8_t *bytes, struct pagelog_audit_line *line);

/* ---- Blocks ---- */

/* The fault of an encoded block, 1 to 9 by docs/FORMATS.md, section Block, or 0. */
unsigned pagelog_block_fault(const uint8_t *block, size_t length);

/* A record of a block: it replaces `length` bytes of a page from `offset` on, or, where length is 0, makes
 * all of them zeros. */
struct pagelog_record {
    uint32_t page;
    uint16_t offset, length;
    const uint8_t *bytes;
};

/* Goes through the records of a block. */
struct pagelog_records {
    uint64_t lsn;
    uint16_t left; /* records that were not yet read */
    const uint8_t *at;
};

/* Begins at the first record. REQUIRES: the block has no fault, as those of a decoded reply have none. */
void pagelog_records_begin(struct pagelog_records *records, const uint8_t *block);

/* The next record, or false after the last one. */
bool pagelog_records_next(struct pagelog_records *records, struct pagelog_record *record);

/* Blocks with consecutive LSNs that are built of records, each filled before the next one is begun. */
struct pagelog_blocks;

/* No blocks yet; NULL where memory runs out. */
struct pagelog_blocks *pagelog_blocks_new(void);
void pagelog_blocks_free(struct pagelog_blocks *blocks);

/* Drops all blocks; the next one has this LSN. */
void pagelog_blocks_restart(struct pagelog_blocks *blocks, uint64_t first_lsn);

/* Adds a Put, cut where a block is full. `length` is 1 to 8,192, and offset + length at most 8,192, else
 * MALFORMED. After NO_MEMORY the blocks can only be restarted or freed. */
enum pagelog_outcome pagelog_blocks_put(struct pagelog_blocks *blocks, uint32_t page, uint16_t offset,
                                        const uint8_t *bytes, uint16_t length);

/* The LSN of the block that a Put of `length` bytes goes into as a whole: the block that is being filled is
 * ended where the Put has no room in it. 0 where memory runs out. */
uint64_t pagelog_blocks_room(struct pagelog_blocks *blocks, uint32_t page, uint16_t length);

/* Adds a Zero: all bytes of the page become 0. */
enum pagelog_outcome pagelog_blocks_zero(struct pagelog_blocks *blocks, uint32_t page);

/* Adds the Puts that make the page `old` into `new`; a gap of so few equal bytes that a second head would
 * cost more is put too. Both have 8,192 bytes. Nothing is added where they are equal. */
enum pagelog_outcome pagelog_blocks_difference(struct pagelog_blocks *blocks, uint32_t page,
                                               const uint8_t *old, const uint8_t *new_bytes);

/* Ends the block that is being filled, if it has a record. An append needs it. */
enum pagelog_outcome pagelog_blocks_end(struct pagelog_blocks *blocks);

/* Adds an encoded block, under the LSN that is next. MALFORMED where a block is being filled. */
enum pagelog_outcome pagelog_blocks_add(struct pagelog_blocks *blocks, const uint8_t *block, size_t length);

/* All LSNs become greater by so much. */
void pagelog_blocks_shift(struct pagelog_blocks *blocks, int64_t by);

/* Whether no record was added since the last block was ended. */
bool pagelog_blocks_is_fresh(const struct pagelog_blocks *blocks);

/* How many blocks were ended. A block that is being filled is not counted. */
size_t pagelog_blocks_count(const struct pagelog_blocks *blocks);

/* Forgets the first `count` ended blocks, which were appended; the block that is being filled stays. */
void pagelog_blocks_drop(struct pagelog_blocks *blocks, size_t count);

/* An ended block as its bytes. REQUIRES: index below the count. */
const uint8_t *pagelog_blocks_at(const struct pagelog_blocks *blocks, size_t index, size_t *length);

/* ---- The object ---- */

struct pagelog;

struct pagelog_options {
    const char *address; /* "HOST:PORT", "[HOST]:PORT" of IPv6; copied. A name is looked up at each connect,
                          * for as long as the system's resolver takes. NULL: none yet (pagelog_enter) */
    uint32_t principal;
    uint8_t token[PAGELOG_TOKEN_BYTES];
    uint32_t database;
    unsigned connect_ms; /* 0: 5,000 */
    unsigned reply_ms;   /* 0: 10,000 */
    unsigned
        patience_ms; /* how long a call opens lost connections again while nothing gets done; 0: 10,000 */
    /* How many microseconds a wait may look for its reply before it sleeps, which spares its being woken,
     * where the last waits took no longer; 0: 50, PAGELOG_NO_SPIN: each wait sleeps. Of many replies it looks
     * for the last ones, so long for each that comes. */
    unsigned spin_us;
    /* The landing zone that the table gave the epoch: 3 copies and quorum 2, or 6 and 4; 0 and 0: 3 and 2. No
     * reply reports it. A denial C5 or C6 shows that it is the other one: then the object goes by that. */
    unsigned copies, quorum;
    struct pagelog_tls *tls; /* NULL: none. It outlives the object (pagelog_tls.h) */
};

/* The landing zone that an object goes by. */
struct pagelog_zone {
    unsigned copies, quorum;
    bool is_seen; /* replies of its writing epoch have shown that this is the one */
};

/* What an object has done since it was made. */
struct pagelog_counts {
    uint64_t requests, replies;
    uint64_t bytes_sent, bytes_received;
    uint64_t round_trips; /* waits for a reply after something was sent */
    uint64_t connects;
};

/* An object that is not connected yet; NULL where memory runs out, or where no table can have these copies
 * and this quorum. */
struct pagelog *pagelog_new(const struct pagelog_options *options);
void pagelog_free(struct pagelog *log);

/* Closes the connection. The next call opens another. Requests in flight are lost. */
void pagelog_disconnect(struct pagelog *log);

/* Who waits may end a wait: `goes_on` is asked again and again from the first second of the waits on that
 * follow this call, and may sleep for a tenth of a second each time. Once it is false everything that has to
 * wait is LOST at once, until the next call of this function. NULL: nobody is asked. */
void pagelog_set_waiting(struct pagelog *log, bool (*goes_on)(void *argument), void *argument);

/* Whether who waits for the object lets the wait go on: for who waits beside its calls. */
bool pagelog_goes_on(struct pagelog *log);

/* For a child of fork(): closes the object's descriptor there, and nothing else. It may be called while
 * another thread of the parent was using the object, which the child can only leave as it is then. */
void pagelog_abandon(struct pagelog *log);

/* Opens a connection, if there is none; LOST where that cannot be within `patience_ms`. */
enum pagelog_outcome pagelog_connect(struct pagelog *log);

/* Writes the address that the object is connected to, as "127.0.0.1:7400", cut to `room` bytes; empty where
 * it is not connected. */
void pagelog_peer(const struct pagelog *log, char *text, size_t room);

/* A page has these bytes at an LSN of the log, as the caller has read it: what shows after the next connect
 * that the service has the same history. At most PAGELOG_WITNESS_BYTES of them are kept. Appends and pulls
 * note the last record of their last block so by themselves. */
void pagelog_expect(struct pagelog *log, uint64_t lsn, uint32_t page, uint16_t offset, const uint8_t *bytes,
                    size_t length);

/* The reply that caused the last outcome that was not DONE; `kind` is PAGELOG_REPLY_DONE where there was
 * none, as for LOST. */
const struct pagelog_reply *pagelog_refused(const struct pagelog *log);

/* Enters an outcome that was not DONE again, with the reply that caused it: for who has asked meanwhile what
 * became of it. */
enum pagelog_outcome pagelog_restore(struct pagelog *log, enum pagelog_outcome outcome,
                                     const struct pagelog_reply *refused);

/* Whether the service was restarted while this object was in use: its epoch or the end of its log fell, or a
 * reconnect has found another history. What was in the log may be gone then. Each later call is FENCED. */
bool pagelog_is_restarted(const struct pagelog *log);

/* Whether an append has left something in the window, so that nothing else can be appended in this epoch. */
bool pagelog_is_stuck(const struct pagelog *log);

/* Writes a sentence on the last outcome that was not DONE, cut to `room` bytes with the 0 at its end, as
 * "fenced: denied A2, value 7". */
void pagelog_explain(const struct pagelog *log, char *text, size_t room);

struct pagelog_counts pagelog_counts_of(const struct pagelog *log);

/* The newest epoch that the object has heard of; 0 before the first reply that reports one. */
uint32_t pagelog_epoch(const struct pagelog *log);

/* The epoch in which the object writes, or 0 where it is no writer. */
uint32_t pagelog_writing_epoch(const struct pagelog *log);

/* The highest LSN that the object knows to be in the log. */
uint64_t pagelog_end(const struct pagelog *log);

struct pagelog_zone pagelog_zone_of(const struct pagelog *log);

/* Changes `spin_us`. Where this thread may run on one processor only, each wait sleeps, whatever is set. */
void pagelog_set_spin(struct pagelog *log, unsigned spin_us);

/* How many microseconds a wait may look for its reply; 0: each one sleeps. */
unsigned pagelog_spin(const struct pagelog *log);

/* ---- Requests in flight ---- */

/* Queues a request: principal, token, database and epoch are the object's where `as` is NULL, so that a
 * caller fills in role, operation and arguments alone. A primary's epoch is the writing epoch, every other
 * role's the newest one. MALFORMED where an argument is out of its range or 1,024 requests are in flight.
 * Nothing may have been sent yet when
 * it returns. While the rest of what is queued is being sent, up to 16 MiB of replies are read ahead. */
enum pagelog_outcome pagelog_send(struct pagelog *log, const struct pagelog_request *request);

/* As pagelog_send, with principal, token, database and epoch as the request has them. */
enum pagelog_outcome pagelog_send_as(struct pagelog *log, const struct pagelog_request *request);

/* Sends what is queued and reads the reply to the oldest request in flight. The outcome is that of the reply.
 * LOST: all requests in flight are forgotten, and each of them may have been carried out or not. MALFORMED:
 * the same, where the reply is none of those that the request can have. */
enum pagelog_outcome pagelog_receive(struct pagelog *log, struct pagelog_reply *reply);

/* How many requests were sent or queued whose replies were not yet read. Those of pagelog_tidy_up are not
 * counted. */
size_t pagelog_in_flight(const struct pagelog *log);

/* ---- Reading. These calls need an object with nothing in flight; they are repeated after a lost connection,
 * and take over a newer epoch for every role but the primary's. ---- */

/* Asks for the status. As primary FENCED where the epoch is over. */
enum pagelog_outcome pagelog_status(struct pagelog *log, enum pagelog_role role,
                                    struct pagelog_reply *status);

/* Pages at an LSN, 8,192 bytes each, to `out`, with up to 64 requests in flight. DENIED with row C1 where the
 * LSN is above the end of the log. After any outcome but DONE the bytes of `out` are undefined. */
enum pagelog_outcome pagelog_get(struct pagelog *log, enum pagelog_role role, uint64_t lsn,
                                 const uint32_t *pages, size_t count, uint8_t *out);

/* A page that nobody waits for has come, 8,192 bytes, as it is at the LSN that it was asked at. It calls
 * nothing of the object. */
typedef void pagelog_take(void *argument, uint64_t lsn, uint32_t page, const uint8_t *bytes);

/* As pagelog_get of the first of `count` pages. It asks for the others too, which will probably be read, and
 * waits for none of them: `take` of pagelog_set_taker is given each, within whatever later call has read its
 * reply. Those of one that is in flight already are not asked for again. What is in flight of an object so is
 * forgotten with its connection, and a page that is refused is passed over. They count as requests in
 * flight, of which there may be PAGELOG_IN_FLIGHT, but all calls may be made meanwhile. */
enum pagelog_outcome pagelog_get_ahead(struct pagelog *log, enum pagelog_role role, uint64_t lsn,
                                       const uint32_t *pages, size_t count, uint8_t *out);

/* By whom the pages are taken; NULL: by nobody. */
void pagelog_set_taker(struct pagelog *log, pagelog_take *take, void *argument);

/* Whether such a page is on its way at this LSN; and how many requests are, whose replies nobody waits for.
 */
bool pagelog_is_ahead(const struct pagelog *log, uint64_t lsn, uint32_t page);
size_t pagelog_count_ahead(const struct pagelog *log);

/* The blocks from an LSN on, at most `max` (1 to 16), as a secondary, of all partitions. At the end of the
 * log it is DONE with a count of 0 and `next` as it was asked. `hard` is the end of the log where the blocks
 * go so far, else 0; where the table ends this principal's row at an LSN, that LSN, and a pull from the next
 * one is DENIED. The blocks are valid until the next call. After a lost connection fewer are asked for. */
enum pagelog_outcome pagelog_pull(struct pagelog *log, uint64_t from, unsigned max,
                                  struct pagelog_reply *blocks);

/* The next block of a reply Blocks, or NULL: `*at` is 0 at first, and is moved on. */
const uint8_t *pagelog_next_block(const struct pagelog_reply *blocks, size_t *at, size_t *length);

/* ---- Writing ---- */

/* Becomes the writer of a new epoch, by a failover to this object's principal in the name of an operator.
 * Where `expected` is not 0 it does so only if that is the current epoch, or if a take-over whose replies
 * were lost may have begun the current one, which then is this principal's; it is FENCED otherwise. Else it
 * does so whatever the epoch is. No other object has the epoch that it begins, unless it joins that. */
enum pagelog_outcome pagelog_take_over(struct pagelog *log, uint32_t operator_principal,
                                       const uint8_t operator_token[PAGELOG_TOKEN_BYTES], uint32_t expected);

/* As pagelog_take_over with `expected`, in one round trip in which blocks are pulled too, from an LSN on, as
 * pagelog_pull does, up to PAGELOG_PULL_BLOCKS of them. It is not asked again: after any outcome but DONE
 * this object writes in no epoch, and the failover may have been done. */
enum pagelog_outcome pagelog_hand_over(struct pagelog *log, uint32_t operator_principal,
                                       const uint8_t operator_token[PAGELOG_TOKEN_BYTES], uint32_t expected,
                                       uint64_t from, struct pagelog_reply *blocks);

/* Becomes a writer of the current epoch, which has to be this principal's; FENCED (A4) otherwise. Two objects
 * may write in one epoch so, which spoils transactions of several blocks. Where all call pagelog_take_over,
 * none does. */
enum pagelog_outcome pagelog_join(struct pagelog *log);

/* Appends ended blocks, the first of which has the LSN pagelog_end() + 1, each to `copies` copies of the
 * landing zone: 0 for as many as the quorum, else 2 to 6, but never fewer than the quorum and never more than
 * there are. Up to 64 blocks take one round trip. A lost connection is opened again and the rest is repeated,
 * in smaller groups.
 *
 * DONE: all blocks are in the log, even if the epoch has ended in the meantime; then the next call is FENCED.
 * IN_DOUBT: the last block may be in the log or come into it; a look in a later epoch shows which.
 * Any other outcome: the last block is not in the log and never will be; some of the first may be.
 *
 * After any outcome but DONE each later append is CONFLICT until pagelog_take_over was DONE, unless nothing
 * was accepted. */
enum pagelog_outcome pagelog_append(struct pagelog *log, const struct pagelog_blocks *blocks,
                                    unsigned copies);

/* Sends up to 64 ended blocks ahead of the pagelog_append of the same blocks and of those that are added to
 * them, to the same copies, so that the service takes the first ones while the last are being made. It waits
 * for nothing; what cannot be sent now the append sends. Nothing else may be called before the append but
 * pagelog_disconnect, by which the append is given up: then each later one is CONFLICT until
 * pagelog_take_over was DONE. */
void pagelog_append_ahead(struct pagelog *log, const struct pagelog_blocks *blocks, unsigned copies);

/* As pagelog_append_ahead, with a report after the last block: if nothing goes wrong they are in the log
 * soon, and nobody waited for it. Blocks that are added to them may be sent so too, up to 64 in all. The
 * append reports what has become of them. False where it is due at once: the blocks have not all left this
 * process, or are more than 64. */
bool pagelog_append_unwaited(struct pagelog *log, const struct pagelog_blocks *blocks, unsigned copies);

/* Reads what replies to it have come, without waiting. True where the append is due: a reply is a refusal, or
 * the connection has ended. It may be called between pagelog_append_unwaited and the append. */
bool pagelog_append_is_due(struct pagelog *log);

/* The same call, but true where all replies have come and none is a refusal: the append waits for nothing. */
bool pagelog_append_is_answered(struct pagelog *log);

/* An operator, in whose name the following ask. */
struct pagelog_operator {
    uint32_t principal;
    uint8_t token[PAGELOG_TOKEN_BYTES];
};

/* Whether the audit list has an entry of this number, from 1 on: one request, which is an entry too. */
enum pagelog_outcome pagelog_has_entry(struct pagelog *log, const struct pagelog_operator *who,
                                       uint64_t number, bool *has);

/* How many entries the audit list has, found by bisection: some 24 requests, each of which is an entry too.
 */
enum pagelog_outcome pagelog_count_entries(struct pagelog *log, const struct pagelog_operator *who,
                                           uint64_t *count);

/* For the time after a long append, in which nobody waits. A report enters the blocks of the report before
 * into the index of pages, and moves old blocks to where they stay, before it is answered. This has the
 * service do that now: by a report of the end of the log, and, where `operator_token` is not NULL, a tidy in
 * that operator's name. Both change nothing that is read. It waits for nothing, and has no outcome. The
 * replies are passed over by who reads the next one; after a refusal nothing is sent until this object begins
 * another epoch. Nothing is sent either where something is in flight, or where this object may not append. */
void pagelog_tidy_up(struct pagelog *log, uint32_t operator_principal, const uint8_t *operator_token);

#ifdef __cplusplus
}
#endif
#endif
