/* What the files of the file layer share, and no caller sees. */
#ifndef PAGELOG_FILE_INSIDE_H
#define PAGELOG_FILE_INSIDE_H

#include "pagelog_cache.h"
#include "pagelog_common.h"
#include "pagelog_file.h"
#include "pagelog_place.h"
#include "pagelog_position.h"
#include "pagelog_source.h"

#include <string.h>

/* ---- The states of a file ----
 *
 * They are two: its standing, which is what it is to the log, and what it has of the transaction that is
 * read. pagelog_steps.c has these tables once more, and its two functions make each step. One from the state
 * of a line to that of a column is made when
 *
 *   FOLLOWING reads what others write, WRITING has an epoch, BROKEN has one in which a commit or a repair did
 *   not come to its end:
 *
 *              FOLLOWING            WRITING                        BROKEN
 *   FOLLOWING  it goes elsewhere    it has begun an epoch          -
 *   WRITING    its epoch is over    it has begun another           a commit did not come to its end
 *   BROKEN     its epoch is over    it has begun another, and      -
 *                                   looked what is in the log
 *
 *   CLOSED was not opened, OPEN has the transaction, GONE cannot have it in this generation of a named
 *   database, OVER has lost commits that were acknowledged; nothing but a begin goes on from the last two:
 *
 *              CLOSED               OPEN                           GONE                    OVER
 *   CLOSED     the open fails       the open is done               amid an open            -
 *   OPEN       another open fails   it is opened again             it is not found there   they are lost
 *   GONE       an open fails        a begin has the newest one     it is not found again   they are lost
 *   OVER       another open fails   a begin, a take-over           a begin of a named one  more are lost
 *
 * Who only reads follows for ever, and what has no name is never GONE. */
enum standing { FOLLOWING, WRITING, BROKEN };
enum reading { CLOSED, OPEN, GONE, OVER };

/* Blocks: who is so far behind fetches its pages again. */
enum { FAR_BEHIND = 512 };

enum { MARK_PAGE = 0, MARK_BYTES = 40, NAME_PLACE = MARK_BYTES, GROUP = 64 };

/* The origin of an end mark: the seed of its session, the length of a text in a byte, and the text. */
enum {
    ORIGIN_PLACE = NAME_PLACE + 1 + PAGELOG_NAME_BYTES,
    SEED_BYTES = 16,
    ORIGIN_BYTES = SEED_BYTES + 1 + PAGELOG_IDENTITY_BYTES + PAGELOG_RUN_BYTES,
};

/* Of a reason with two names. */
enum { REASON_BYTES = 2 * PAGELOG_NAME_BYTES + 64 };

/* With each such commit that changes it, a page is written as a whole, so that no get replays many more
 * blocks. */
enum { IMAGE_EACH = 256 };

/* What page 0 says: numbers of 8 bytes, the high one first, after a magic one. */
struct mark {
    struct pagelog_position position;
    uint64_t size, session, transaction;
};

/* Blocks that were pulled and have no end mark after them yet, one after the other, each after its length. */
struct pending {
    uint8_t *bytes;
    size_t length, room;
};

/* An origin whose code is known, of others too, which come again and again where several write. */
enum { MOST_KNOWN = 16 };
struct known_origin {
    uint64_t session; /* the code of */
    size_t length;    /* the first so many bytes; 0: of none */
    uint8_t bytes[ORIGIN_BYTES];
};

/* Pages that will probably be read, as who uses the file says: those that a few others refer to, up to as
 * many as have room in memory, and are looked through at each page that is missing. */
enum { MOST_PARENTS = 512, MOST_EXPECTED = 16384 };
struct expected {
    uint32_t *pages;
    size_t count, room;
    uint32_t parents[MOST_PARENTS];
    size_t parent_count;
    bool is_over; /* there were more */
};

struct pagelog_file {
    struct pagelog *log;
    enum standing standing; /* these two change by steps alone */
    enum reading reading;
    struct source source;
    struct pagelog_file_options options;
    struct pagelog_cache *cache;
    struct pagelog_blocks *blocks;
    struct mark mark;      /* of the transaction that is read */
    unsigned on_their_way; /* commits that nobody waited for; their blocks are the first of `blocks` */
    struct mark settled;   /* of the last transaction before these */
    size_t looked;         /* how many blocks there were when their replies were looked for last */
    uint64_t sent;         /* when the last of them was sent */
    uint64_t tidied;       /* how many bytes had been sent when the service was asked to tidy up */
    uint64_t losses;       /* how often some of them were lost */
    const char *lost;      /* why, until a begin; NULL: nobody has waited for them */
    uint64_t given_up;     /* how often the transaction that is read could not be had any more */
    uint64_t session;      /* of the writer in this run, by a random seed: no other has it */
    uint8_t seed[SEED_BYTES];
    uint64_t told_session; /* whose origin page 0 has; 0: it is not known */
    struct known_origin known[MOST_KNOWN];
    unsigned next_known;           /* is written next, the oldest */
    char noted[PAGELOG_RUN_BYTES]; /* the last run whose mark is not explained; whether that was not said yet
                                    */
    bool has_note;
    struct pagelog_position torn; /* from it on transactions are not whole, until that is undone; 0: none */
    struct pagelog_position doubted; /* of a mark whose transaction's blocks are to be looked for; 0: none */
    bool is_stale, is_foreign, is_misnamed;
    char name[PAGELOG_NAME_BYTES + 1]; /* of the options; empty: any */
    bool has_name;        /* page 0 has that after the mark: its length in a byte, and its bytes */
    uint64_t size, least; /* of the transaction: the size, and the least that it was since the last commit */
    struct pagelog_position next; /* of a follower: where the next pull begins */
    struct pending pending;
    bool is_far;      /* so much was pulled without an end mark that it was not kept aside */
    uint64_t begun;   /* when the last begin was asked for */
    uint64_t checked; /* when the service last said that this is the newest, or that the epoch is not over;
                       * 0: it has not since then */
    struct expected expected;
    uint32_t run;      /* how many pages go with one that follows the last ones */
    uint32_t asked;    /* how many were asked for ahead last */
    uint32_t next_run; /* the page after them, or their place among those that are expected */
    bool is_by_place;
    uint32_t misses;             /* that came soon after one another */
    uint64_t fetched_at;         /* when the last wait for a page ended */
    uint64_t fetched_in;         /* how long all takes that was asked for with it; both in nanoseconds */
    enum pagelog_outcome failed; /* the last outcome of a call that the wire did not give, and why */
    const char *reason;
    char words[REASON_BYTES]; /* of a reason that is made of several */
    uint64_t commits, repairs, pages_fetched, pages_copied, blocks_written;
    void (*tell_sent)(void *argument); /* who is told that blocks were sent; NULL: nobody */
    void *told_sent;
};

/* Enters an outcome that the wire did not give, and returns it. */
enum pagelog_outcome pagelog_file_fail(struct pagelog_file *file, enum pagelog_outcome outcome,
                                       const char *reason);

/* A session that no end mark has yet, so that what has failed is never taken for what is made in its place.
 * False where the system has no random number. */
bool pagelog_begin_session(struct pagelog_file *file);

/* The same where the file goes to another run: its session there has the same seed. */
void pagelog_renew_session(struct pagelog_file *file);

/* Adds for which database and run the marks of this session are made. */
enum pagelog_outcome pagelog_add_origin(struct pagelog_file *file);

/* Whether page 0, 8,192 bytes, has the origin of this mark: an older client writes none. */
bool pagelog_has_origin(struct pagelog_file *file, const uint8_t *page, const struct mark *mark);

/* Looks whether the mark of page 0 may be there: MALFORMED where it was made for another database. One of a
 * run that does not explain it is noted. */
enum pagelog_outcome pagelog_check_origin(struct pagelog_file *file, const uint8_t *page,
                                          const struct mark *mark);

/* The same of what was pulled up to a mark. */
enum pagelog_outcome pagelog_check_pending(struct pagelog_file *file, const struct mark *mark);

/* Whether the log is known to go on from the end mark that this file has: another session of the epoch has
 * committed, and what it wrote was not read. */
bool pagelog_has_gone_on(const struct pagelog_file *file);

/* The epoch of a writer is over: it follows from now on. */
void pagelog_become_follower(struct pagelog_file *file);

/* Makes a step of the tables above; any other is none. */
void pagelog_stand(struct pagelog_file *file, enum standing to);
void pagelog_have(struct pagelog_file *file, enum reading to);

/* What every call but a begin returns where the file is OVER: CONFLICT; and where it is GONE: LOST. Else
 * DONE.
 */
enum pagelog_outcome pagelog_refuse_to_go_on(struct pagelog_file *file);
enum pagelog_outcome pagelog_refuse_gone(struct pagelog_file *file);

/* Whether this file is the writer, though a commit may not have come to its end. */
static inline bool is_writer(const struct pagelog_file *file) {
    return file->standing != FOLLOWING;
}

/* Whether the transaction that was read cannot be had here. */
static inline bool is_gone(const struct pagelog_file *file) {
    return file->reading == GONE || (file->reading == OVER && file->source.calls->is_gone_after_loss);
}

static inline enum pagelog_role role_of(const struct pagelog_file *file) {
    return is_writer(file) ? PAGELOG_PRIMARY : PAGELOG_SECONDARY;
}

/* How many pages a file of this size has; they are 1 to that. */
static inline uint32_t pages_of(uint64_t size) {
    return (uint32_t)((size + PAGELOG_PAGE_BYTES - 1) / PAGELOG_PAGE_BYTES);
}

/* ---- The log of the run that the file is in ----
 *
 * Here the LSNs of the wire become positions, and positions LSNs. */

static inline struct pagelog_position position_of(const struct pagelog_file *file, struct pagelog_lsn lsn) {
    return pagelog_position_in(file->source.shift, lsn);
}

/* 0 where it is before this run. */
static inline struct pagelog_lsn lsn_of(const struct pagelog_file *file, struct pagelog_position position) {
    return pagelog_lsn_in(file->source.shift, position);
}

/* Where the log ends, as far as is known; and as a status has said. */
static inline struct pagelog_position end_of(const struct pagelog_file *file) {
    return position_of(file, (struct pagelog_lsn){pagelog_end(file->log)});
}

static inline struct pagelog_position hard_of(const struct pagelog_file *file,
                                              const struct pagelog_reply *status) {
    return position_of(file, (struct pagelog_lsn){status->hard});
}

/* Of a block. */
static inline struct pagelog_position position_of_block(const struct pagelog_file *file,
                                                        const uint8_t *block) {
    return position_of(file, (struct pagelog_lsn){pagelog_read_number(block, 8)});
}

/* As pagelog_get, pagelog_pull and pagelog_blocks_restart. */
static inline enum pagelog_outcome get_at(struct pagelog_file *file, enum pagelog_role role,
                                          struct pagelog_position position, const uint32_t *pages,
                                          size_t count, uint8_t *out) {
    return pagelog_get(file->log, role, lsn_of(file, position).number, pages, count, out);
}

static inline enum pagelog_outcome pull_from(struct pagelog_file *file, struct pagelog_position from,
                                             unsigned max, struct pagelog_reply *pulled) {
    return pagelog_pull(file->log, lsn_of(file, from).number, max, pulled);
}

/* Where the next pull goes on; and where one may begin: not before the first block of the run. */
static inline struct pagelog_position next_in(const struct pagelog_file *file,
                                              const struct pagelog_reply *pulled) {
    return position_of(file, (struct pagelog_lsn){pulled->next});
}

static inline struct pagelog_position begin_of_pull(const struct pagelog_file *file,
                                                    struct pagelog_position from) {
    return is_none(lsn_of(file, from)) ? position_of(file, (struct pagelog_lsn){1}) : from;
}

static inline void restart_at(const struct pagelog_file *file, struct pagelog_blocks *blocks,
                              struct pagelog_position first) {
    pagelog_blocks_restart(blocks, lsn_of(file, first).number);
}

/* Reads page 0, 8,192 bytes: false where it is neither an end mark nor all zeros. */
bool pagelog_read_mark(const struct pagelog_file *file, const uint8_t *page, struct mark *mark);

/* Whether a block ends with an end mark of its own. */
bool pagelog_has_mark(const struct pagelog_file *file, const uint8_t *block, struct mark *mark);

/* Whether two marks are of the same transaction. */
bool pagelog_is_same_mark(const struct mark *one, const struct mark *other);

/* Pages that are wanted: `count` of them now, and `ahead` more that will probably be read. */
struct wanted {
    const uint32_t *pages;
    size_t count, ahead; /* ahead: 0 but where count is 1 */
};

/* Pages at a position, as the role that the file has. A writer that is fenced by it goes on as a secondary.
 * Those ahead come into the cache later. */
enum pagelog_outcome pagelog_fetch(struct pagelog_file *file, struct pagelog_position position,
                                   struct wanted wanted, uint8_t *out);

/* The same, in the generation that the file is in, and with nothing on its way. */
enum pagelog_outcome pagelog_fetch_here(struct pagelog_file *file, struct pagelog_position position,
                                        struct wanted wanted, uint8_t *out);

/* Fetches a page of the transaction that is read into the cache, and asks for others that will probably be
 * read next. */
enum pagelog_outcome pagelog_fetch_page(struct pagelog_file *file, uint32_t page);

/* Takes a page that was asked for ahead, as of pagelog_set_taker. */
void pagelog_take_page(void *argument, uint64_t lsn, uint32_t page, const uint8_t *bytes);

/* Whether page 0 has another name than the options. */
bool pagelog_is_misnamed(const struct pagelog_file *file, const uint8_t *page);

/* Notes that the database has another name, which page 0 says, and returns MALFORMED. */
enum pagelog_outcome pagelog_refuse_name(struct pagelog_file *file, const uint8_t *page);

/* Whether page 0 at a position has what no file has there. */
bool pagelog_is_foreign(const struct pagelog_file *file, const uint8_t *page,
                        struct pagelog_position position);

/* Notes that, and where the file was there last, if that is to be known, and returns MALFORMED. */
enum pagelog_outcome pagelog_refuse_foreign(struct pagelog_file *file, enum pagelog_role role,
                                            const uint8_t *page, struct pagelog_position position);

/* Takes the newest transaction at a position for the one that is read; what is in the cache stays only
 * where it is the same. */
enum pagelog_outcome pagelog_take_mark(struct pagelog_file *file, struct pagelog_position position);

/* Appends the blocks that were ended, and forgets them. */
enum pagelog_outcome pagelog_append_ended(struct pagelog_file *file);

/* The same in the run that the file is in; they are still there. */
enum pagelog_outcome pagelog_append_here(struct pagelog_file *file);

/* Appends full groups, so that the blocks of a long transaction need not all be in memory. The last group
 * waits for the end mark: nobody sees what is in the log without one. */
enum pagelog_outcome pagelog_append_full_group(struct pagelog_file *file);

/* Adds the end mark to the blocks that are being made, as the last record of the last of them. `*mark` is
 * given its position. */
enum pagelog_outcome pagelog_add_mark(struct pagelog_file *file, struct mark *mark);

/* Whether the blocks that were to be appended last are in the log up to this position, where that has their
 * end mark: DONE, or CONFLICT, where another session that has joined the epoch has its own in place of some.
 * By the pages, which every role may get. */
enum pagelog_outcome pagelog_find_blocks(struct pagelog_file *file, enum pagelog_role role,
                                         struct pagelog_position position);

/* Takes the newest whole transaction for the one that is read. */
enum pagelog_outcome pagelog_take_whole(struct pagelog_file *file);

/* The same as a writer, and undoes what is after it. */
enum pagelog_outcome pagelog_recover(struct pagelog_file *file);

/* Brings the file to the newest transaction of the run that it is in, as far as that is due. */
enum pagelog_outcome pagelog_refresh(struct pagelog_file *file);

/* Undoes what is in the log after the end mark, in a transaction of its own. */
enum pagelog_outcome pagelog_repair(struct pagelog_file *file);

/* Pulls what was committed since, and applies it to the pages in memory. */
enum pagelog_outcome pagelog_follow(struct pagelog_file *file);

/* Takes the blocks that were pulled from `next` on. */
enum pagelog_outcome pagelog_take_pulled(struct pagelog_file *file, const struct pagelog_reply *pulled);

#endif
