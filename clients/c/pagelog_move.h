/* A file of a named database, and the generation that it is in. The keepers say where it is
 * (pagelog_place.h); here is what a move leaves of a file.
 *
 *   - A file never goes to a lower generation than one that it has seen.
 *   - Who may write keeps its blocks, its tail, until they are durable, at most 16 MiB of them: then a commit
 * waits. A generation that lacks some gets them again, at their old positions, if nobody has written there.
 *   - A file that moves follows. It becomes the writer of an epoch when something has to be written: to send
 * again, or by pagelog_file_reserve.
 *   - What a commit has been told as failed is in no tail any more, and never comes back.
 */
#ifndef PAGELOG_MOVE_H
#define PAGELOG_MOVE_H

#include "pagelog_copies.h"
#include "pagelog_file_inside.h"
#include "pagelog_tail.h"

/* Where a file is, and whether the table there lists the principal: pagelog_named_steps.c has the steps. */
enum whereabouts { NOWHERE, ARRIVING, HERE, LEFT_BEHIND, OUT };
enum listing { UNHEARD, UNLISTED, LISTED };

/* Of a named database: where it is, and what it may lack there. */
enum { WHY_BYTES = 320 };

/* A wait goes on for a reply of the service; or for a time, while who waits may end it; or it was ended
 * because the generation is over. */
enum wait { FOR_A_REPLY, FOR_A_TIME, OVERTAKEN };

struct named {
    struct pagelog_keepers *keepers;
    struct pagelog_place place;
    enum whereabouts where; /* these two change by steps alone */
    enum listing listing;
    uint64_t refused; /* when the service of this run said first that it does not list the principal */
    uint8_t token[PAGELOG_TOKEN_BYTES],
        operator_token[PAGELOG_TOKEN_BYTES]; /* of the table; each run has others */
    struct pagelog_tail tail;        /* of who may write: the blocks that are not known to be durable */
    struct pagelog_place settled;    /* the generation whose log had all of these */
    struct pagelog_position told;    /* the blocks up to it were in its log, and may be sent again */
    struct pagelog_position own;     /* of the last commit of this file that was acknowledged */
    struct pagelog_position durable; /* all up to it is durable */
    uint64_t glanced;                /* when the keepers were asked last whether the generation goes on */
    uint64_t waited;                 /* the same, amid a wait for the service */
    uint64_t
        hurried; /* until when what a reader sees in the log is not asked for again, and the pause after */
    unsigned hurry_ms;
    bool (*goes_on)(void *argument); /* by whom waits are ended; NULL: by nobody */
    void *argument;
    enum wait wait;
    bool is_suspect;         /* keepers may have gone on without the run that is read: the next begin asks */
    uint32_t epoch, primary; /* the last one whose primary was asked for, and that */
    const char *dropped;     /* why the database is no more, and nothing goes on; NULL: it is there */
    struct pagelog_position shown; /* of the newest transaction that was read at a page server */
    struct pagelog_copies *copies; /* of a reader: the page servers that it asks for pages; NULL: none yet */
    uint8_t *copied;               /* room for the pages of one question to these; NULL: none yet */
    struct pagelog_held held;      /* and the transactions that it has read in this run: */
    char held_run[PAGELOG_RUN_BYTES];
    uint64_t listed;    /* when keepers were asked last which page servers there are */
    bool is_sent_again; /* blocks of the tail were sent in this move */
    bool is_doubted;    /* another process may have written since the last begin */
    uint32_t handed;    /* the epoch that the next begin goes on from as the writer; 0: it does not */
    uint64_t moves, resent;
    char why[WHY_BYTES]; /* a sentence on what was waited for in vain */
};

/* Makes a step of the tables of pagelog_named_steps.c; any other is none. */
void pagelog_go(struct pagelog_file *file, enum whereabouts to);
void pagelog_hear(struct pagelog_file *file, enum listing to);

/* Whether nothing is read or written where the file is, before a move has looked what is there of it. */
static inline bool is_between(const struct named *named) {
    return named->where == ARRIVING || named->where == OUT;
}

/* Whether PostgreSQL went on without the run that the file is in: another place is to be had. */
static inline bool is_superseded(const struct named *named) {
    return named->where == LEFT_BEHIND || named->where == OUT;
}

/* Notes whose epoch the newest one is; and whether that is the keeper's, which closes the generation. */
static inline void note_epoch(struct named *named, const struct pagelog_reply *status) {
    named->epoch = status->epoch;
    named->primary = status->primary;
}

static inline bool is_closing(const struct named *named) {
    return named->primary == PAGELOG_KEEPER && named->epoch > 1;
}

/* Whether the log of the run that the file is in had the whole tail. */
static inline bool is_settled_here(const struct named *named) {
    return strcmp(named->settled.run, named->place.run) == 0;
}

/* Whether a call that had this outcome may be asked again, once the file has moved. */
bool pagelog_may_move(const struct pagelog_file *file, enum pagelog_outcome outcome);

/* Begins an epoch for the blocks of a transaction that is under way; FENCED where the log has gone on from
 * what comes before them. */
enum pagelog_outcome pagelog_write_on(struct pagelog_file *file);

/* As pagelog_file_set_waiting. */
void pagelog_let_wait(struct pagelog_file *file, bool (*goes_on)(void *argument), void *argument);

/* A wait that was ended because the generation is over may be followed by others. */
void pagelog_wait_again(struct pagelog_file *file);

/* The sentence, and behind it what was wrong with TLS of a keeper or the service, or what is to be said
 * otherwise. It is valid until the next one. */
const char *pagelog_explain_wait(struct pagelog_file *file, const char *sentence, const char *otherwise);

/* Whether who waits for a generation, or for what becomes durable, goes on with it. */
bool pagelog_may_pause(struct pagelog_file *file);

/* After a call that was not DONE: goes to where the database is now, which may be where it was, as soon as it
 * can be used there, for `move_ms` at most.
 *
 * DONE: the log there has all blocks of the tail. The transaction that is read is there too, at the same
 * position, or `is_gone` says that it is not: then nothing but a begin, which takes the newest one, goes on.
 * LOST: no place was found. Nothing was decided, and a later call may find one. IN_DOUBT: the same, but a
 * commit that is not acknowledged yet was sent again.
 * FENCED: another writer has gone on where a block of the tail was to be. What was not acknowledged is
 * forgotten, and never will be in the database. Where commits that were acknowledged are gone, `is_over` says
 * so, as of a loss. IN_DOUBT: the same, but what became of them cannot be learned: the service has only
 * images of that time. DENIED: the keepers know of no such database, or the principal may not read as a
 * secondary. NO_MEMORY, AUDIT_FULL, MALFORMED: as of an append, of what was to be sent again. */
enum pagelog_outcome pagelog_move(struct pagelog_file *file, enum pagelog_outcome cause);

/* Ends a move that did not come to its end, before anything is read or written in the generation that it has
 * come to. */
enum pagelog_outcome pagelog_arrive(struct pagelog_file *file);

/* As pagelog_move, where the keepers have said that the generation which the file is in is over. */
enum pagelog_outcome pagelog_move_on(struct pagelog_file *file);

/* Whether a reader goes to a page server in place of the service of this place: it is to ask no other, or
 * what it reads is from before the base there. */
bool pagelog_wants_page_server(const struct pagelog_file *file, const struct pagelog_place *place);

/* The page servers that have what the file reads, but for the one that it is at, as places beside the one of
 * the service. */
size_t pagelog_page_server_places(struct pagelog_file *file, const struct pagelog_place *service,
                                  struct pagelog_place found[PAGELOG_MOST_PAGE_SERVERS]);

/* At the begin of a transaction of a file that is at a page server: whether it may stay there. It leaves one
 * that no keeper calls alive. DONE, or as of a move. */
enum pagelog_outcome pagelog_look_at_page_server(struct pagelog_file *file);

/* The same as pagelog_file_reach, of one that is at a page server. */
enum pagelog_outcome pagelog_reach_at_page_server(struct pagelog_file *file,
                                                  struct pagelog_position position);

/* Pages, PAGELOG_COPY_PAGES at most, as the transaction that is read has them, of a page server: the file's
 * until the next call. NULL where none has them and answers soon, or none is to be asked: the service has
 * them then. */
const uint8_t *pagelog_fetch_copied(struct pagelog_file *file, const uint32_t *pages, size_t count);

/* A follower has pulled all blocks up to this mark since the transaction that is read, and goes on to it. */
void pagelog_hold_transaction(struct pagelog_file *file, const struct mark *mark);

/* The transaction that was read cannot be had any more. */
void pagelog_give_up_transaction(struct pagelog_file *file);

/* What has become durable in the generation that had the whole tail last, which is over. The keeper of the
 * one that the file is in is asked first: that lives, and has writers wait while it is asked. LOST: nobody
 * can say it now. */
enum pagelog_outcome pagelog_learn_end(struct pagelog_file *file);

/* Sees to it that the log has the whole tail. */
enum pagelog_outcome pagelog_settle_tail(struct pagelog_file *file, const struct pagelog_reply *status);

/* Looks whether the log, which ends there, has the transaction that is read, at the same position. */
enum pagelog_outcome pagelog_find_transaction(struct pagelog_file *file, struct pagelog_position hard);

/* Takes the blocks that were ended into the tail. Where that is full it waits until a part is durable; LOST
 * where that cannot be had. After any outcome but DONE they are not in the tail, and must not be sent. */
enum pagelog_outcome pagelog_hold_blocks(struct pagelog_file *file);

/* Takes blocks of other writers that were pulled from a position on: this file may be the one that is left to
 * send them again. */
void pagelog_hold_pulled(struct pagelog_file *file, struct pagelog_position from,
                         const struct pagelog_reply *pulled);

/* After an append of the blocks that are held: moves where it was not DONE. DONE: they are in the log, and
 * acknowledged. Any other outcome: they are in the tail no more. */
enum pagelog_outcome pagelog_end_append(struct pagelog_file *file, enum pagelog_outcome outcome);

/* Goes on from what the keepers have said of a position: DONE, or as of a move. */
enum pagelog_outcome pagelog_note_fate(struct pagelog_file *file, const struct pagelog_place *place,
                                       const struct pagelog_fate *fate, struct pagelog_position position);

/* A run is lost, or the database with it: what was not durable of it is told as a loss, and sent again by
 * nobody. Where the database is no more nothing goes on with the file. */
enum pagelog_outcome pagelog_lose_run(struct pagelog_file *file, const struct pagelog_place *place,
                                      enum pagelog_loss loss);

/* Whether the last reply said that the table lists no such principal with this token, and that as a reason.
 */
bool pagelog_is_unknown_principal(const struct pagelog_file *file);
enum pagelog_outcome pagelog_refuse_token(struct pagelog_file *file, const char *who, uint32_t id);

/* The keepers have denied the place. */
enum pagelog_outcome pagelog_take_denial(struct pagelog_file *file);

/* Once a second, while something is not known to be durable: whether the generation goes on. A writer that
 * asks nobody would go on with the service of a keeper which is cut off. DONE, or as of a move. */
enum pagelog_outcome pagelog_glance(struct pagelog_file *file);

#endif
