/* SPDX-License-Identifier: MIT OR Apache-2.0 */
/* A file of bytes with transactions, kept in a database of the service. It knows the wire, and nothing of
 * who uses it.
 *
 * Page 0 of the database is the end mark: the LSN of the last transaction's last block, the size of the file,
 * and who wrote it. Page n has the bytes from (n - 1) * 8,192 on. A transaction is a list of blocks, the last
 * of which has the end mark as its last record. Who reads takes the end mark at the end of the log, and then
 * every page at the LSN in that mark. So blocks after this LSN, of a transaction that is on its way or was
 * cut off, are not seen.
 *
 * A file is used by one thread at a time.
 *
 * Whatever a peer says, a begin pulls 544 blocks at most and keeps 8 MiB of them; a repair pulls 65,536 and
 * keeps a list of 2^20 pages, or compares each page of the file once; a writer passes over 1,024 end marks of
 * a commit that is not whole, and is MALFORMED then, as is a mark with a file that no log of its length has.
 */
#ifndef PAGELOG_FILE_H
#define PAGELOG_FILE_H

#include "pagelog.h"

#ifdef __cplusplus
extern "C" {
#endif

enum { PAGELOG_NAME_BYTES = 255 }; /* of a database's name, at most */

/* The most bytes that a file may have: pages 1 to 2^32 - 1. */
#define PAGELOG_FILE_MOST ((UINT64_C(4294967295)) * PAGELOG_PAGE_BYTES)

struct pagelog_file;

/* Of a named database, in pagelog_place.h. */
struct pagelog_awaited;
struct pagelog_keepers;
struct pagelog_place;

/* Whether a reader goes to page servers: for pages, as long as one has them and answers soon, and else to the
 * service, which says what is newest; for positions alone that the service does not have any more; never; or
 * alone, and then all that it reads is durable. */
enum pagelog_pages {
    PAGELOG_PAGES_PREFERRED,
    PAGELOG_PAGES_FOR_OLDER,
    PAGELOG_PAGES_NEVER,
    PAGELOG_PAGES_ONLY
};

struct pagelog_file_options {
    struct pagelog_options service;
    bool reads_only; /* a secondary: it follows what others commit */
    /* A writer begins an epoch of its own in this operator's name, and has the service tidy up in it. */
    bool has_operator;
    uint32_t operator_principal;
    uint8_t operator_token[PAGELOG_TOKEN_BYTES];
    unsigned written; /* to how many copies each block is written; 0: as many as the quorum */
    /* How many commits of a writer may be on their way while nobody waits for them, 64 at most; 0: each one
     * waits. See pagelog_file_commit. */
    unsigned unwaited;
    unsigned
        check_ms; /* how old may be what a transaction begins with: the newest end that a reader knows, the
                   * proof that a writer's epoch is not over. 0: each transaction asks, one round trip */
    size_t cache_pages; /* unchanged pages that are kept in memory, 8,192 bytes each; 0: 4,096 */
    uint64_t at; /* a reader of the newest transaction that ended at this LSN or before; 0: it follows */
    bool may_be_stale; /* a reader that gets no answer when it begins goes on with what it has */
    /* Of the database, copied; NULL: any. The first commit of a writer that has a name gives it to a database
     * that has none, and from then on it is opened by that name alone. */
    const char *name;
    /* Of a named database: its keepers, "HOST:PORT,HOST:PORT", and the name that they know it by. Both are
     * copied; NULL: the service has the address of `service`. Positions take the place of LSNs in `at`. A
     * writer needs an operator, and its principal has to be allowed to act as a secondary. */
    const char *keepers, *database_name;
    unsigned move_ms;         /* how long a call waits for a generation that it can go on in; 0: 30,000 */
    bool durable_only;        /* a reader of a named database sees nothing that could still be lost */
    enum pagelog_pages pages; /* whether such a reader goes to its page servers */
};

struct pagelog_file_state {
    bool is_writer; /* it may commit */
    bool is_fenced; /* it was a writer; now it follows, if its principal may be a secondary */
    bool
        is_broken; /* a commit did not come to its end; the next begin takes an epoch of its own, and looks */
    bool is_stale; /* the last begin got no answer */
    bool is_restarted; /* the service was restarted, and all is gone */
    bool is_foreign;   /* page 0 has something that is no end mark */
    bool is_misnamed;  /* the database has another name */
    bool is_over;      /* commits that were not waited for were lost: nothing but a begin goes on from here */
    bool is_named, is_gone; /* of a named database; what was read is not in this generation, until a begin */
    bool is_dropped;        /* the database that was opened is no more */
    uint64_t generation, position, durable; /* of such a one: where `lsn` is in all generations, and up to
                                             * where it is known to be durable */
    uint64_t committed;     /* the position of the last commit of this file that is not lost */
    uint64_t moves, resent; /* into other generations; blocks that were sent again there */
    uint64_t lsn;           /* of the transaction that is read: the LSN of its last block; 0: none yet */
    uint64_t end;           /* of the log, as far as is known */
    uint64_t size;          /* bytes, as committed at `lsn` */
    uint64_t transaction;   /* the number of the transaction at `lsn`, from 1 */
    uint32_t epoch, writing_epoch;
    struct pagelog_zone zone;
    size_t cached_pages;
    unsigned check_ms, spin_us, unwaited;
    uint64_t on_their_way; /* commits that nobody waited for, and whose replies are not known yet */
    uint64_t losses;       /* how often such commits were lost */
    uint64_t commits, repairs, pages_fetched, blocks_written;
    uint64_t pages_copied; /* of those that were fetched: at page servers beside the one that it is at */
    struct pagelog_counts wire;
};

/* A file that is not open yet; NULL where memory runs out, or where no table can have the landing zone of
 * `service`. */
struct pagelog_file *pagelog_file_new(const struct pagelog_file_options *options);

/* Frees it. A transaction that was not committed is undone: nothing of it has been sent. Commits on their way
 * may be lost. */
void pagelog_file_free(struct pagelog_file *file);

/* The generation that a named database is in; 0 before the first one. */
uint64_t pagelog_file_generation(const struct pagelog_file *file);

/* Whether the keepers know of a later generation than the one that the file is in: asked once a second. */
bool pagelog_file_is_overtaken(struct pagelog_file *file);

/* As pagelog_set_waiting. */
void pagelog_file_set_waiting(struct pagelog_file *file, bool (*goes_on)(void *argument), void *argument);

/* Opens a connection, if there is none, and writes the address that it leads to, as pagelog_connect and
 * pagelog_peer. Of a named database, which has none for good, it does nothing, and writes nothing. */
enum pagelog_outcome pagelog_file_connect(struct pagelog_file *file, char *peer, size_t room);

/* For a child of fork(), which does not use the file: closes its descriptor, by which nothing is sent. It may
 * be called while another thread of the parent was using it. */
void pagelog_file_abandon(struct pagelog_file *file);

/* Connects, and learns the newest transaction. A writer begins its epoch and undoes, in a transaction of its
 * own, what a writer before it left without an end mark. MALFORMED: page 0 has something that is no end mark,
 * or the name of the database is another one. A writer with an operator that is fenced meanwhile follows. A
 * writer that may be a secondary learns the latter before it begins an epoch.
 */
enum pagelog_outcome pagelog_file_open(struct pagelog_file *file);

/* Pages of a transaction that a file has read, and another of the same database may read on. */
struct pagelog_kept;

/* Takes those out of a file that is freed next, at most so many, those used last; NULL where there are none,
 * or what it read may not be in the database. */
struct pagelog_kept *pagelog_file_keep(struct pagelog_file *file, size_t most);
size_t pagelog_kept_count(const struct pagelog_kept *kept);
void pagelog_kept_free(struct pagelog_kept *kept);

/* After an open: goes on with them, where their transaction is the newest; or, a reader that follows, where
 * the log has it: then the next begin asks what came after. Else they are forgotten. Frees `kept`. */
void pagelog_file_adopt(struct pagelog_file *file, struct pagelog_kept *kept);

/* Makes an open file, which was fenced, the writer of an epoch of its own again, in the name of this
 * operator, and goes on from what was committed meanwhile. What was changed and not committed is undone.
 * After any outcome but DONE it follows. */
enum pagelog_outcome pagelog_file_take_over(struct pagelog_file *file, uint32_t operator_principal,
                                            const uint8_t operator_token[PAGELOG_TOKEN_BYTES]);

/* Begins a transaction: what is read is what was committed last, until the next begin. A writer whose epoch
 * is over follows from now on as a reader, and is not FENCED here but at its commit. FENCED: the service was
 * restarted. */
enum pagelog_outcome pagelog_file_begin(struct pagelog_file *file);

/* Bytes of the file as the transaction has it; `*count` of them are in the file, and the others zeros. */
enum pagelog_outcome pagelog_file_read(struct pagelog_file *file, uint64_t offset, void *bytes, size_t length,
                                       size_t *count);

/* For who knows what is in the file: a page, from 1 on, refers to others, which will probably be read in this
 * order or in any other. Where pages are missing some of these are asked for before they are read. */
void pagelog_file_expect(struct pagelog_file *file, uint32_t parent, const uint32_t *pages, size_t count);

/* Whether that was said of a page, and would be of no use again. */
bool pagelog_file_expects(const struct pagelog_file *file, uint32_t parent);

/* Replaces bytes, and makes the file longer where they go past its end. Nothing is sent. MALFORMED: past the
 * most bytes that a file may have. */
enum pagelog_outcome pagelog_file_write(struct pagelog_file *file, uint64_t offset, const void *bytes,
                                        size_t length);

/* Makes the file shorter, or longer by zeros. */
enum pagelog_outcome pagelog_file_resize(struct pagelog_file *file, uint64_t size);

/* The size as the transaction has it. */
uint64_t pagelog_file_size(const struct pagelog_file *file);

/* Makes the changes since the last commit a transaction. Nothing is sent where nothing differs: then it is
 * DONE for a reader too. FENCED where a reader has changes; CONFLICT where there was no begin since a commit
 * that was not DONE, or that another writer has gone on from, or where the last begin could not read what is
 * there.
 *
 * DONE: it is in the log. IN_DOUBT: it may be; the next begin looks. Any other outcome: it is not in the log
 * and never will be. After any outcome but DONE the changes are still there, until pagelog_file_undo.
 *
 * Once 256 KiB were sent since the last time, a commit that was waited for is followed by pagelog_tidy_up.
 *
 * Where `unwaited` is not 0, DONE may say only that it was sent, with a report: it comes into the log after
 * those before it, as a whole or not at all. If it does not, another call has that outcome in place of its
 * own: the first begin after the refusal has come or the connection has ended, a read or a commit that has to
 * ask the service, or pagelog_file_settle. Then some of the commits that were on their way are not in the
 * log, or may not be. The file is as it was before them, `is_over` says so, and every call is CONFLICT until
 * a begin, which reports what the log has got. */
enum pagelog_outcome pagelog_file_commit(struct pagelog_file *file);

/* Who is told that a commit was sent, with its report, and before the reply is there; NULL: nobody. It calls
 * nothing that changes the file. */
void pagelog_file_set_sent(struct pagelog_file *file, void (*sent)(void *argument), void *argument);

/* Of a named database: makes the file the writer of an epoch, if it is not, so that what is committed next
 * can only follow what was read. DONE: it may commit; for any other database always. FENCED: another writer
 * has gone on since the begin. Else as of a begin. A commit does so by itself. */
enum pagelog_outcome pagelog_file_reserve(struct pagelog_file *file);

/* Of a named database: another process may have written since the last begin, so that the next begin and the
 * next reserve ask. */
void pagelog_file_doubt(struct pagelog_file *file);

/* Of a named database: this file has the turn to write, and the last epoch that was written in is this one of
 * that generation, as somebody says. So the next begin makes it the writer of an epoch after that, and reads
 * what was written, in one round trip. 0: it is not known. */
void pagelog_file_hand_over(struct pagelog_file *file, uint32_t epoch, uint64_t generation);

/* Of a named database: keepers may have gone on without the run that is read, so that the next begin asks. */
void pagelog_file_suspect(struct pagelog_file *file);

/* The same of who is to write where the keepers know of a later generation. FENCED, DENIED: PostgreSQL went
 * back, or the database is another one, and what this file has committed is lost; the next begin goes on
 * without it. */
enum pagelog_outcome pagelog_file_leave(struct pagelog_file *file);

/* Of a named database, of which the keepers know a later generation: goes there. What is read stays what it
 * is, or `is_gone` says that it is not there. Else as of a begin. */
enum pagelog_outcome pagelog_file_move_on(struct pagelog_file *file);

/* Of a named database: it has so many page servers, as keepers have said. */
void pagelog_file_hear_of_page_servers(struct pagelog_file *file, unsigned count);

/* Of a reader of what is durable: waits until this position is known to be, so that the next begin reads what
 * another file has read before. LOST: no keeper has said it in time. Else as of a begin. */
enum pagelog_outcome pagelog_file_reach(struct pagelog_file *file, uint64_t position);

/* Where a named database is, as far as is known; NULL before it was opened. */
const struct pagelog_place *pagelog_file_place(const struct pagelog_file *file);

/* Has keepers that others ask prove the token of this file, which is of a named database. */
void pagelog_file_lend_token(const struct pagelog_file *file, struct pagelog_keepers *keepers);

/* Whether a position is known to be durable; else who is to be asked. */
bool pagelog_file_is_durable(const struct pagelog_file *file, struct pagelog_awaited *awaited);

/* Of a wait: who is asked, and by whom others may be let in to use the file amid each question, and go out
 * again before its answer is taken; NULL: by nobody. */
struct pagelog_asking {
    struct pagelog_keepers *keepers;
    void (*let_in)(void *argument);
    void (*go_on)(void *argument);
    void *argument;
};

/* Waits until a position of this file's own is durable, for `move_ms` at most. LOST: no keeper has said it in
 * time, or who waits has ended the wait. CONFLICT: it is not in the database, and never will be. Else as of a
 * begin that finds commits lost. */
enum pagelog_outcome pagelog_file_await(struct pagelog_file *file, uint64_t position,
                                        const struct pagelog_asking *asking);

/* Until when a call that begins now waits, in milliseconds of pagelog's clock; and whether it waits on: it
 * sleeps then, longer each time. */
struct pagelog_file_patience {
    uint64_t until;
    unsigned wait_ms;
};
struct pagelog_file_patience pagelog_file_patience(const struct pagelog_file *file);
bool pagelog_file_may_wait(struct pagelog_file *file, struct pagelog_file_patience *patience);

/* Waits until what was committed is in the log. Any outcome but DONE: as above. */
enum pagelog_outcome pagelog_file_settle(struct pagelog_file *file);

/* Forgets all changes since the last commit. */
void pagelog_file_undo(struct pagelog_file *file);

/* As pagelog_has_entry and pagelog_count_entries, in the name of the file's operator; DENIED where it has
 * none. Commits that nobody waited for are waited for. */
enum pagelog_outcome pagelog_file_has_entry(struct pagelog_file *file, uint64_t number, bool *has);
enum pagelog_outcome pagelog_file_count_entries(struct pagelog_file *file, uint64_t *count);

/* The reply that caused the last outcome that was not DONE, as pagelog_refused. */
const struct pagelog_reply *pagelog_file_refused(const struct pagelog_file *file);

/* Whether a commit is allowed, as far as is known: it is a writer's, and the one before came to its end. */
bool pagelog_file_may_commit(const struct pagelog_file *file);

/* Of a named database: for which database and run the transaction that is read was made, as DATABASE/RUN;
 * empty where it does not say, as of an older client's, and of any other database. */
enum pagelog_outcome pagelog_file_origin(struct pagelog_file *file, char *text, size_t room);

/* What is to be said, once, of a transaction whose run does not explain why it is there. */
bool pagelog_file_take_note(struct pagelog_file *file, char *text, size_t room);

/* Whether it is a named database's. */
bool pagelog_file_is_named(const struct pagelog_file *file);

/* Whether who opens the database from now on finds another one: it was dropped, or its service, which was
 * restarted, has lost it. */
bool pagelog_file_is_no_more(const struct pagelog_file *file);

/* Whether who is FENCED begins again, and may write then, as of a named database. */
bool pagelog_file_begins_again(const struct pagelog_file *file);

/* Rises where what was read may be another by now, at the same LSN: so a cache of it is old. */
uint64_t pagelog_file_history(const struct pagelog_file *file);

/* As `losses` and `lsn` of the state. */
uint64_t pagelog_file_losses(const struct pagelog_file *file);
uint64_t pagelog_file_lsn(const struct pagelog_file *file);

/* Changes `check_ms`, `unwaited`, and `spin_us` of the service's options. */
void pagelog_file_set_check(struct pagelog_file *file, unsigned check_ms);
void pagelog_file_set_unwaited(struct pagelog_file *file, unsigned unwaited);
void pagelog_file_set_spin(struct pagelog_file *file, unsigned spin_us);

struct pagelog_file_state pagelog_file_state_of(const struct pagelog_file *file);

/* A sentence on the last outcome that was not DONE, as pagelog_explain. */
void pagelog_file_explain(const struct pagelog_file *file, char *text, size_t room);

#ifdef __cplusplus
}
#endif
#endif
