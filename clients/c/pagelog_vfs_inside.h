/* What the files of the VFS share, and no caller sees. pagelog_vfs.c opens files and registers the VFS. The
 * functions are under the names of the other files. */
#ifndef PAGELOG_VFS_INSIDE_H
#define PAGELOG_VFS_INSIDE_H

#include "pagelog_file.h"
#include "pagelog_place.h"
#include "pagelog_turn.h"

#include <pthread.h>

#ifdef PAGELOG_STATIC
#include <sqlite3.h>
#else
#include <sqlite3ext.h>
SQLITE_EXTENSION_INIT3
#endif

enum {
    SECTOR_BYTES = 8192,
    LEAST_SECTOR_BYTES = 512,
    VALUE_BYTES = 256,                          /* of a setting */
    ERROR_BYTES = 2 * PAGELOG_NAME_BYTES + 128, /* with two names */
    SENTENCE_BYTES = ERROR_BYTES + 32,
};

/* The audit list is full, by which SQLite's extended code differs from a service without memory. */
enum { FULL_LIST = SQLITE_FULL | 1 << 8 };

/* A journal in memory is written in order, and never longer than what it has. */
enum { CHARACTERISTICS = SQLITE_IOCAP_SEQUENTIAL | SQLITE_IOCAP_SAFE_APPEND };

/* A database, as the connections of this process share it. A reader has one of its own. */
struct database {
    struct database *next;
    unsigned references;
    char *key, *address,
        *name; /* who writes to which database; the service, and the database, as the URI has them */
    char peer[VALUE_BYTES]; /* the address that this service was found at */
    sqlite3_mutex *mutex;
    struct pagelog_file *file;
    bool is_open;
    unsigned sharing;            /* connections with a lock, SQLITE_LOCK_SHARED or above */
    struct connection *reserved; /* the one with SQLITE_LOCK_RESERVED or above, or NULL */
    bool is_pending;             /* it waits for the others to go, or has gone on to SQLITE_LOCK_EXCLUSIVE */
    bool is_take_over_wanted;    /* by who has opened it, or by a pragma, while others read */
    bool has_operator;           /* in whose name it is taken over */
    uint32_t operator_principal;
    uint8_t operator_token[PAGELOG_TOKEN_BYTES];
    bool is_inherited;       /* this process is a child of the one that has opened it */
    struct pagelog_tls *tls; /* NULL: none */
    char *kept_name; /* its keepers, which are at `address` then, know it by that; empty: it has none */
    struct pagelog_turn turn;   /* to write, among processes */
    pthread_mutex_t turn_guard; /* of what the heartbeat's thread changes of it */
    struct database *next_heartbeat;
    bool has_heartbeat;
    struct connection *turn_of;       /* who has it, or waits for it; NULL: nobody */
    unsigned turn_writes;             /* in the transaction that has it */
    uint64_t wrote_in;                /* the generation in which it was the writer last; 0: in none */
    unsigned contended;               /* turns to come that are asked for before a begin, as others write */
    struct connection *first_waiting; /* of this process, for the write lock, in the order of asking */
    unsigned
        durable_waits;   /* commits that are in the log, and wait until they are durable; others may read */
    bool is_loss_untold; /* the file has lost commits, and no statement has told it */
    bool is_durable_only,
        follows_holder;       /* reads what is durable alone; asks whether its run is superseded */
    struct holder_poll *poll; /* NULL: none yet */
    uint64_t polled;          /* the last round of it that was heard */
    uint64_t entries;         /* that the audit list may have */
    size_t most_kept;         /* pages that stay in this process after the close */
    bool shows_errors;        /* on standard error */
    uint64_t looked;          /* requests of this file when it was last looked how full that is */
    unsigned char *room;      /* of the last journal, for the next one; NULL: none */
    sqlite3_int64 room_bytes;
    char error[ERROR_BYTES];
};

/* Whether it has keepers: they archive it, give turns to its writers, and see to its audit list. */
static inline bool has_keepers(const struct database *database) {
    return *database->kept_name != 0;
}

/* What became of the last commit, or end of a rollback, since the lock was taken:
 *
 *   PENDING      there was none, or something was written after it
 *   COMMITTED    it was done
 *   REFUSED      it was not; the next one is of SQLite's rollback
 *   IN_DOUBT     it is in the log, and could not be told to be durable. SQLite rolls back then: what it
 * writes for that is dropped, so that the COMMIT stays in doubt, and is not undone by another one ROLLED_BACK
 * that rollback has ended
 *
 * The first three follow one another in any order, but that what is refused stays so where SQLite writes;
 * after them come the others, in this order; and once the lock is lowered it is the first again. */
enum last { PENDING, COMMITTED, REFUSED, IN_DOUBT, ROLLED_BACK };

/* Of `PRAGMA synchronous`. */
enum { SYNCHRONOUS_OFF, SYNCHRONOUS_NORMAL, SYNCHRONOUS_FULL, SYNCHRONOUS_EXTRA };

struct connection {
    sqlite3_file base;
    struct connection *next;
    const char *journal; /* its name, where SQLite keeps it */
    struct database *database;
    int lock;
    /* Of the file, as SQLite's own cache has it: the history, and the transaction. */
    uint64_t history, lsn;
    bool is_sized;  /* SQLite has asked for the size of a sector */
    enum last last; /* changes by pagelog_end_with alone */
    /* SQLite's busy handler of the connection, with its argument, and the connection of SQLite's. */
    int (*busy)(void *);
    void *busy_argument;
    sqlite3 **sqlite;
    bool has_waited; /* the handler has let the present call wait */
    /* Of a named database: who is asked what is durable, while others use the file. */
    struct pagelog_keepers *keepers;
    bool wants_turn; /* it was refused the turn: the next begin waits for it */
    bool wants_lock; /* another of this process had the write lock: the next begin waits in line */
    struct connection *next_waiting;
    int woken; /* an event that ends its sleep once it is the next one; -1: it has never waited */
    uint64_t
        committed; /* position: of its last commit that was not waited for until it is durable; 0: none */
    /* What was set by `PRAGMA synchronous`, `locking_mode` and `journal_mode`. */
    int synchronous;
    bool is_exclusive;
    bool is_of_several; /* the last commit is to several databases: SQLite gives the name of their
                           super-journal */
    const char *journal_mode;
    /* The last code of a call that failed, and why, where that is known; and both as one message. */
    int failed;
    char sentence[SENTENCE_BYTES], message[2 * SENTENCE_BYTES];
};

/* A journal, or the super-journal of several databases, which has the names of their journals. */
struct memory {
    sqlite3_file base;
    struct database *database; /* whose journal it is, or the first one of several; NULL: not known */
    bool is_super;
    unsigned char *bytes;
    sqlite3_int64 size, room;
};

/* For what is not kept in the service: temporary files, time, random numbers. */
extern sqlite3_vfs *pagelog_real_vfs;

/* Whether a connection lets a wait for the service go on: its busy handler ends it, or sqlite3_interrupt. */
bool pagelog_connection_waits_on(void *connection);

/* ---- pagelog_vfs_errors.c: around each call of a connection's ---- */

void pagelog_begin_call(struct connection *connection);
int pagelog_end_call(int code);

/* The database of a connection, whose mutex is taken until `leave`, which returns the code that it is given.
 * What waits for the service meanwhile waits for this connection. */
static inline struct database *enter(sqlite3_file *file) {
    struct connection *connection = (struct connection *)file;
    struct database *database = connection->database;
    sqlite3_mutex_enter(database->mutex);
    pagelog_begin_call(connection);
    connection->has_waited = false;
    pagelog_file_set_waiting(database->file, pagelog_connection_waits_on, connection);
    return database;
}

static inline int leave(struct database *database, int code) {
    sqlite3_mutex_leave(database->mutex);
    return pagelog_end_call(code);
}

/* ---- pagelog_vfs_settings.c ---- */

enum { MOST_MS = 3600000, MOST_SPIN_US = 1000000 };

/* Reads a number of at most `most`; false where the text is none. */
bool pagelog_read_number_of(const char *text, uint64_t most, uint64_t *number);

/* What the settings say beside the options, and what those point to. */
struct settings {
    char address[VALUE_BYTES],
        name[VALUE_BYTES];               /* of the service; or the keepers, and the name that they know */
    uint64_t entries;                    /* that the audit list may have */
    size_t most_kept;                    /* pages that stay in this process after the close */
    bool shows_errors;                   /* on standard error */
    char why[VALUE_BYTES + ERROR_BYTES]; /* what is wrong with a setting, where its name does not say all */
};

/* A setting: of the URI, of the file of credentials, or of the environment. One that is too long is none that
 * can be read. `*rank` says which of them has it: the nearest has the lowest. */
bool pagelog_find_setting(sqlite3_filename uri, const char *name, char value[VALUE_BYTES], int *rank);

/* Whether others may read the file that `credentials` names: then nothing is read of it. */
bool pagelog_has_shared_credentials(sqlite3_filename uri);

/* ---- pagelog_vfs_tls.c ---- */

/* Reads sslmode, sslrootcert, sslcert and sslkey. The name of the one that is wrong, and why where that says
 * more, or NULL; `*tls` is NULL then where none of them asks for TLS, and else the process's own. */
const char *pagelog_read_tls(sqlite3_filename uri, struct pagelog_tls **tls, char *why, size_t room);

/* In a child of fork(), which makes its own. */
void pagelog_forget_tls(void);

/* Reads all settings; the name of the first one that is missing, has no meaning, or cannot be read, or NULL.
 */
const char *pagelog_read_settings(sqlite3_filename uri, struct pagelog_file_options *options,
                                  struct settings *settings);

/* Whether errors are shown on standard error. */
bool pagelog_reads_shown(sqlite3_filename uri);

/* A number of microseconds, as the wire has it. */
unsigned pagelog_spin_of(uint64_t us);

/* ---- pagelog_vfs_database.c: databases, and the list of connections ---- */

/* SQLite's code for an outcome, which is noted for PRAGMA pagelog_error and written to SQLite's log. */
int pagelog_result(struct database *database, enum pagelog_outcome outcome);

/* As pagelog_result, of a call that has promised nothing: what is in doubt there is no commit of the
 * caller's. */
int pagelog_result_of_begin(struct database *database, enum pagelog_outcome outcome);

/* Looks at times whether the audit list is full soon, and warns of it in SQLite's log. */
void pagelog_warn_of_full_list(struct database *database);

/* Takes over again where that is wanted, and no connection reads what is there now. */
int pagelog_take_over_if_wanted(struct database *database);

/* Has each connection of a connection of SQLite's looked at, until one is found; NULL: none is. */
const char *pagelog_find_message(sqlite3 *db,
                                 const char *(*look)(struct connection *connection, const char *message),
                                 const char *message);

/* The database of these options, open, with one reference more. One that was fenced is taken over again where
 * the options have an operator. */
int pagelog_find_or_open(const struct pagelog_file_options *options, const struct settings *settings,
                         struct database **found);

/* Gives a reference back; the last one frees the database. */
void pagelog_release(struct database *database);

void pagelog_list_connection(struct connection *connection, sqlite3_filename name);
void pagelog_unlist_connection(struct connection *connection);

/* Has a child of fork() begin with no databases: what it inherits is closed and refused. */
int pagelog_watch_forks(void);

/* The database whose journal's name SQLite keeps here; NULL: it is none of ours, whatever the name. */
struct database *pagelog_database_of_name(const void *name);

/* ---- pagelog_vfs_kept.c: pages of databases that were closed ---- */

/* In all of a process: 32 MiB. */
enum { MOST_KEPT_PAGES = 4096 };

/* Before a database is freed: keeps its pages. */
void pagelog_keep_pages(struct database *database);

/* After it was opened: goes on with such pages, where there are any of it. */
void pagelog_take_kept_pages(struct database *database);

/* ---- pagelog_vfs_file.c: a connection ---- */

/* A call of whose error SQLite does not hear. Where it loses commits the next statement tells it. */
void pagelog_call_untold(struct database *database, enum pagelog_outcome (*call)(struct pagelog_file *file));

/* The last commit of a connection has become that. */
void pagelog_end_with(struct connection *connection, enum last last);

/* Makes a file of SQLite's a connection to its database, which is open. */
void pagelog_open_connection(struct connection *connection, sqlite3_filename name);

/* ---- pagelog_vfs_durable.c ---- */

/* Before a commit: has the keeper told as soon as it is sent, where it will be waited for until it is
 * durable. */
void pagelog_ring_once_sent(struct connection *connection);

/* After a commit: waits until it is durable, where `synchronous` asks for that. Others may use the database
 * meanwhile. */
int pagelog_wait_until_durable(struct connection *connection);

/* After a commit that has changed something: where that does not wait until it is durable, the close will. */
void pagelog_note_commit(struct connection *connection);

/* Waits until the commits of a connection that closes are durable, as a commit does. Where that cannot be had
 * SQLite's log says so. */
void pagelog_wait_before_close(struct connection *connection);

/* ---- pagelog_vfs_poll.c: of a named database; of others they do nothing ---- */

/* Before a begin: has that ask where the database is, if keepers say that its run was superseded. */
void pagelog_poll_holder(struct database *database);

/* While a commit waits, without the mutex: whether keepers say that a generation later than this one is
 * there. They are asked twice a second. */
bool pagelog_poll_is_past(struct database *database, uint64_t generation);

/* Before a write that no turn allows: the same, asked now. Waits for answers for 0.2 s at most, in half of
 * the time at most, and not at all where no keeper answered the last question: the next one's answers are
 * taken by a later write. */
bool pagelog_poll_looks_past(struct database *database, uint64_t generation);

/* After a begin of a reader of what is durable; and after the open of one, which waits until it can read what
 * others of this process have read. As pagelog_file_reach. */
void pagelog_note_durable_read(struct database *database);
enum pagelog_outcome pagelog_reach_durable(struct database *database);

/* Before a database is freed. */
void pagelog_leave_poll(struct database *database);

/* In a child of fork(), which begins its own. */
void pagelog_abandon_polls(void);

/* ---- pagelog_vfs_turn.c: of a named database; of others they do nothing ---- */

/* Before a begin: waits for the turn, where the last try was refused it. SQLITE_BUSY once the busy handler
 * says so. */
int pagelog_wait_for_turn(struct connection *connection);

/* Whether the write lock of this process is free for a connection: nobody else has it, or has waited longer.
 */
bool pagelog_is_next(const struct connection *connection);

/* Wakes who waits for the write lock, where it is free, or for the others to go, where they are gone. */
void pagelog_wake_next(const struct database *database);

/* Has the next sleep of SQLite's in this thread end with that; until `nothing`. */
void pagelog_await_wake(struct connection *connection);
void pagelog_await_nothing(void);

/* Takes the turn, if it is to be had now, or is kept by another who does not use it, and makes the file the
 * writer. SQLITE_BUSY where another uses it, or has written since the begin. */
int pagelog_reserve_database(struct connection *connection);

/* Gives the turn back, if this connection has it; says that it is in use, if it is wanted back. */
void pagelog_give_turn(struct connection *connection);
void pagelog_hold_turn(struct connection *connection);

/* Sleeps until a turn comes that this thread waits for, or the time is over; false where it waits for none.
 */
bool pagelog_sleep_for_turn(int microseconds);

/* ---- pagelog_vfs_errors.c ---- */

/* Says why something failed: to SQLite's log, and to standard error where it is shown. Within an open it
 * becomes the message of that. */
void pagelog_tell(int code, bool is_shown, const char *format, ...) __attribute__((format(printf, 3, 4)));

/* The same of the present call alone: it goes to no log. */
void pagelog_note_sentence(const char *text);

/* Whether errors are shown where no setting says so. */
bool pagelog_shows_by_default(void);
void pagelog_show_errors(void);

/* An open of a database begins, and ends with this code. Returns the one that SQLite is told: where the open
 * has failed with a message, the file is one that refuses all, and says why. */
void pagelog_begin_open(void);
int pagelog_end_open(sqlite3_file *file, int code);

/* ---- pagelog_vfs_heartbeat.c ---- */

/* Has the heartbeat's thread look after the turn of a database; false where there is none to be had. */
bool pagelog_start_heartbeat(struct database *database);

/* A turn was granted that was not held before. */
void pagelog_note_grant(bool is_slice);

/* Before a database is freed. */
void pagelog_stop_heartbeat(struct database *database);

/* Around a fork. The child has no thread, and none of the turns. */
void pagelog_hold_heartbeat_for_fork(void);
void pagelog_release_heartbeat_after_fork(bool is_child);

/* ---- pagelog_vfs_fork.c ---- */

/* In a child of fork(): from now on a connection of the parent refuses to be used, and is closed without a
 * word to the service. */
void pagelog_disown_connection(struct connection *connection);

/* ---- pagelog_vfs_locks.c ---- */

/* Lowers the lock of a connection. Changes that were not committed are of a transaction that is over. */
void pagelog_lower_lock(struct database *database, struct connection *connection, int lock);

/* Three of SQLite's methods. */
int pagelog_lock(sqlite3_file *file, int lock);
int pagelog_unlock(sqlite3_file *file, int lock);
int pagelog_check_reserved_lock(sqlite3_file *file, int *is_reserved);

/* ---- pagelog_vfs_pragma.c ---- */

/* `arguments` are a place for a text, the name of the pragma and its argument. */
int pagelog_answer_pragma(struct connection *connection, char **arguments);

/* ---- pagelog_vfs_journal.c ---- */

/* Makes a file of SQLite's a journal of this database, or a super-journal, where the database is NULL. */
void pagelog_open_journal(struct memory *memory, struct database *database, bool is_super);

/* ---- pagelog_vfs_super.c ---- */

/* Takes the name of a journal into a super-journal. */
int pagelog_take_name(struct memory *super, const char *name);

/* Whether these bytes end the name of a super-journal in a journal. SQLite finds the name by them. */
bool pagelog_is_end_of_name(const void *bytes, int length);

#endif
