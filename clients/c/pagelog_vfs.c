/* A VFS by which SQLite keeps a database in a log and page service.
 *
 *   make -C clients/c
 *   sqlite3
 *   sqlite> .load clients/c/pagelog_vfs
 *   sqlite> .open 'file:NAME?vfs=pagelog&to=127.0.0.1:7400&db=0&id=2&token=HEX&op=1&optoken=HEX'
 *
 * NAME is kept in the database by the first commit of a writer, and from then on it is opened by that name
 * alone. A parameter that is none of those below, nor SQLite's, is an error.
 *
 * Parameters of the URI; those that it lacks are looked for in the file that `credentials` names, which its
 * owner alone may read, a line "NAME VALUE" for each, and then in the environment, as PAGELOG_TOKEN:
 *
 *   to=ADDRESS       the service, as 127.0.0.1:7400
 *   db=N             the number of the database; 0
 *   id=N             the principal
 *   token=HEX        its token, 32 digits
 *   op=N             an operator, and
 *   optoken=HEX      its token: a writer that has both begins an epoch of its own when it opens,
 *                    and a writer elsewhere is fenced by it; one that has not writes in the
 *                    current epoch, if that is its principal's. By the operator it also has the
 *                    service tidy up after each 256 KiB that it sends
 *   mode=ro          a secondary: it follows what is committed
 *   at=LSN           a secondary that reads the newest transaction that ended at this LSN or
 *                    before, for ever
 *   check=MS         how old may be what a transaction begins with; 0: each one asks
 *   stale=1          a secondary that gets no answer goes on with what it has
 *   pages=N          pages of 8,192 bytes that are kept besides SQLite's own; 4096
 *   keep=N           as many that stay in the process after the last close, 4096 at most and by default, for
 *                    the next open of this principal: it goes on with them where the log has their
 *                    transaction. A process keeps 4096 of four databases at most
 *   copies=N         of the landing zone, as the table has it: 3, or 6
 *   quorum=N         of the landing zone: 2 of 3, or 4 of 6
 *   written=N        to how many copies a block is written; as many as the quorum
 *   timeout=MS       of a connect and of a reply; 5000, 10000
 *   patience=MS      how long lost connections are opened again; as `timeout`, 10000
 *   spin=US          how long a wait for a reply may look for it before it sleeps, as long as the last
 *                    replies came so soon; 50; 0: it sleeps at once, which costs less of a processor
 *   audit=N          how many entries the service's audit list may have; 16777216. A writer with `op`
 *                    warns in SQLite's log once nine tenths are there
 *   errors=stderr    what goes wrong is written to standard error, too, as in SQLite's shell and with the
 *                    preload; log: to SQLite's log alone
 *   async_commits=N  with synchronous=off up to N commits, 64 at most, may be on their way to the service
 *                    while nobody waits for them; 0
 *   sslmode=MODE     verify-full: TLS 1.3, and the service's and keepers' certificates are verified, with
 *                    the host that is asked for; disable: none. Nothing between. It is verify-full where
 *                    one of the next three is named, which `disable` beside them cannot take away
 *   sslrootcert=FILE certificates of CAs, PEM, and
 *   sslcert=FILE     of this client, with
 *   sslkey=FILE      its key, which nobody else may read. Files that change are read again at a connect
 *
 * In place of `to`, for a database that keepers know by name:
 *
 *   where=ADDRESSES  the keepers, as 10.0.0.1:7500,10.0.0.2:7500, and
 *   name=NAME        what they call it. A writer needs `op`, and has to be allowed to read as a secondary
 *   move=MS          how long a call waits for a generation that it can go on in; 30000
 *   durable=1        a secondary that sees nothing that could still be lost
 *   page_servers=W   prefer: a secondary asks one for pages where it has them and answers soon, else the
 *                    service, which says what is newest; older: for what is from before the base of the
 *                    generation alone, as `at` or the transaction that it reads; only: for all, so that all
 * is durable; never
 *
 * There `at` is a position, and synchronous=full and extra say that a COMMIT waits until the archive has it;
 * normal, until the service has, and a close waits for the archive. What was acknowledged and is not durable
 * yet a writer keeps, and sends again where a service has died, if nobody else has written there. So no
 * statement fails for a succession, nor for a death by which nothing was lost. pagelog_move.h says what a
 * move leaves.
 *
 * A transaction is committed by SQLITE_FCNTL_SYNC, which SQLite sends once for each, whatever `synchronous`
 * and `journal_mode` are: what was written since then becomes one transaction of the file. It waits until
 * that is in the log; only where `async_commits` is set and synchronous=off, nobody waits, and an error comes
 * later. With synchronous=full or normal SQLite then syncs the file, which waits. The journal, by which
 * SQLite rolls back, is a file in this process' memory. There is no WAL.
 *
 * What an error means:
 *
 *   SQLITE_READONLY      another writer has begun an epoch: the transaction is not in the database
 *                        and never will be; the connection goes on as a reader, until it takes over again
 *   SQLITE_IOERR         the service is not there, or another one is with another history (then for good,
 *                        until the connection is closed), or a page cannot be read or written, whatever
 *                        refuses it: the transaction is not in the database
 *   SQLITE_IOERR_FSYNC   of a COMMIT: in doubt; the next transaction sees whether it is in it;
 *                        with `async_commits`, of anything: of the last commits, which nobody waited for,
 *                        one or more may not be in the database; the next transaction sees which.
 *                        Of a named database: the same of acknowledged commits that were not durable, told
 *                        once; with synchronous=full of a COMMIT that no keeper calls durable
 *   SQLITE_BUSY_SNAPSHOT of a named database: another writer has gone on; nothing of the transaction is there
 *   SQLITE_FULL          the service's memory is full, and of a named database no other has followed it in
 *                        time; with the extended code 269 the audit list is
 *   SQLITE_PERM          the table denies it, or there is no such database
 *   SQLITE_PROTOCOL      another session writes in this epoch, or what answers is no such service; of a named
 *                        database: `at` is below the base of the generation, and no page server has it
 *   SQLITE_NOTADB        another client has written page 0 of the database; SQLite's log and the pragma below
 *                        say from which `at` it can still be read
 *   SQLITE_MISUSE        the URI lacks a parameter, or has one that is unknown or cannot be read, as the name
 *                        of a plain file in ATTACH or VACUUM INTO, which is file:NAME?vfs=unix; a pragma
 *                        has a number out of its range; the connection was opened before a fork, and
 *                        this is a child
 *   SQLITE_CANTOPEN      of an open: nothing answers, or no keeper listens, or the database has another
 *                        name; of a COMMIT to several databases: one of them is a plain file with a
 *                        journal, which a crash would leave half written, and nothing is committed
 *
 * The message of an open that fails, as of sqlite3_errmsg, says why. Of a statement SQLite takes no message
 * from a VFS: the preload joins it to SQLite's own, and the pragma below says it, SQLite's log, and with
 * `errors=stderr` standard error.
 *
 * A wait for the service that takes longer than a second asks the connection's busy handler, as of
 * busy_timeout, and ends once that says so. Without one it ends by `timeout` and `patience`.
 * What a statement may cost with a peer that lies is bounded as pagelog.h and pagelog_file.h say.
 *
 * `PRAGMA pagelog` reports the state of the connection; `PRAGMA pagelog_lsn` and the like one number of it;
 * `PRAGMA pagelog_error` the last error in words; `PRAGMA pagelog_check = 50` changes `check`, and
 * `PRAGMA pagelog_spin = 0` changes `spin`. `PRAGMA pagelog_async_commits = N` waits for what is on its way,
 * and then changes `async_commits`. `PRAGMA pagelog_take_over` begins an epoch again after another writer
 * has, for all connections of the process, as an open with `op` does. `PRAGMA pagelog_entries` and
 * `pagelog_entries_left` count the audit list by some 24 requests of the operator. Of a named database
 * `pagelog_generation`, `pagelog_position`, `pagelog_durable`, `pagelog_moves` and `pagelog_resent` say where
 * it is, and `pagelog_origin` for which database and run its newest transaction was made, as DATABASE/RUN;
 * empty where an older client has made that. SQLite has a VFS report numbers as texts.
 *
 * Connections of one process that write as one principal to one database share a file, by whatever address
 * they reach it, with the settings of the one that opened it, and lock as SQLite expects. Between processes
 * there are no locks: there is the epoch, and of a named database the turn that its keeper grants: who is
 * refused SQLITE_LOCK_RESERVED waits for it as long as the busy handler says. A connection that keeps the
 * lock (locking_mode=exclusive) is in one transaction of the file for as long. So after a commit that was in
 * doubt or lost it neither sees what became of it nor commits again, until `PRAGMA locking_mode = normal` and
 * one statement more have given the lock back; and after one that was refused it may be refused all else
 * until then, that statement included.
 */
#include "pagelog_vfs.h"
#include "pagelog_vfs_inside.h"

#include <string.h>

#ifndef PAGELOG_STATIC
SQLITE_EXTENSION_INIT1
#endif

enum { NAME_BYTES = 1024 };

sqlite3_vfs *pagelog_real_vfs;

/* Says which setting is wrong. A name alone is mostly that of a plain file, of ATTACH or VACUUM INTO. */
static int refuse_setting(sqlite3_filename name, const char *wrong, const char *why) {
    bool is_shown = pagelog_reads_shown(name);
    if (!sqlite3_uri_key(name, 0) && strcmp(wrong, "to") == 0)
        pagelog_tell(SQLITE_MISUSE, is_shown,
                     "%s has no setting `to` or `where`; a plain file is opened as file:%s?vfs=unix", name,
                     name);
    else if (*why)
        pagelog_tell(SQLITE_MISUSE, is_shown, "the setting %s", why);
    else
        pagelog_tell(SQLITE_MISUSE, is_shown, "the setting %s is missing, unknown, or cannot be read", wrong);
    return SQLITE_MISUSE;
}

static int open_database(sqlite3_filename name, struct connection *connection, int flags, int *out_flags) {
    struct pagelog_file_options options = {.reads_only = (flags & SQLITE_OPEN_READONLY) != 0};
    struct settings settings;
    if (pagelog_has_shared_credentials(name)) {
        const char *file = sqlite3_uri_parameter(name, "credentials");
        pagelog_tell(SQLITE_PERM, pagelog_reads_shown(name), "others may read %s: chmod 600 %s", file, file);
        return SQLITE_PERM;
    }
    const char *wrong = pagelog_read_settings(name, &options, &settings);
    if (wrong) return refuse_setting(name, wrong, settings.why);
    int code = pagelog_find_or_open(&options, &settings, &connection->database);
    if (code != SQLITE_OK) return code;
    pagelog_open_connection(connection, name);
    if (out_flags && options.reads_only)
        *out_flags = (flags & ~(SQLITE_OPEN_READWRITE | SQLITE_OPEN_CREATE)) | SQLITE_OPEN_READONLY;
    return SQLITE_OK;
}

static int vfs_open(sqlite3_vfs *vfs, sqlite3_filename name, sqlite3_file *file, int flags, int *out_flags) {
    (void)vfs;
    file->pMethods = NULL;
    if (out_flags) *out_flags = flags;
    if (flags & SQLITE_OPEN_MAIN_DB) {
        pagelog_begin_open();
        return pagelog_end_open(file, open_database(name, (struct connection *)file, flags, out_flags));
    }
    if (flags & SQLITE_OPEN_WAL) return SQLITE_CANTOPEN;
    if (!(flags & (SQLITE_OPEN_MAIN_JOURNAL | SQLITE_OPEN_SUPER_JOURNAL)))
        return pagelog_real_vfs->xOpen(pagelog_real_vfs, name, file, flags, out_flags);
    bool is_super = flags & SQLITE_OPEN_SUPER_JOURNAL;
    struct database *database = is_super ? NULL : pagelog_database_of_name(name);
    pagelog_open_journal((struct memory *)file, database, is_super);
    return SQLITE_OK;
}

static int vfs_delete(sqlite3_vfs *vfs, const char *name, int sync) {
    (void)vfs, (void)name, (void)sync;
    return SQLITE_OK;
}

/* Journals of others are not there: a writer that goes takes its own with it. */
static int vfs_access(sqlite3_vfs *vfs, const char *name, int flags, int *is_there) {
    (void)vfs, (void)name, (void)flags;
    *is_there = 0;
    return SQLITE_OK;
}

static int vfs_full_pathname(sqlite3_vfs *vfs, const char *name, int room, char *out) {
    (void)vfs;
    if ((int)strlen(name) >= room) return SQLITE_CANTOPEN;
    strcpy(out, name);
    return SQLITE_OK;
}

static void *vfs_dl_open(sqlite3_vfs *vfs, const char *name) {
    (void)vfs;
    return pagelog_real_vfs->xDlOpen(pagelog_real_vfs, name);
}

static void vfs_dl_error(sqlite3_vfs *vfs, int room, char *text) {
    (void)vfs;
    pagelog_real_vfs->xDlError(pagelog_real_vfs, room, text);
}

static void (*vfs_dl_sym(sqlite3_vfs *vfs, void *library, const char *name))(void) {
    (void)vfs;
    return pagelog_real_vfs->xDlSym(pagelog_real_vfs, library, name);
}

static void vfs_dl_close(sqlite3_vfs *vfs, void *library) {
    (void)vfs;
    pagelog_real_vfs->xDlClose(pagelog_real_vfs, library);
}

static int vfs_randomness(sqlite3_vfs *vfs, int length, char *out) {
    (void)vfs;
    return pagelog_real_vfs->xRandomness(pagelog_real_vfs, length, out);
}

static int vfs_sleep(sqlite3_vfs *vfs, int microseconds) {
    (void)vfs;
    if (pagelog_sleep_for_turn(microseconds)) return microseconds;
    return pagelog_real_vfs->xSleep(pagelog_real_vfs, microseconds);
}

static int vfs_current_time(sqlite3_vfs *vfs, double *now) {
    (void)vfs;
    return pagelog_real_vfs->xCurrentTime(pagelog_real_vfs, now);
}

static int vfs_get_last_error(sqlite3_vfs *vfs, int room, char *text) {
    (void)vfs;
    return pagelog_real_vfs->xGetLastError(pagelog_real_vfs, room, text);
}

static int register_vfs(void) {
    static sqlite3_vfs vfs = {
        .iVersion = 1,
        .mxPathname = NAME_BYTES,
        .zName = "pagelog",
        .xOpen = vfs_open,
        .xDelete = vfs_delete,
        .xAccess = vfs_access,
        .xFullPathname = vfs_full_pathname,
        .xDlOpen = vfs_dl_open,
        .xDlError = vfs_dl_error,
        .xDlSym = vfs_dl_sym,
        .xDlClose = vfs_dl_close,
        .xRandomness = vfs_randomness,
        .xSleep = vfs_sleep,
        .xCurrentTime = vfs_current_time,
        .xGetLastError = vfs_get_last_error,
    };
    int least = (int)(sizeof(struct connection) > sizeof(struct memory) ? sizeof(struct connection)
                                                                        : sizeof(struct memory));
    if (sqlite3_vfs_find("pagelog")) return SQLITE_OK;
    pagelog_real_vfs = sqlite3_vfs_find(NULL);
    if (!pagelog_real_vfs) return SQLITE_ERROR;
    vfs.szOsFile = pagelog_real_vfs->szOsFile > least ? pagelog_real_vfs->szOsFile : least;
    int code = pagelog_watch_forks();
    return code == SQLITE_OK ? sqlite3_vfs_register(&vfs, 0) : code;
}

#ifdef PAGELOG_STATIC

int pagelog_register_vfs(void) {
    return register_vfs();
}

#else

/* The entry point of the extension. It stays loaded when the connection that loaded it is closed. */
__attribute__((visibility("default"))) int sqlite3_pagelogvfs_init(sqlite3 *db, char **error,
                                                                   const sqlite3_api_routines *api) {
    (void)db, (void)error;
    SQLITE_EXTENSION_INIT2(api);
    int code = register_vfs();
    return code == SQLITE_OK ? SQLITE_OK_LOAD_PERMANENTLY : code;
}

#endif
