/* A connection: SQLite's methods of a database's file, but for the locks, and what SQLite's own cache has of
 * it. */
#include "pagelog_vfs_inside.h"

#include "pagelog_common.h"

#include <string.h>
#include <unistd.h>

/* Of a database: the change counter, the number of pages, and those of the free list. */
enum { VERSION_OFFSET = 24, VERSION_BYTES = 16 };

/* Of a database: by which way it is written and read, each a byte. 2 says by a WAL. */
enum { WAYS_OFFSET = 18, WAYS_BYTES = 2, BY_JOURNAL = 1, BY_WAL = 2 };

void pagelog_call_untold(struct database *database, enum pagelog_outcome (*call)(struct pagelog_file *file)) {
    uint64_t losses = pagelog_file_losses(database->file);
    bool was_untold = database->is_loss_untold;
    pagelog_result(database, call(database->file));
    database->is_loss_untold = was_untold || pagelog_file_losses(database->file) > losses;
}

/* A connection without a busy handler ends no wait: SQLite says 0 for it, as for one whose time is over.
 * Before version 3.41 no VFS can see an interrupt. */
bool pagelog_connection_waits_on(void *argument) {
    struct connection *connection = argument;
#if SQLITE_VERSION_NUMBER >= 3041000
    bool is_known = connection->sqlite && *connection->sqlite && sqlite3_libversion_number() >= 3041000;
    if (is_known && sqlite3_is_interrupted(*connection->sqlite)) return false;
#endif
    if (!connection->busy) return true;
    if (!connection->busy(connection->busy_argument)) return !connection->has_waited;
    connection->has_waited = true;
    return true;
}

/* Notes by whom waits are ended. */
static int note_handler(struct connection *connection, void **handler) {
    memcpy(&connection->busy, &handler[0], sizeof connection->busy);
    connection->busy_argument = handler[1];
    return SQLITE_OK;
}

/* Commits that nobody waited for are waited for by who closes, and those with synchronous=normal until they
 * are durable. */
static int file_close(sqlite3_file *file) {
    struct connection *connection = (struct connection *)file;
    struct database *database = enter(file);
    pagelog_lower_lock(database, connection, SQLITE_LOCK_NONE);
    pagelog_call_untold(database, pagelog_file_settle);
    pagelog_wait_before_close(connection);
    pagelog_file_set_waiting(database->file, NULL, NULL);
    leave(database, SQLITE_OK);
    pagelog_unlist_connection(connection);
    pagelog_keepers_free(connection->keepers);
    if (connection->woken >= 0) close(connection->woken);
    pagelog_release(database);
    return SQLITE_OK;
}

/* SQLite's own cache has what the file has now. */
static void note_cache(struct connection *connection) {
    connection->history = pagelog_file_history(connection->database->file);
    connection->lsn = pagelog_file_lsn(connection->database->file);
}

/* By these bytes of the database's first page SQLite sees whether its own cache is old. A counter among them
 * may come to the same number twice where commits were lost, and a writer that keeps the lock
 * (locking_mode=exclusive) does not count its commits. So they are none of any page where the file has
 * another transaction than the cache. */
static bool is_cache_old(struct connection *connection, int length, sqlite3_int64 offset) {
    const struct pagelog_file *file = connection->database->file;
    if (length != VERSION_BYTES || offset != VERSION_OFFSET) return false;
    if (connection->history == pagelog_file_history(file) && connection->lsn == pagelog_file_lsn(file))
        return false;
    note_cache(connection);
    return true;
}

/* Whether these bytes of a file have those that say by which way a database is written and read. */
static bool has_ways(int length, sqlite3_int64 offset) {
    return offset <= WAYS_OFFSET && offset + length >= WAYS_OFFSET + WAYS_BYTES;
}

/* A database that was copied from a file in WAL says so. There is no WAL here: it is read as one with a
 * journal. */
static void read_as_with_journal(unsigned char *bytes, int length, sqlite3_int64 offset) {
    if (!has_ways(length, offset)) return;
    unsigned char *ways = bytes + (WAYS_OFFSET - offset);
    for (int i = 0; i < WAYS_BYTES; i++)
        if (ways[i] == BY_WAL) ways[i] = BY_JOURNAL;
}

/* SQLite keeps what it has written, so it has to read that again. */
static void forget_wal(struct connection *connection, const unsigned char *bytes, int length,
                       sqlite3_int64 offset) {
    if (has_ways(length, offset) && bytes[WAYS_OFFSET - offset + WAYS_BYTES - 1] == BY_WAL)
        connection->history = ~pagelog_file_history(connection->database->file);
}

/* When it opens a database SQLite looks for the size of its pages, without a lock, and again with one. Where
 * another connection has lost commits nothing can be read before the next lock. */
static bool is_too_early(const struct connection *connection) {
    return connection->lock == SQLITE_LOCK_NONE && pagelog_file_state_of(connection->database->file).is_over;
}

/* SQLite undoes a statement that met another error of a read or a write in part only. */
static int as_io_error(int code) {
    bool is_known = code == SQLITE_OK || (code & 0xff) == SQLITE_FULL || (code & 0xff) == SQLITE_IOERR;
    return is_known ? code : SQLITE_IOERR;
}

/* Of a page of a B-tree: where its head is, its kind, how many cells it has, its last child, and where the
 * places of the cells begin. Each cell of an inner one begins with a child. */
enum { FIRST_HEAD = 100, CELLS_AT = 3, LAST_CHILD_AT = 8, PLACES_AT = 12, PLACE_BYTES = 2, CHILD_BYTES = 4 };
enum {
    INNER_OF_INDEX = 2,
    INNER_OF_TABLE = 5,
    MOST_CELLS = PAGELOG_PAGE_BYTES / (PLACE_BYTES + CHILD_BYTES)
};

/* Where a page that was read is an inner one of a B-tree, its children will probably be read. Any other that
 * looks like one does no harm. */
static void expect_children(struct pagelog_file *file, const unsigned char *bytes, uint32_t page) {
    const unsigned char *head = bytes + (page == 1 ? FIRST_HEAD : 0);
    uint32_t children[MOST_CELLS + 1];
    uint32_t last = (uint32_t)(pagelog_file_size(file) / PAGELOG_PAGE_BYTES);
    if ((*head != INNER_OF_INDEX && *head != INNER_OF_TABLE) || pagelog_file_expects(file, page)) return;
    size_t count = (size_t)pagelog_read_number(head + CELLS_AT, 2);
    if (count > MOST_CELLS - FIRST_HEAD) return;
    for (size_t i = 0; i <= count; i++) {
        size_t at = (size_t)pagelog_read_number(head + PLACES_AT + i * PLACE_BYTES, PLACE_BYTES);
        const unsigned char *child = i == count ? head + LAST_CHILD_AT : bytes + at;
        if (i < count && at > PAGELOG_PAGE_BYTES - CHILD_BYTES) return;
        children[i] = (uint32_t)pagelog_read_number(child, CHILD_BYTES);
        if (children[i] == 0 || children[i] > last) return;
    }
    pagelog_file_expect(file, page, children, count + 1);
}

static int file_read(sqlite3_file *file, void *bytes, int length, sqlite3_int64 offset) {
    struct database *database = enter(file);
    size_t count = 0;
    if (is_cache_old((struct connection *)file, length, offset)) {
        memset(bytes, 0xfe, (size_t)length); /* 0xff stands for a page that SQLite failed to read */
        return leave(database, SQLITE_OK);
    }
    if (is_too_early((struct connection *)file)) {
        memset(bytes, 0, (size_t)length);
        return leave(database, SQLITE_IOERR_SHORT_READ);
    }
    int code = pagelog_result(
        database, pagelog_file_read(database->file, (uint64_t)offset, bytes, (size_t)length, &count));
    if (code == SQLITE_OK && count < (size_t)length) code = SQLITE_IOERR_SHORT_READ;
    if (code == SQLITE_OK && length == PAGELOG_PAGE_BYTES && offset % PAGELOG_PAGE_BYTES == 0)
        expect_children(database->file, bytes, (uint32_t)(offset / PAGELOG_PAGE_BYTES) + 1);
    if (code == SQLITE_OK) read_as_with_journal(bytes, length, offset);
    return leave(database, as_io_error(code));
}

/* After an error of a rollback that it does not know, as SQLITE_PERM, SQLite goes on with its cache, though
 * half of it was not rolled back: it has to read all of it again. */
static int note_error(sqlite3_file *file, int code) {
    struct connection *connection = (struct connection *)file;
    if (code != SQLITE_OK) connection->history = ~pagelog_file_history(connection->database->file);
    return code;
}

/* From each state, where it may go: a bit for each of them. */
static const uint8_t ends[] = {
    [PENDING] = 1 << PENDING | 1 << COMMITTED | 1 << REFUSED,
    [COMMITTED] = 1 << PENDING | 1 << COMMITTED | 1 << REFUSED | 1 << IN_DOUBT,
    [REFUSED] = 1 << PENDING | 1 << COMMITTED | 1 << REFUSED,
    [IN_DOUBT] = 1 << PENDING | 1 << ROLLED_BACK,
    [ROLLED_BACK] = 1 << PENDING | 1 << ROLLED_BACK,
};

void pagelog_end_with(struct connection *connection, enum last last) {
    pagelog_assert(ends[connection->last] >> last & 1);
    connection->last = last;
}

/* Whether what SQLite writes is dropped. */
static bool is_in_doubt(const struct connection *connection) {
    return connection->last == IN_DOUBT || connection->last == ROLLED_BACK;
}

/* A refusal right after another one is of the rollback. SQLite is told an error that it knows, so that it
 * reads its cache again even where it keeps the lock (locking_mode=exclusive), and does not ask whether that
 * is old. */
static int note_refusal(struct connection *connection, int code) {
    if (connection->last == REFUSED) code = as_io_error(code);
    pagelog_end_with(connection, code == SQLITE_OK ? COMMITTED : REFUSED);
    return code;
}

/* What SQLite writes after a COMMIT that is in doubt: of its rollback nothing is done, and the next
 * transaction, of a connection that keeps the lock, is refused. SQLITE_NOTFOUND where nothing is in doubt. */
static int drop_write(const struct connection *connection) {
    if (!is_in_doubt(connection)) return SQLITE_NOTFOUND;
    return connection->last == IN_DOUBT ? SQLITE_OK : SQLITE_IOERR;
}

/* The result of what SQLite does to end a transaction. After a commit that was refused that is its rollback:
 * where it is refused too, `PRAGMA pagelog_error` still reports why the commit was. */
static int result_at_end(const struct connection *connection, enum pagelog_outcome outcome) {
    struct database *database = connection->database;
    char error[ERROR_BYTES];
    memcpy(error, database->error, sizeof error);
    int code = pagelog_result(database, outcome);
    if (connection->last == REFUSED) memcpy(database->error, error, sizeof error);
    return code;
}

static int file_write(sqlite3_file *file, const void *bytes, int length, sqlite3_int64 offset) {
    struct connection *connection = (struct connection *)file;
    struct database *database = enter(file);
    int decided = drop_write(connection);
    if (decided != SQLITE_NOTFOUND) return leave(database, decided);
    pagelog_hold_turn(connection);
    if (connection->last == COMMITTED) pagelog_end_with(connection, PENDING);
    forget_wal(connection, bytes, length, offset);
    int code = result_at_end(connection,
                             pagelog_file_write(database->file, (uint64_t)offset, bytes, (size_t)length));
    return leave(database, note_error(file, as_io_error(code)));
}

/* Where SQLite makes the file shorter after its COMMIT, an error would say that the transaction is not there.
 * The file stays longer then, as by a crash at that moment: SQLite goes by the number of pages in its first
 * one. Only where the file has lost commits that nobody waited for it is told. */
static int file_truncate(sqlite3_file *file, sqlite3_int64 size) {
    struct connection *connection = (struct connection *)file;
    bool is_committed = connection->last == COMMITTED;
    struct database *database = enter(file);
    int decided = drop_write(connection);
    if (decided != SQLITE_NOTFOUND) return leave(database, decided);
    int code = result_at_end(connection, pagelog_file_resize(database->file, (uint64_t)size));
    if (is_committed && !pagelog_file_state_of(database->file).is_over) code = SQLITE_OK;
    return leave(database, note_error(file, as_io_error(code)));
}

/* Whether SQLite makes the file shorter once it is committed: so its first page says. */
static bool becomes_shorter(const struct database *database) {
    enum { SIZE_OFFSET = 16, PAGES_OFFSET = 28, HEAD = PAGES_OFFSET + 4 };
    unsigned char head[HEAD];
    size_t count = 0;
    if (pagelog_file_read(database->file, 0, head, sizeof head, &count) != PAGELOG_DONE || count < HEAD)
        return true;
    uint64_t bytes = pagelog_read_number(head + SIZE_OFFSET, 2),
             pages = pagelog_read_number(head + PAGES_OFFSET, 4);
    return pagelog_file_size(database->file) != pages * (bytes == 1 ? 65536 : bytes);
}

/* The service has the commit. What another process writes next is upon it, in whatever generation, and is
 * durable after it: that does not wait until this one is. It does where SQLite may write on with this turn:
 * where the lock is kept, where a commit to several databases may be rolled back, and where the file becomes
 * shorter. */
static void give_turn_before_wait(struct connection *connection) {
    struct database *database = connection->database;
    bool may_write_on = connection->is_exclusive || connection->is_of_several;
    if (connection->synchronous < SYNCHRONOUS_FULL || may_write_on || connection->last != COMMITTED) return;
    if (database->turn_of == connection && !becomes_shorter(database)) pagelog_give_turn(connection);
}

/* Follows the commit, unless synchronous=off. */
static int file_sync(sqlite3_file *file, int flags) {
    (void)flags;
    struct connection *connection = (struct connection *)file;
    struct database *database = enter(file);
    if (is_in_doubt(connection)) return leave(database, SQLITE_OK); /* of a rollback */
    int code = pagelog_result(database, pagelog_file_settle(database->file));
    if (code == SQLITE_OK) give_turn_before_wait(connection);
    if (code == SQLITE_OK) code = pagelog_wait_until_durable(connection);
    return leave(database, note_error(file, code));
}

static int file_size(sqlite3_file *file, sqlite3_int64 *size) {
    struct database *database = enter(file);
    *size = (sqlite3_int64)pagelog_file_size(database->file);
    return leave(database, SQLITE_OK);
}

/* SQLite asks twice when it opens a database. The first answer is the page size of a new one, the second the
 * length of each journal's head, which is as short as it may be: a commit is whole, whatever a sector is. */
static int file_sector_size(sqlite3_file *file) {
    struct connection *connection = (struct connection *)file;
    int bytes = connection->is_sized ? LEAST_SECTOR_BYTES : SECTOR_BYTES;
    connection->is_sized = true;
    return bytes;
}

static int file_device_characteristics(sqlite3_file *file) {
    (void)file;
    return CHARACTERISTICS;
}

/* A commit, or the end of a rollback, after which nothing differs. */
static int commit(struct connection *connection) {
    struct database *database = connection->database;
    if (is_in_doubt(connection)) {
        pagelog_end_with(connection, ROLLED_BACK);
        return SQLITE_OK;
    }
    uint64_t lsn = pagelog_file_lsn(database->file);
    pagelog_ring_once_sent(connection);
    int code = note_refusal(connection, result_at_end(connection, pagelog_file_commit(database->file)));
    pagelog_file_set_sent(database->file, NULL, NULL);
    if (code == SQLITE_OK && pagelog_file_lsn(database->file) != lsn) pagelog_note_commit(connection);
    return code;
}

static int file_control(sqlite3_file *file, int operation, void *argument) {
    struct connection *connection = (struct connection *)file;
    struct database *database = enter(file);
    int code = SQLITE_NOTFOUND;
    switch (operation) {
    case SQLITE_FCNTL_SYNC:
        connection->is_of_several = argument != NULL;
        code = commit(connection);
        if (code == SQLITE_OK) pagelog_warn_of_full_list(database);
        note_error(file, code);
        connection->lsn = pagelog_file_lsn(database->file);
        break;
    case SQLITE_FCNTL_COMMIT_PHASETWO: /* a VACUUM makes the file shorter after its commit */
        pagelog_call_untold(database, pagelog_file_commit);
        connection->lsn = pagelog_file_lsn(database->file);
        break;
    case SQLITE_FCNTL_BUSYHANDLER:
        code = note_handler(connection, argument);
        break;
    case SQLITE_FCNTL_PDB:
        connection->sqlite = argument;
        break;
    case SQLITE_FCNTL_PRAGMA:
        code = pagelog_answer_pragma(connection, argument);
        break;
    case SQLITE_FCNTL_LOCKSTATE:
        *(int *)argument = connection->lock;
        code = SQLITE_OK;
        break;
    case SQLITE_FCNTL_VFSNAME:
        *(char **)argument = sqlite3_mprintf("pagelog");
        code = SQLITE_OK;
        break;
    }
    return leave(database, code);
}

static const sqlite3_io_methods file_methods = {
    .iVersion = 1,
    .xClose = file_close,
    .xRead = file_read,
    .xWrite = file_write,
    .xTruncate = file_truncate,
    .xSync = file_sync,
    .xFileSize = file_size,
    .xLock = pagelog_lock,
    .xUnlock = pagelog_unlock,
    .xCheckReservedLock = pagelog_check_reserved_lock,
    .xFileControl = file_control,
    .xSectorSize = file_sector_size,
    .xDeviceCharacteristics = file_device_characteristics,
};

void pagelog_open_connection(struct connection *connection, sqlite3_filename name) {
    connection->lock = SQLITE_LOCK_NONE;
    connection->is_sized = false;
    connection->is_exclusive = connection->is_of_several = false;
    connection->busy = NULL;
    connection->sqlite = NULL;
    connection->keepers = NULL;
    connection->wants_turn = connection->wants_lock = false;
    connection->next_waiting = NULL;
    connection->woken = -1;
    connection->committed = 0;
    connection->last = PENDING;
    connection->synchronous = SYNCHRONOUS_FULL; /* as SQLite begins */
    connection->journal_mode = "delete";
    *connection->sentence = 0;
    connection->base.pMethods = &file_methods;
    pagelog_list_connection(connection, name);
    enter(&connection->base);
    note_cache(connection);
    leave(connection->database, SQLITE_OK);
}
