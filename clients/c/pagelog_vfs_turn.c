/* SQLite's RESERVED lock of a named database: the turn to write, which a keeper gives to one process after
 * the other.
 *
 * Who is refused it, or has read before another wrote, is busy. SQLite lets go of the database then, calls
 * the busy handler and begins again; and then the turn comes before the begin, so that what is read is the
 * newest. */
#include "pagelog_vfs_inside.h"

#include "pagelog_common.h"

#include <poll.h>
#include <string.h>
#include <sys/eventfd.h>

enum {
    MANY_WRITES = 16, /* of a transaction, after which it looks whether its turn is wanted */
    MANY_TURNS = 16,  /* in a row without another process, after which none is expected */
    MOMENT_MS = 1000,
};

/* What a sleep of SQLite's in this thread waits for too. */
static _Thread_local int awaited = -1;

bool pagelog_sleep_for_turn(int microseconds) {
    struct pollfd fd = {.fd = awaited, .events = POLLIN};
    if (awaited < 0) return false;
    poll(&fd, 1, (microseconds + 999) / 1000);
    return true;
}

/* Has the busy handler let the wait go on. It sleeps, and is woken by what can be read. */
static bool waits_on(struct connection *connection, int fd) {
    struct database *database = connection->database;
    if (!connection->busy) return false;
    awaited = fd;
    sqlite3_mutex_leave(database->mutex);
    bool goes_on = connection->busy(connection->busy_argument) != 0;
    sqlite3_mutex_enter(database->mutex);
    awaited = -1;
    pagelog_file_set_waiting(database->file, pagelog_connection_waits_on, connection);
    return goes_on;
}

static enum pagelog_outcome ask(const struct connection *connection, bool now) {
    struct database *database = connection->database;
    struct pagelog_awaited place = {.position = UINT64_MAX};
    pagelog_file_is_durable(database->file, &place);
    bool has_heartbeat = pagelog_start_heartbeat(database);
    pthread_mutex_lock(&database->turn_guard);
    bool was_held = database->turn.is_held;
    database->turn.has_heartbeat = has_heartbeat;
    database->turn.takes_slices = connection->synchronous < SYNCHRONOUS_FULL;
    enum pagelog_outcome outcome = pagelog_turn_ask(&database->turn, &place.place, now);
    bool is_slice = database->turn.slice > 0;
    pthread_mutex_unlock(&database->turn_guard);
    if (outcome == PAGELOG_DONE && !was_held) pagelog_note_grant(is_slice);
    return outcome;
}

/* What has come of a turn that was asked for. */
static enum pagelog_outcome look(struct database *database) {
    pthread_mutex_lock(&database->turn_guard);
    enum pagelog_outcome outcome = pagelog_turn_look(&database->turn);
    bool is_slice = database->turn.slice > 0;
    pthread_mutex_unlock(&database->turn_guard);
    if (outcome == PAGELOG_DONE) pagelog_note_grant(is_slice);
    return outcome;
}

static bool is_held_in(struct database *database, uint64_t generation) {
    pthread_mutex_lock(&database->turn_guard);
    bool is_held = database->turn.is_held && database->turn.generation == generation;
    pthread_mutex_unlock(&database->turn_guard);
    return is_held;
}

/* The turn is there, or nobody can give it. Another process may have written since. */
static void take(struct connection *connection, enum pagelog_outcome outcome) {
    struct database *database = connection->database;
    pthread_mutex_lock(&database->turn_guard);
    bool is_same = database->turn.is_same, is_slice = database->turn.slice > 0;
    pthread_mutex_unlock(&database->turn_guard);
    if (outcome != PAGELOG_DONE || !is_same) pagelog_file_doubt(database->file);
    if (outcome == PAGELOG_DONE && (!is_same || is_slice))
        database->contended = MANY_TURNS;
    else if (database->contended > 0)
        database->contended = outcome == PAGELOG_DONE ? database->contended - 1 : 0;
    database->turn_of = connection;
    database->turn_writes = 0;
}

/* The begin that follows may become the writer at once, as who had the turn before has said in which epoch.
 */
static void expect_hand_over(struct database *database) {
    pthread_mutex_lock(&database->turn_guard);
    bool is_other = database->turn.is_held && !database->turn.is_same;
    uint32_t epoch = is_other ? database->turn.epoch : 0;
    uint64_t generation = database->turn.generation;
    pthread_mutex_unlock(&database->turn_guard);
    pagelog_file_hand_over(database->file, epoch, generation);
}

/* ---- The connections of this process, in the order of asking ---- */

bool pagelog_is_next(const struct connection *connection) {
    const struct database *database = connection->database;
    if (database->reserved || database->turn_of) return database->turn_of == connection;
    return !database->first_waiting || database->first_waiting == connection;
}

void pagelog_wake_next(const struct database *database) {
    struct connection *next = database->is_pending ? database->reserved : database->first_waiting;
    bool is_next = next && (database->is_pending ? database->sharing == 1 : pagelog_is_next(next));
    if (is_next && next->woken >= 0) eventfd_write(next->woken, 1);
}

void pagelog_await_wake(struct connection *connection) {
    eventfd_t drained;
    if (connection->woken < 0) connection->woken = eventfd(0, EFD_CLOEXEC | EFD_NONBLOCK);
    if (connection->woken >= 0) eventfd_read(connection->woken, &drained);
    awaited = connection->woken;
}

void pagelog_await_nothing(void) {
    awaited = -1;
}

static struct connection **end_of_line(struct database *database, const struct connection *connection) {
    struct connection **at = &database->first_waiting;
    while (*at && *at != connection)
        at = &(*at)->next_waiting;
    return at;
}

/* False once the busy handler ends the wait. */
static bool wait_in_line(struct connection *connection) {
    struct database *database = connection->database;
    if (pagelog_is_next(connection)) return true;
    pagelog_await_wake(connection);
    *end_of_line(database, connection) = connection;
    bool goes_on = true;
    while (goes_on && !pagelog_is_next(connection)) {
        goes_on = waits_on(connection, connection->woken);
        pagelog_await_wake(connection);
    }
    pagelog_await_nothing();
    bool is_next = pagelog_is_next(connection);
    *end_of_line(database, connection) = connection->next_waiting;
    connection->next_waiting = NULL;
    if (!is_next) pagelog_wake_next(database);
    return is_next;
}

void pagelog_give_turn(struct connection *connection) {
    struct database *database = connection->database;
    if (database->turn_of == connection) {
        struct pagelog_file_state state = pagelog_file_state_of(database->file);
        database->turn_of = NULL;
        pagelog_file_hand_over(database->file, 0, 0);
        pthread_mutex_lock(&database->turn_guard);
        database->turn.written = state.is_writer ? state.writing_epoch : 0;
        pagelog_turn_give(&database->turn, pagelog_file_generation(database->file));
        pthread_mutex_unlock(&database->turn_guard);
    }
}

void pagelog_hold_turn(struct connection *connection) {
    struct database *database = connection->database;
    if (database->turn_of != connection || ++database->turn_writes % MANY_WRITES != 0) return;
    pthread_mutex_lock(&database->turn_guard);
    pagelog_turn_hold(&database->turn);
    pthread_mutex_unlock(&database->turn_guard);
}

/* Whether a statement of SQLite's that runs now writes, to this database alone: of several each would wait
 * with the turn of another. */
static bool writes_now(const struct connection *connection) {
#if SQLITE_VERSION_NUMBER >= 3039000
    sqlite3 *sqlite = connection->sqlite ? *connection->sqlite : NULL;
    bool is_alone = sqlite && sqlite3_libversion_number() >= 3039000 && sqlite3_db_name(sqlite, 2) == NULL;
    sqlite3_stmt *statement = is_alone ? sqlite3_next_stmt(sqlite, NULL) : NULL;
    for (; statement; statement = sqlite3_next_stmt(sqlite, statement))
        if (sqlite3_stmt_busy(statement) && !sqlite3_stmt_readonly(statement)) return true;
#else
    (void)connection;
#endif
    return false;
}

int pagelog_wait_for_turn(struct connection *connection) {
    struct database *database = connection->database;
    bool is_foreseen = !connection->wants_turn && database->contended > 0 && database->sharing == 0 &&
                       connection->busy && writes_now(connection);
    connection->wants_turn |= is_foreseen;
    bool asks = connection->wants_turn && database->sharing == 0;
    if (!asks && !connection->wants_lock) return SQLITE_OK;
    connection->wants_lock = false;
    if (!wait_in_line(connection)) return SQLITE_OK;
    database->turn_of = connection;
    if (!connection->wants_turn || database->sharing > 0) return SQLITE_OK;
    connection->wants_turn = false;
    enum pagelog_outcome outcome = ask(connection, false);
    while (outcome == PAGELOG_CONFLICT && waits_on(connection, database->turn.line.socket))
        outcome = pagelog_file_is_overtaken(database->file) ? PAGELOG_LOST : look(database);
    if (outcome == PAGELOG_CONFLICT) {
        pagelog_give_turn(connection);
        return is_foreseen ? SQLITE_OK : SQLITE_BUSY; /* of one that is kept and unused nobody knows yet */
    }
    take(connection, outcome);
    if (outcome == PAGELOG_DONE) expect_hand_over(database);
    return SQLITE_OK;
}

/* Waits on for a turn that another process keeps, and may not use. SQLite asks no busy handler where a
 * transaction that has read begins to write: it is asked here, after the moment in which a process that lives
 * answers its keeper. False where the wait is over. */
static bool wait_for_kept(struct connection *connection, uint64_t until) {
    struct database *database = connection->database;
    struct pollfd fd = {.fd = database->turn.line.socket, .events = POLLIN};
    uint64_t now = pagelog_now();
    if (now >= until) return waits_on(connection, fd.fd);
    sqlite3_mutex_leave(database->mutex);
    poll(&fd, 1, (int)(until - now));
    sqlite3_mutex_enter(database->mutex);
    pagelog_file_set_waiting(database->file, pagelog_connection_waits_on, connection);
    return true;
}

/* Whether a transaction that has read begins to write. */
static bool is_upgrade(const struct connection *connection) {
    bool is_known = connection->sqlite && *connection->sqlite && sqlite3_libversion_number() >= 3034000;
    return is_known && sqlite3_txn_state(*connection->sqlite, NULL) != SQLITE_TXN_NONE;
}

/* Whether a later generation is there, of one who is to write without a turn. */
static bool is_left_behind(struct database *database) {
    return pagelog_poll_looks_past(database, pagelog_file_generation(database->file));
}

/* Whether more may come of a turn that was asked for at once and not given; then `*outcome` is what has come
 * of it. An upgrade waits on where the keeper does not answer, and another may soon have the database; and it
 * asks in the next generation, which has what it has read: `*moved` says whether it came there. Any other
 * begins again, and asks there. */
static bool comes_later(struct connection *connection, enum pagelog_outcome *outcome, uint64_t *until,
                        enum pagelog_outcome *moved) {
    struct database *database = connection->database;
    struct pagelog_file *file = database->file;
    bool is_kept = *outcome == PAGELOG_CONFLICT && database->turn.is_soon;
    bool is_lost = *outcome == PAGELOG_LOST && connection->busy && is_upgrade(connection);
    bool may_come = is_lost && pagelog_turn_may_come(&database->turn);
    if (!is_kept && !is_lost) return false;
    if (is_lost && !may_come ? is_left_behind(database) : pagelog_file_is_overtaken(file)) {
        if (!is_upgrade(connection)) return false;
        *moved = pagelog_file_move_on(file);
        if (*moved != PAGELOG_DONE) return false;
    } else if (is_kept) {
        if (!wait_for_kept(connection, *until)) return false;
        *outcome = look(database);
        return true;
    } else if (!may_come || !waits_on(connection, -1)) {
        return false;
    }
    *outcome = ask(connection, true);
    *until = pagelog_after(MOMENT_MS);
    return true;
}

/* Has the turn of the generation that the file is in. One that was waited for may be of a generation that is
 * over, or of none where its keeper was gone. A loss that is found meanwhile is told, and not that it is
 * busy. */
static int have_turn(struct connection *connection) {
    struct database *database = connection->database;
    if (database->turn_of == connection && is_held_in(database, pagelog_file_generation(database->file)))
        return SQLITE_OK;
    database->turn_of = connection;
    enum pagelog_outcome outcome = ask(connection, true);
    uint64_t until = pagelog_after(MOMENT_MS);
    enum pagelog_outcome moved = PAGELOG_DONE;
    while (comes_later(connection, &outcome, &until, &moved))
        continue;
    if (moved != PAGELOG_DONE && pagelog_file_state_of(database->file).is_over) {
        pagelog_give_turn(connection);
        return pagelog_result_of_begin(database, moved);
    }
    bool may_come = outcome == PAGELOG_LOST && connection->busy && pagelog_turn_may_come(&database->turn);
    connection->wants_turn = outcome == PAGELOG_CONFLICT;
    if (connection->wants_turn) database->contended = MANY_TURNS;
    /* Who is to write without a turn writes not where another has superseded the generation. */
    bool is_left = outcome == PAGELOG_LOST && !may_come && is_left_behind(database);
    if (connection->wants_turn || may_come || is_left) {
        pagelog_give_turn(connection);
        enum pagelog_outcome left = is_left ? pagelog_file_leave(database->file) : PAGELOG_DONE;
        return left == PAGELOG_DONE ? SQLITE_BUSY : pagelog_result_of_begin(database, left);
    }
    take(connection, outcome);
    return SQLITE_OK;
}

/* The file is the writer, and has read all that was written before. Where it was that in this generation, and
 * has become it once more, another has written meanwhile, and this process is not the one that wrote last. */
static void note_newest(struct database *database, bool has_become) {
    uint64_t generation = pagelog_file_generation(database->file);
    pthread_mutex_lock(&database->turn_guard);
    database->turn.has_newest = database->turn.is_held;
    if (has_become && database->wrote_in == generation) database->turn.is_mine = false;
    pthread_mutex_unlock(&database->turn_guard);
    database->wrote_in = generation;
}

/* A file that has moved meanwhile needs a turn there. */
int pagelog_reserve_database(struct connection *connection) {
    struct database *database = connection->database;
    enum pagelog_outcome outcome;
    uint64_t generation;
    if (!has_keepers(database)) return SQLITE_OK;
    struct pagelog_file_state before = pagelog_file_state_of(database->file);
    do {
        generation = pagelog_file_generation(database->file);
        int code = have_turn(connection);
        if (code != SQLITE_OK) return code;
        outcome = pagelog_file_reserve(database->file);
    } while (outcome == PAGELOG_DONE && pagelog_file_generation(database->file) != generation);
    struct pagelog_file_state state = pagelog_file_state_of(database->file);
    if (outcome == PAGELOG_DONE) {
        note_newest(database, !before.is_writer || before.writing_epoch != state.writing_epoch);
        return SQLITE_OK;
    }
    pagelog_give_turn(connection);
    connection->wants_turn = outcome == PAGELOG_FENCED && !state.is_over && !state.is_gone;
    return connection->wants_turn ? SQLITE_BUSY : pagelog_result_of_begin(database, outcome);
}
