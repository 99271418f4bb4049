/* The locks of the connections that share a database. They are of this process; between processes there is
 * the epoch. */
#include "pagelog_vfs_inside.h"

#include <stdio.h>

void pagelog_lower_lock(struct database *database, struct connection *connection, int lock) {
    if (connection->lock <= lock) return;
    if (database->reserved == connection) {
        if (connection->lock == SQLITE_LOCK_EXCLUSIVE) pagelog_file_undo(database->file);
        database->reserved = NULL;
        database->is_pending = false;
        pagelog_give_turn(connection);
    }
    if (lock == SQLITE_LOCK_NONE) {
        pagelog_give_turn(connection);
        database->sharing--;
        pagelog_wake_next(database);
    }
    connection->lock = lock;
    pagelog_end_with(connection, PENDING);
}

/* The first of those that share the database begins a transaction of the file. */
static int lock_shared(struct database *database) {
    if (database->is_pending && database->durable_waits == 0) return SQLITE_BUSY;
    if (database->sharing > 0 && pagelog_file_state_of(database->file).is_over) return SQLITE_BUSY;
    if (database->is_loss_untold) {
        database->is_loss_untold = false;
        pagelog_note_sentence(database->error);
        return SQLITE_IOERR_FSYNC;
    }
    int code = pagelog_take_over_if_wanted(database);
    if (code == SQLITE_OK && database->sharing == 0) {
        pagelog_poll_holder(database);
        code = pagelog_result_of_begin(database, pagelog_file_begin(database->file));
        if (code == SQLITE_OK) pagelog_note_durable_read(database);
    }
    if (code == SQLITE_OK) database->sharing++;
    return code;
}

/* A connection that cannot write: the reason is noted. */
static int refuse_write(struct database *database, const struct pagelog_file_state *state) {
    if (state->is_fenced)
        snprintf(database->error, sizeof database->error, "fenced: epoch %u is over, the current one is %u",
                 state->writing_epoch, state->epoch);
    else
        snprintf(database->error, sizeof database->error, "this connection only reads");
    pagelog_note_sentence(database->error);
    return SQLITE_READONLY;
}

/* Why no commit is allowed; SQLITE_OK where this connection may go on nevertheless. */
static int refuse_commit(struct database *database) {
    struct pagelog_file_state state = pagelog_file_state_of(database->file);
    if (!state.is_writer) return refuse_write(database, &state);
    /* A file that is broken begins again once all connections have let go of it. */
    return database->sharing > 1 ? SQLITE_BUSY : SQLITE_OK;
}

static int lock_reserved(struct database *database, struct connection *connection) {
    if (database->reserved != connection && !pagelog_is_next(connection)) {
        connection->wants_lock = has_keepers(database);
        return SQLITE_BUSY;
    }
    int code = pagelog_file_may_commit(database->file) ? SQLITE_OK : refuse_commit(database);
    if (code == SQLITE_OK && !database->reserved) code = pagelog_reserve_database(connection);
    if (code == SQLITE_OK) database->reserved = connection;
    return code;
}

/* The lock stays at SQLITE_LOCK_PENDING while others share the database: nobody else is let in then. */
static int lock_exclusive(struct database *database, struct connection *connection) {
    int code = lock_reserved(database, connection);
    if (code != SQLITE_OK) return code;
    database->is_pending = true;
    connection->lock = SQLITE_LOCK_PENDING;
    if (database->sharing == 1) return SQLITE_OK;
    pagelog_await_wake(connection);
    return SQLITE_BUSY;
}

int pagelog_lock(sqlite3_file *file, int lock) {
    struct connection *connection = (struct connection *)file;
    struct database *database = enter(file);
    int code = SQLITE_OK;
    pagelog_await_nothing();
    if (lock <= connection->lock) return leave(database, SQLITE_OK);
    if (connection->lock == SQLITE_LOCK_NONE) code = pagelog_wait_for_turn(connection);
    if (code == SQLITE_OK && connection->lock == SQLITE_LOCK_NONE) code = lock_shared(database);
    if (code != SQLITE_OK && connection->lock == SQLITE_LOCK_NONE) {
        pagelog_give_turn(connection);
        pagelog_wake_next(database);
    }
    if (code == SQLITE_OK && connection->lock == SQLITE_LOCK_NONE) {
        connection->lock = SQLITE_LOCK_SHARED;
        *connection->sentence = 0; /* of a statement that is over */
    }
    if (code == SQLITE_OK && lock == SQLITE_LOCK_RESERVED) code = lock_reserved(database, connection);
    if (code == SQLITE_OK && lock == SQLITE_LOCK_EXCLUSIVE) code = lock_exclusive(database, connection);
    if (code == SQLITE_OK) connection->lock = lock;
    return leave(database, code);
}

int pagelog_unlock(sqlite3_file *file, int lock) {
    struct database *database = enter(file);
    pagelog_await_nothing();
    pagelog_lower_lock(database, (struct connection *)file, lock);
    return leave(database, SQLITE_OK);
}

int pagelog_check_reserved_lock(sqlite3_file *file, int *is_reserved) {
    struct database *database = enter(file);
    *is_reserved = database->reserved != NULL;
    return leave(database, SQLITE_OK);
}
