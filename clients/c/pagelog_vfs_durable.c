/* Of a named database: with synchronous=full and extra a COMMIT waits until the archive has it, with normal
 * the close of its connection does. */
#include "pagelog_vfs_inside.h"

#include <string.h>

/* Who is asked while others use the file; NULL where memory runs out. */
static struct pagelog_keepers *keepers_of(struct connection *connection) {
    const struct database *database = connection->database;
    if (!connection->keepers)
        connection->keepers = pagelog_keepers_new(database->address, database->kept_name, database->tls);
    if (connection->keepers) pagelog_file_lend_token(database->file, connection->keepers);
    return connection->keepers;
}

/* A wait of a connection, and how often its file had lost commits before the last answer. Who closes has no
 * lock, and lets nobody in where another is amid a commit. */
struct wait_of {
    struct connection *connection;
    bool is_commit;
    uint64_t losses;
    uint64_t generation; /* that is asked about, while others are let in; 0: nobody is asked */
    uint64_t left;       /* the last one whose question was ended since it is over */
};

/* A keeper may stand still, or its machine be gone, and nobody says over its line that another has the
 * database. Others write there once they have waited a while for what is to be sent again: so its question
 * ends. */
static bool waits_on(void *argument) {
    struct wait_of *wait = argument;
    if (!pagelog_connection_waits_on(wait->connection)) return false;
    if (wait->generation <= wait->left) return true;
    bool is_past = pagelog_poll_is_past(wait->connection->database, wait->generation);
    if (is_past) wait->left = wait->generation;
    return !is_past;
}

/* What is lost meanwhile the next statement tells, where this call does not. */
static void note_losses(const struct wait_of *wait) {
    struct database *database = wait->connection->database;
    if (pagelog_file_losses(database->file) > wait->losses) database->is_loss_untold = true;
}

/* A question is asked without the mutex: readers of this process wait for nobody's durability. */
static void let_in(void *argument) {
    struct wait_of *wait = argument;
    struct database *database = wait->connection->database;
    note_losses(wait);
    database->durable_waits += wait->is_commit;
    wait->generation = pagelog_file_generation(database->file);
    sqlite3_mutex_leave(database->mutex);
}

static void go_on(void *argument) {
    struct wait_of *wait = argument;
    struct database *database = wait->connection->database;
    sqlite3_mutex_enter(database->mutex);
    if (wait->left == wait->generation) pagelog_keepers_wait_again(wait->connection->keepers);
    wait->generation = 0;
    database->durable_waits -= wait->is_commit;
    pagelog_file_set_waiting(database->file, pagelog_connection_waits_on, wait->connection);
    wait->losses = pagelog_file_losses(database->file);
}

/* Blocks were sent. The keeper has them archived while the service's reply is on its way. */
static void ring(void *argument) {
    struct connection *connection = argument;
    const struct pagelog_place *place = pagelog_file_place(connection->database->file);
    if (place && keepers_of(connection)) pagelog_keepers_ring(connection->keepers, place);
}

/* When a connection waits for the archive. */
enum awaits { NEVER, AT_CLOSE, AT_COMMIT };

static enum awaits awaits_of(const struct connection *connection) {
    if (!has_keepers(connection->database) || connection->synchronous == SYNCHRONOUS_OFF) return NEVER;
    return connection->synchronous == SYNCHRONOUS_NORMAL ? AT_CLOSE : AT_COMMIT;
}

void pagelog_ring_once_sent(struct connection *connection) {
    const struct database *database = connection->database;
    bool rings = awaits_of(connection) == AT_COMMIT;
    pagelog_file_set_sent(database->file, rings ? ring : NULL, connection);
}

/* It is in the log, and whether it will be durable is not known. */
static int doubt(struct connection *connection) {
    static const char reason[] = "in doubt: it is in the log, and no keeper has said that it is durable";
    struct database *database = connection->database;
    pagelog_end_with(connection, IN_DOUBT);
    strcpy(database->error, reason);
    pagelog_tell(SQLITE_IOERR_FSYNC, database->shows_errors, "%s", reason);
    return SQLITE_IOERR_FSYNC;
}

/* Waits until a position is durable. LOST: no keeper has said it in time. */
static enum pagelog_outcome wait_for(struct connection *connection, uint64_t position) {
    const struct database *database = connection->database;
    struct wait_of wait = {.connection = connection,
                           .is_commit = database->reserved == connection,
                           .losses = pagelog_file_losses(database->file)};
    struct pagelog_asking asking = {
        .keepers = keepers_of(connection), .let_in = let_in, .go_on = go_on, .argument = &wait};
    if (!asking.keepers) return PAGELOG_LOST;
    pagelog_keepers_set_waiting(asking.keepers, waits_on, &wait);
    enum pagelog_outcome outcome = pagelog_file_await(database->file, position, &asking);
    pagelog_keepers_set_waiting(asking.keepers, NULL, NULL);
    note_losses(&wait);
    return outcome;
}

int pagelog_wait_until_durable(struct connection *connection) {
    struct database *database = connection->database;
    if (awaits_of(connection) != AT_COMMIT) return SQLITE_OK;
    enum pagelog_outcome outcome = wait_for(connection, pagelog_file_state_of(database->file).committed);
    return outcome == PAGELOG_LOST ? doubt(connection) : pagelog_result(database, outcome);
}

void pagelog_note_commit(struct connection *connection) {
    struct database *database = connection->database;
    if (awaits_of(connection) == AT_CLOSE)
        connection->committed = pagelog_file_state_of(database->file).position;
}

void pagelog_wait_before_close(struct connection *connection) {
    struct database *database = connection->database;
    char text[ERROR_BYTES];
    bool is_there = connection->committed <= pagelog_file_state_of(database->file).committed;
    if (connection->committed == 0 || !is_there) return; /* a loss that was told */
    if (wait_for(connection, connection->committed) == PAGELOG_DONE) return;
    pagelog_file_explain(database->file, text, sizeof text);
    sqlite3_log(SQLITE_IOERR_FSYNC,
                "pagelog: closed, and its last commits are not known to be durable: they are lost if the "
                "service dies now: %s",
                text);
}
