/* What the connections of this process share: the list of databases, the list of connections, and what an
 * outcome of a database's file is to SQLite. */
#include "pagelog_vfs_inside.h"

#include <stdio.h>
#include <string.h>

static struct database *databases;
static struct connection *connections;

static sqlite3_mutex *list_mutex(void) {
    return sqlite3_mutex_alloc(SQLITE_MUTEX_STATIC_VFS1);
}

/* ---- Errors ---- */

/* SQLite's code for an outcome that was not DONE. */
static int code_of(const struct pagelog_file *file, enum pagelog_outcome outcome) {
    uint8_t kind = pagelog_file_refused(file)->kind;
    if (outcome != PAGELOG_DONE && pagelog_file_state_of(file).is_over) return SQLITE_IOERR_FSYNC;
    switch (outcome) {
    case PAGELOG_DONE:
        return SQLITE_OK;
    case PAGELOG_LOST:
        return SQLITE_IOERR;
    case PAGELOG_FENCED:
        if (pagelog_file_begins_again(file)) return SQLITE_BUSY_SNAPSHOT;
        return pagelog_file_state_of(file).is_restarted ? SQLITE_IOERR : SQLITE_READONLY;
    case PAGELOG_IN_DOUBT:
        return SQLITE_IOERR_FSYNC;
    case PAGELOG_CONFLICT:
        return SQLITE_PROTOCOL;
    case PAGELOG_DENIED:
        return kind == PAGELOG_REPLY_SPENT ? SQLITE_FULL : SQLITE_PERM;
    case PAGELOG_NO_MEMORY:
        return kind == PAGELOG_REPLY_NO_MEMORY ? SQLITE_FULL : SQLITE_IOERR_NOMEM;
    case PAGELOG_AUDIT_FULL:
        return FULL_LIST;
    case PAGELOG_MALFORMED:
        if (pagelog_file_state_of(file).is_misnamed) return SQLITE_CANTOPEN;
        return pagelog_file_state_of(file).is_foreign ? SQLITE_NOTADB : SQLITE_PROTOCOL;
    }
    return SQLITE_ERROR;
}

/* What the service has lost, or was dropped, is not found by who opens the database from now on: its file is
 * a new one. */
static void unlist_database(struct database *database) {
    sqlite3_mutex_enter(list_mutex());
    struct database **at = &databases;
    while (*at && *at != database)
        at = &(*at)->next;
    if (*at) *at = database->next;
    sqlite3_mutex_leave(list_mutex());
}

/* Notes an outcome by its code. */
static int note(struct database *database, int code) {
    if (code == SQLITE_IOERR_FSYNC) database->is_loss_untold = false;
    if (pagelog_file_is_no_more(database->file)) unlist_database(database);
    pagelog_file_explain(database->file, database->error, sizeof database->error);
    pagelog_tell(code, database->shows_errors, "%s", database->error);
    return code;
}

int pagelog_result(struct database *database, enum pagelog_outcome outcome) {
    return outcome == PAGELOG_DONE ? SQLITE_OK : note(database, code_of(database->file, outcome));
}

int pagelog_result_of_begin(struct database *database, enum pagelog_outcome outcome) {
    char text[ERROR_BYTES];
    if (outcome == PAGELOG_DONE && pagelog_file_take_note(database->file, text, sizeof text))
        pagelog_tell(SQLITE_NOTICE, database->shows_errors, "%s", text);
    if (outcome == PAGELOG_DONE) return SQLITE_OK;
    bool is_promised = outcome != PAGELOG_IN_DOUBT || pagelog_file_state_of(database->file).is_over;
    return note(database, is_promised ? code_of(database->file, outcome) : SQLITE_IOERR);
}

/* ---- Databases ---- */

static void free_database(struct database *database) {
    pagelog_stop_heartbeat(database);
    pagelog_turn_leave(&database->turn);
    pthread_mutex_destroy(&database->turn_guard);
    pagelog_leave_poll(database);
    pagelog_keep_pages(database);
    pagelog_file_free(database->file);
    sqlite3_free(database->room);
    sqlite3_mutex_free(database->mutex);
    sqlite3_free(database->key);
    sqlite3_free(database->address);
    sqlite3_free(database->name);
    sqlite3_free(database->kept_name);
    sqlite3_free(database);
}

/* The name that keepers know the database by; empty: it has none. */
static const char *kept_name_of(const struct pagelog_file_options *options) {
    return options->keepers ? options->database_name : "";
}

/* What connections must have in common to share a database, beside the service. */
static char *key_of(const struct pagelog_file_options *options) {
    char token[2 * PAGELOG_TOKEN_BYTES + 1];
    for (size_t i = 0; i < PAGELOG_TOKEN_BYTES; i++)
        sprintf(token + 2 * i, "%02x", options->service.token[i]);
    return sqlite3_mprintf("%p %u %u %s %s", (void *)options->service.tls, options->service.database,
                           options->service.principal, token, kept_name_of(options));
}

static void take_operator(struct database *database, const struct pagelog_file_options *options) {
    if (!options->has_operator) return;
    database->has_operator = true;
    database->operator_principal = options->operator_principal;
    memcpy(database->operator_token, options->operator_token, PAGELOG_TOKEN_BYTES);
}

/* A database that is not open yet; NULL where memory runs out. */
static struct database *make_database(const struct pagelog_file_options *options) {
    struct database *database = sqlite3_malloc(sizeof *database);
    if (!database) return NULL;
    memset(database, 0, sizeof *database);
    database->references = 1;
    database->key = key_of(options);
    database->address = sqlite3_mprintf("%s", options->service.address);
    database->kept_name = sqlite3_mprintf("%s", kept_name_of(options));
    database->is_durable_only = options->keepers && options->durable_only;
    database->follows_holder = options->keepers && !options->durable_only && !options->at;
    database->name = sqlite3_mprintf("%s", options->name);
    database->mutex = sqlite3_mutex_alloc(SQLITE_MUTEX_FAST);
    database->file = pagelog_file_new(options);
    database->tls = options->service.tls;
    pagelog_turn_begin(&database->turn, kept_name_of(options), database->tls);
    pagelog_turn_prove(&database->turn, options->service.principal, options->service.token);
    pthread_mutex_init(&database->turn_guard, NULL);
    take_operator(database, options);
    if (database->key && database->address && database->name && database->kept_name && database->mutex &&
        database->file)
        return database;
    free_database(database);
    return NULL;
}

/* The database in the list that this one is too, with one reference more; NULL where there is none. By its
 * peer one service is known under each of its names. */
static struct database *find(const struct database *wanted) {
    struct database *database = databases;
    for (; database; database = database->next) {
        bool is_there = strcmp(database->address, wanted->address) == 0 ||
                        (*wanted->peer && strcmp(database->peer, wanted->peer) == 0);
        if (is_there && strcmp(database->key, wanted->key) == 0) break;
    }
    if (database) database->references++;
    return database;
}

/* As find, but lists `made` where there is none. */
static struct database *find_or_list(struct database *made) {
    sqlite3_mutex_enter(list_mutex());
    struct database *found = find(made);
    if (!found) {
        made->next = databases;
        databases = made;
    }
    sqlite3_mutex_leave(list_mutex());
    return found;
}

static struct database *find_listed(const struct database *made) {
    sqlite3_mutex_enter(list_mutex());
    struct database *found = find(made);
    sqlite3_mutex_leave(list_mutex());
    return found;
}

/* Puts the database that connections share in the place of one that was made, unless this is the first. A
 * reader has one of its own. */
static int share(struct database **database) {
    struct database *made = *database, *found = find_listed(made);
    if (!found) {
        enum pagelog_outcome outcome = pagelog_file_connect(made->file, made->peer, sizeof made->peer);
        if (outcome != PAGELOG_DONE) return pagelog_result_of_begin(made, outcome);
    }
    if (!found) found = find_or_list(made);
    if (!found) return SQLITE_OK;
    free_database(made);
    *database = found;
    return SQLITE_OK;
}

void pagelog_release(struct database *database) {
    sqlite3_mutex_enter(list_mutex());
    bool is_last = --database->references == 0;
    struct database **at = &databases;
    while (is_last && *at && *at != database)
        at = &(*at)->next;
    if (is_last && *at) *at = database->next;
    sqlite3_mutex_leave(list_mutex());
    if (is_last) free_database(database);
}

int pagelog_take_over_if_wanted(struct database *database) {
    if (!database->is_take_over_wanted || database->sharing > 0) return SQLITE_OK;
    database->is_take_over_wanted = false;
    pagelog_call_untold(database, pagelog_file_settle);
    return pagelog_result_of_begin(
        database,
        pagelog_file_take_over(database->file, database->operator_principal, database->operator_token));
}

/* Another connection has opened the database. Where it was fenced since, who has an operator takes over for
 * all of them, as soon as none reads. */
static int join(struct database *database, const struct pagelog_file_options *options) {
    if (!options->has_operator || pagelog_file_may_commit(database->file)) return SQLITE_OK;
    take_operator(database, options);
    database->is_take_over_wanted = true;
    return pagelog_take_over_if_wanted(database);
}

/* One request when a writer opens, and one for each 64th of the list that it has filled itself. */
void pagelog_warn_of_full_list(struct database *database) {
    struct pagelog_file_state state = pagelog_file_state_of(database->file);
    uint64_t since = state.wire.requests - database->looked, tenth = database->entries / 10;
    bool is_due = database->looked == 0 || since > database->entries / 64, has = false;
    if (has_keepers(database)) return; /* its keeper sees to that */
    if (!database->has_operator || !is_due || state.on_their_way > 0) return;
    database->looked = state.wire.requests;
    if (pagelog_file_has_entry(database->file, database->entries - tenth, &has) == PAGELOG_DONE && has)
        sqlite3_log(
            SQLITE_WARNING,
            "pagelog: nine tenths of the audit list of %llu entries are full; once it is, the database "
            "answers nothing any more",
            database->entries);
}

/* Opens a database, unless another connection has. Only those that share it wait for the service meanwhile.
 */
static int ensure_open(struct database *database, const struct pagelog_file_options *options) {
    int code;
    sqlite3_mutex_enter(database->mutex);
    pagelog_file_set_waiting(database->file, NULL, NULL);
    if (database->is_open) {
        code = join(database, options);
    } else {
        enum pagelog_outcome outcome = pagelog_file_open(database->file);
        if (outcome == PAGELOG_DONE) pagelog_take_kept_pages(database);
        if (outcome == PAGELOG_DONE) outcome = pagelog_reach_durable(database);
        code = pagelog_result_of_begin(database, outcome);
        database->is_open = code == SQLITE_OK;
        if (database->is_open) pagelog_warn_of_full_list(database);
    }
    return leave(database, code);
}

int pagelog_find_or_open(const struct pagelog_file_options *options, const struct settings *settings,
                         struct database **found) {
    struct database *database = make_database(options);
    if (!database) return SQLITE_NOMEM;
    database->entries = settings->entries;
    database->most_kept = settings->most_kept;
    database->shows_errors = settings->shows_errors;
    int code = options->reads_only ? SQLITE_OK : share(&database);
    if (code == SQLITE_OK && strcmp(database->name, options->name) != 0) {
        pagelog_tell(SQLITE_CANTOPEN, settings->shows_errors,
                     "the database is open as %s, and has not the name %s", database->name, options->name);
        code = SQLITE_CANTOPEN;
    }
    if (code == SQLITE_OK) code = ensure_open(database, options);
    if (code == SQLITE_OK)
        *found = database;
    else
        pagelog_release(database);
    return code == SQLITE_IOERR ? SQLITE_CANTOPEN : code;
}

/* ---- Connections ---- */

void pagelog_list_connection(struct connection *connection, sqlite3_filename name) {
    connection->journal = sqlite3_filename_journal(name);
    sqlite3_mutex_enter(list_mutex());
    connection->next = connections;
    connections = connection;
    sqlite3_mutex_leave(list_mutex());
}

void pagelog_unlist_connection(struct connection *connection) {
    struct connection **at = &connections;
    sqlite3_mutex_enter(list_mutex());
    while (*at != connection)
        at = &(*at)->next;
    *at = connection->next;
    sqlite3_mutex_leave(list_mutex());
}

const char *pagelog_find_message(sqlite3 *db,
                                 const char *(*look)(struct connection *connection, const char *message),
                                 const char *message) {
    const char *found = NULL;
    sqlite3_mutex_enter(list_mutex());
    for (struct connection *at = connections; at && !found; at = at->next)
        if (at->sqlite && *at->sqlite == db) found = look(at, message);
    sqlite3_mutex_leave(list_mutex());
    return found;
}

/* ---- Forks ---- */

/* The lists are whole in a child: no thread is amid a change of them while this process forks. */
static void before_fork(void) {
    sqlite3_mutex_enter(list_mutex());
    pagelog_hold_heartbeat_for_fork();
}

static void after_fork_in_parent(void) {
    pagelog_release_heartbeat_after_fork(false);
    sqlite3_mutex_leave(list_mutex());
}

/* The socket is the parent's, and so are the replies that it brings. What the child opens is its own. After
 * vfork() this is not called, nor need be: such a child only starts another program. */
static void after_fork_in_child(void) {
    pagelog_release_heartbeat_after_fork(true);
    for (struct database *database = databases; database; database = database->next)
        pagelog_file_abandon(database->file);
    for (struct connection *connection = connections; connection; connection = connection->next) {
        connection->database->is_inherited = true;
        pagelog_turn_leave(&connection->database->turn);
        pagelog_file_abandon(connection->database->file);
        pagelog_disown_connection(connection);
    }
    pagelog_abandon_polls();
    pagelog_forget_tls();
    databases = NULL;
    connections = NULL;
    sqlite3_mutex_leave(list_mutex());
}

int pagelog_watch_forks(void) {
    int error = pthread_atfork(before_fork, after_fork_in_parent, after_fork_in_child);
    return error == 0 ? SQLITE_OK : SQLITE_NOMEM;
}

/* ---- Journals ---- */

struct database *pagelog_database_of_name(const void *name) {
    sqlite3_mutex_enter(list_mutex());
    struct connection *connection = connections;
    while (connection && connection->journal != name)
        connection = connection->next;
    struct database *database = connection ? connection->database : NULL;
    sqlite3_mutex_leave(list_mutex());
    return database;
}
