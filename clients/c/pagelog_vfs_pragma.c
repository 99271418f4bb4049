/* The pragmas: what `PRAGMA pagelog` and the like report and change, and SQLite's own two that are looked at
 * here. */
#include "pagelog_vfs_inside.h"

#include <string.h>

static const char *role_name(const struct pagelog_file *file, const struct pagelog_file_state *state) {
    if (state->is_writer) return "writer";
    return state->is_fenced && !pagelog_file_begins_again(file) ? "fenced" : "reader";
}

/* What `PRAGMA pagelog_...` reports, by its name. */
static bool number_of(const struct pagelog_file_state *state, const char *name, uint64_t *number) {
    const struct {
        const char *name;
        uint64_t number;
    } numbers[] = {
        {"lsn", state->lsn},
        {"end", state->end},
        {"size", state->size},
        {"transaction", state->transaction},
        {"epoch", state->epoch},
        {"writing_epoch", state->writing_epoch},
        {"check", state->check_ms},
        {"spin", state->spin_us},
        {"async_commits", state->unwaited},
        {"position", state->position},
        {"durable", state->durable},
        {"generation", state->generation},
        {"moves", state->moves},
        {"resent", state->resent},
        {"on_their_way", state->on_their_way},
        {"losses", state->losses},
        {"copies", state->zone.copies},
        {"quorum", state->zone.quorum},
        {"stale", state->is_stale},
        {"commits", state->commits},
        {"repairs", state->repairs},
        {"blocks_written", state->blocks_written},
        {"pages_fetched", state->pages_fetched},
        {"pages_copied", state->pages_copied},
        {"cached_pages", state->cached_pages},
        {"requests", state->wire.requests},
        {"round_trips", state->wire.round_trips},
        {"connects", state->wire.connects},
        {"bytes_sent", state->wire.bytes_sent},
        {"bytes_received", state->wire.bytes_received},
    };
    for (size_t i = 0; i < sizeof numbers / sizeof *numbers; i++) {
        if (sqlite3_stricmp(name, numbers[i].name) != 0) continue;
        *number = numbers[i].number;
        return true;
    }
    return false;
}

static char *text_of_pragma(struct database *database, const char *name) {
    struct pagelog_file_state state = pagelog_file_state_of(database->file);
    uint64_t number;
    if (*name == 0)
        return sqlite3_mprintf(
            "%s lsn %llu end %llu transaction %llu size %llu epoch %u writing %u commits %llu "
            "repairs %llu requests %llu round_trips %llu bytes_sent %llu bytes_received %llu",
            role_name(database->file, &state), state.lsn, state.end, state.transaction, state.size,
            state.epoch, state.writing_epoch, state.commits, state.repairs, state.wire.requests,
            state.wire.round_trips, state.wire.bytes_sent, state.wire.bytes_received);
    if (sqlite3_stricmp(name, "_role") == 0) return sqlite3_mprintf("%s", role_name(database->file, &state));
    if (sqlite3_stricmp(name, "_error") == 0) return sqlite3_mprintf("%s", database->error);
    return *name == '_' && number_of(&state, name + 1, &number) ? sqlite3_mprintf("%llu", number) : NULL;
}

/* Takes over by hand what another writer has fenced. Nobody may read what is there now. */
static int take_over(struct connection *connection, char **words) {
    struct database *database = connection->database;
    if (!database->has_operator) {
        *words = sqlite3_mprintf("no operator: the URI has no op and optoken");
        return SQLITE_MISUSE;
    }
    if (database->sharing > 0) {
        *words = sqlite3_mprintf("a connection of this process is in a transaction");
        return SQLITE_BUSY;
    }
    database->is_take_over_wanted = true;
    int code = pagelog_take_over_if_wanted(database);
    if (code != SQLITE_OK) *words = sqlite3_mprintf("%s", database->error);
    return code;
}

/* Asks how many entries the audit list has, or may still have. */
static int count_entries(struct database *database, bool is_left, char **words) {
    uint64_t count = 0;
    int code = pagelog_result(database, pagelog_file_count_entries(database->file, &count));
    if (is_left) count = count < database->entries ? database->entries - count : 0;
    *words = code == SQLITE_OK ? sqlite3_mprintf("%llu", count) : sqlite3_mprintf("%s", database->error);
    return code;
}

/* For which database and run the newest transaction was made. */
static int tell_origin(struct database *database, char **words) {
    char text[ERROR_BYTES];
    int code = pagelog_result(database, pagelog_file_origin(database->file, text, sizeof text));
    *words = sqlite3_mprintf("%s", code == SQLITE_OK ? text : database->error);
    return code;
}

/* Waits for what is on its way, and then changes how much may be. */
static int set_async_commits(struct database *database, uint64_t number) {
    int code = pagelog_result(database, pagelog_file_settle(database->file));
    if (code == SQLITE_OK) pagelog_file_set_unwaited(database->file, (unsigned)number);
    return code;
}

/* Changes what a pragma of this name changes. */
static int set_by_pragma(struct database *database, const char *name, const char *text, char **words) {
    const struct {
        const char *name;
        uint64_t most;
    } settings[] = {{"_check", MOST_MS}, {"_spin", MOST_SPIN_US}, {"_async_commits", PAGELOG_WINDOW}};
    uint64_t number = 0;
    size_t i = 0;
    while (i < 3 && sqlite3_stricmp(name, settings[i].name) != 0)
        i++;
    if (i == 3 || !pagelog_read_number_of(text, settings[i].most, &number)) {
        *words = i == 3 ? sqlite3_mprintf("pagelog%s cannot be set", name)
                        : sqlite3_mprintf("pagelog%s is a number from 0 to %llu", name, settings[i].most);
        return SQLITE_MISUSE;
    }
    if (i == 2) return set_async_commits(database, number);
    if (i == 0) pagelog_file_set_check(database->file, (unsigned)number);
    if (i == 1) pagelog_file_set_spin(database->file, pagelog_spin_of(number));
    return SQLITE_OK;
}

/* What SQLite makes of the value of `PRAGMA synchronous`. */
static int level_of(const char *value) {
    static const char *const off[] = {"off", "no", "false"};
    if (*value >= '0' && *value <= '9') return (*value - '0' + 1) % 8 > 0 ? *value - '0' : SYNCHRONOUS_OFF;
    for (size_t i = 0; i < sizeof off / sizeof *off; i++)
        if (sqlite3_stricmp(value, off[i]) == 0) return SYNCHRONOUS_OFF;
    if (sqlite3_stricmp(value, "full") == 0) return SYNCHRONOUS_FULL;
    return sqlite3_stricmp(value, "extra") == 0 ? SYNCHRONOUS_EXTRA : SYNCHRONOUS_NORMAL;
}

/* A sync cannot tell full from normal; only this pragma does. Within a transaction SQLite changes nothing. */
static void note_synchronous(struct connection *connection, const char *value) {
    bool is_changed =
        !connection->sqlite || !*connection->sqlite || sqlite3_get_autocommit(*connection->sqlite);
    if (is_changed) connection->synchronous = level_of(value);
}

/* SQLite takes a WAL to be possible where one connection keeps the lock, whatever the VFS has. There is none
 * here, so the mode stays as it is, as SQLite has it where the lock is given back. */
static int answer_mode(struct connection *connection, char **arguments) {
    static const char *const modes[] = {"delete", "truncate", "persist", "memory", "off"};
    const char *name = arguments[1], *value = arguments[2];
    if (!value) return SQLITE_NOTFOUND;
    if (sqlite3_stricmp(name, "synchronous") == 0) note_synchronous(connection, value);
    if (sqlite3_stricmp(name, "locking_mode") == 0) {
        if (sqlite3_stricmp(value, "exclusive") == 0) connection->is_exclusive = true;
        if (sqlite3_stricmp(value, "normal") == 0) connection->is_exclusive = false;
    }
    if (sqlite3_stricmp(name, "journal_mode") != 0) return SQLITE_NOTFOUND;
    for (size_t i = 0; i < sizeof modes / sizeof *modes; i++)
        if (sqlite3_stricmp(value, modes[i]) == 0) connection->journal_mode = modes[i];
    if (!connection->is_exclusive || sqlite3_stricmp(value, "wal") != 0) return SQLITE_NOTFOUND;
    arguments[0] = sqlite3_mprintf("%s", connection->journal_mode);
    return arguments[0] ? SQLITE_OK : SQLITE_NOMEM;
}

int pagelog_answer_pragma(struct connection *connection, char **arguments) {
    struct database *database = connection->database;
    const char *name = arguments[1];
    int code = SQLITE_OK;
    if (sqlite3_strnicmp(name, "pagelog", 7) != 0) return answer_mode(connection, arguments);
    name += 7;
    bool is_take_over = sqlite3_stricmp(name, "_take_over") == 0,
         is_left = sqlite3_stricmp(name, "_entries_left") == 0;
    if (is_left || sqlite3_stricmp(name, "_entries") == 0)
        return count_entries(database, is_left, &arguments[0]);
    if (sqlite3_stricmp(name, "_origin") == 0) return tell_origin(database, &arguments[0]);
    if (is_take_over)
        code = take_over(connection, &arguments[0]);
    else if (arguments[2])
        code = set_by_pragma(database, name, arguments[2], &arguments[0]);
    if (code != SQLITE_OK) return code;
    arguments[0] = text_of_pragma(database, is_take_over ? "_writing_epoch" : name);
    if (arguments[0]) return SQLITE_OK;
    arguments[0] = sqlite3_mprintf("no such pragma: pagelog%s", name);
    return SQLITE_ERROR;
}
