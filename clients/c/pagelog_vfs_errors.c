/* What an error says, beside its code: SQLite 3.40 takes no sentence from a VFS. So it goes to SQLite's log,
 * to PRAGMA pagelog_error, and where that is asked for to standard error.
 *
 * An open that fails has no connection to ask by a pragma. But SQLite asks automatic extensions after it has
 * opened the file, and ends the open by an error that one of them has left. So a file is opened that refuses
 * everything, and an extension asks it by the pragma: the answer becomes the message of the open. Where none
 * is asked, as in ATTACH, the file's refusal ends the statement by the same code.
 *
 * Of a statement sqlite3VdbeTransferError sets the message, as the last thing that a step does, to what the
 * statement has: the text of its code. No call that an extension may make comes after that. So the sentence
 * is joined to it where the message is asked for, by who can be asked in SQLite's place: the preload. */
#include "pagelog_vfs.h"
#include "pagelog_vfs_inside.h"

#include <errno.h>
#include <stdarg.h>
#include <stdio.h>
#include <string.h>
#include <time.h>
#include <unistd.h>

enum { REPEATED_SECONDS = 10 };

/* The open that this thread is in. */
static _Thread_local struct {
    bool is_under_way;
    char sentence[SENTENCE_BYTES];
} opening;

/* The call that this thread is in. */
static _Thread_local struct {
    struct connection *connection;
    char sentence[SENTENCE_BYTES]; /* why it fails; empty: that is not known */
} called;

/* A file that could not be opened. */
struct refused {
    sqlite3_file base;
    int code;
    char *sentence;
    bool is_told; /* SQLite has written it to its log by itself */
};

/* ---- Who hears it ---- */

static bool shows_all;

void pagelog_show_errors(void) {
    shows_all = true;
}

/* SQLite's shell shows a code alone. */
bool pagelog_shows_by_default(void) {
    return shows_all || strcmp(program_invocation_short_name, "sqlite3") == 0;
}

/* Whether it was shown just now: a program may try again for ever. */
static bool was_shown(const char *sentence) {
    static char last[SENTENCE_BYTES];
    static time_t at;
    time_t now = time(NULL);
    sqlite3_mutex *mutex = sqlite3_mutex_alloc(SQLITE_MUTEX_STATIC_VFS2);
    sqlite3_mutex_enter(mutex);
    bool was = strcmp(last, sentence) == 0 && now - at < REPEATED_SECONDS;
    if (!was) {
        strcpy(last, sentence);
        at = now;
    }
    sqlite3_mutex_leave(mutex);
    return was;
}

void pagelog_tell(int code, bool is_shown, const char *format, ...) {
    char sentence[SENTENCE_BYTES] = "pagelog: ";
    size_t length = strlen(sentence);
    va_list arguments;
    va_start(arguments, format);
    vsnprintf(sentence + length, sizeof sentence - length, format, arguments);
    va_end(arguments);
    bool is_passing = (code & 0xff) == SQLITE_BUSY; /* a program that shares a database expects it */
    if (is_shown && !is_passing && !was_shown(sentence)) dprintf(STDERR_FILENO, "%s\n", sentence);
    if (code != SQLITE_NOTICE && code != SQLITE_WARNING) strcpy(called.sentence, sentence);
    if (opening.is_under_way)
        strcpy(opening.sentence, sentence);
    else
        sqlite3_log(code, "%s", sentence);
}

/* ---- The message of a statement ---- */

void pagelog_note_sentence(const char *text) {
    snprintf(called.sentence, sizeof called.sentence, "pagelog: %s", text);
}

void pagelog_begin_call(struct connection *connection) {
    called.connection = connection;
    *called.sentence = 0;
}

int pagelog_end_call(int code) {
    struct connection *connection = called.connection;
    bool has_failed = code != SQLITE_OK && code != SQLITE_NOTFOUND && code != SQLITE_IOERR_SHORT_READ;
    called.connection = NULL;
    if (!connection || !has_failed) return code;
    connection->failed = code;
    strcpy(connection->sentence, called.sentence);
    return code;
}

/* Joins why a call failed to the text of its code, where SQLite says no more than that. */
static const char *join(struct connection *connection, const char *message) {
    int code = connection->failed;
    bool is_its = *connection->sentence && strcmp(message, sqlite3_errstr(code)) == 0;
    if (!is_its) return NULL;
    snprintf(connection->message, sizeof connection->message, "%s: %s", message, connection->sentence);
    return connection->message;
}

const char *pagelog_explain_message(sqlite3 *db, const char *message) {
    const char *joined = db && message ? pagelog_find_message(db, join, message) : NULL;
    return joined ? joined : message;
}

/* ---- A file that refuses ---- */

static int refused_close(sqlite3_file *file) {
    struct refused *refused = (struct refused *)file;
    if (!refused->is_told) sqlite3_log(refused->code, "%s", refused->sentence);
    sqlite3_free(refused->sentence);
    return SQLITE_OK;
}

/* SQLite reads a file as it opens it: this one is empty. */
static int refused_read(sqlite3_file *file, void *bytes, int count, sqlite3_int64 offset) {
    (void)file, (void)offset;
    memset(bytes, 0, (size_t)count);
    return SQLITE_IOERR_SHORT_READ;
}

static int refused_write(sqlite3_file *file, const void *bytes, int count, sqlite3_int64 offset) {
    (void)bytes, (void)count, (void)offset;
    return ((struct refused *)file)->code;
}

static int refused_truncate(sqlite3_file *file, sqlite3_int64 size) {
    (void)size;
    return ((struct refused *)file)->code;
}

static int refused_number(sqlite3_file *file, int number) {
    (void)number;
    return ((struct refused *)file)->code;
}

static int refused_unlock(sqlite3_file *file, int lock) {
    (void)file, (void)lock;
    return SQLITE_OK;
}

static int refused_size(sqlite3_file *file, sqlite3_int64 *size) {
    *size = 0;
    return ((struct refused *)file)->code;
}

static int refused_check(sqlite3_file *file, int *is_reserved) {
    *is_reserved = 0;
    return ((struct refused *)file)->code;
}

static int refused_control(sqlite3_file *file, int operation, void *argument) {
    struct refused *refused = (struct refused *)file;
    char **words = argument;
    if (operation != SQLITE_FCNTL_PRAGMA || sqlite3_strnicmp(words[1], "pagelog", 7) != 0)
        return SQLITE_NOTFOUND;
    words[0] = sqlite3_mprintf("%s", refused->sentence);
    refused->is_told = true;
    return refused->code;
}

static int refused_sector(sqlite3_file *file) {
    (void)file;
    return LEAST_SECTOR_BYTES;
}

static int refused_characteristics(sqlite3_file *file) {
    (void)file;
    return 0;
}

static const sqlite3_io_methods refused_methods = {
    .iVersion = 1,
    .xClose = refused_close,
    .xRead = refused_read,
    .xWrite = refused_write,
    .xTruncate = refused_truncate,
    .xSync = refused_number,
    .xFileSize = refused_size,
    .xLock = refused_number,
    .xUnlock = refused_unlock,
    .xCheckReservedLock = refused_check,
    .xFileControl = refused_control,
    .xSectorSize = refused_sector,
    .xDeviceCharacteristics = refused_characteristics,
};

/* ---- An open ---- */

/* An automatic extension. The error that its statement leaves is the one of the open. */
static int tell_open(sqlite3 *db, char **error, const sqlite3_api_routines *api) {
    sqlite3_file *file = NULL;
    (void)error, (void)api;
    int code = sqlite3_file_control(db, "main", SQLITE_FCNTL_FILE_POINTER, &file);
    if (code == SQLITE_OK && file && file->pMethods == &refused_methods)
        sqlite3_exec(db, "pragma pagelog_error", NULL, NULL, NULL);
    return SQLITE_OK;
}

void pagelog_begin_open(void) {
    opening.is_under_way = true;
    *opening.sentence = 0;
}

int pagelog_end_open(sqlite3_file *file, int code) {
    struct refused *refused = (struct refused *)file;
    opening.is_under_way = false;
    if (code == SQLITE_OK || !*opening.sentence) return code;
    char *sentence = sqlite3_mprintf("%s", opening.sentence);
    /* Once is enough, but the program may have taken it away. */
    if (!sentence || sqlite3_auto_extension((void (*)(void))tell_open) != SQLITE_OK) {
        sqlite3_log(code, "%s", opening.sentence);
        sqlite3_free(sentence);
        return code;
    }
    *refused = (struct refused){{&refused_methods}, code, sentence, false};
    return SQLITE_OK;
}
