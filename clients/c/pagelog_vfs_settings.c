/* The settings of a database: of its URI, of a file of credentials, or of the environment. The head of
 * pagelog_vfs.c lists them. */
#include "pagelog_vfs_inside.h"

#include <ctype.h>
#include <errno.h>
#include <stdio.h>
#include <stdlib.h>
#include <string.h>
#include <sys/stat.h>

/* How long a wait looks for its reply, in microseconds. */
enum { DEFAULT_SPIN_US = 50 };

/* Entries that an audit list may have, at most; the service's default. */
enum { MOST_ENTRIES = 1 << 24 };

/* The parameters of a URI: these, and SQLite's own. */
static const char *const known[] = {
    "to",           "db",      "id",       "token",         "op",          "optoken", "mode",
    "at",           "check",   "stale",    "pages",         "copies",      "quorum",  "written",
    "spin",         "timeout", "patience", "async_commits", "credentials", "audit",   "vfs",
    "cache",        "psow",    "nolock",   "immutable",     "modeof",      "where",   "name",
    "move",         "durable", "errors",   "sslmode",       "sslrootcert", "sslcert", "sslkey",
    "page_servers", "keep"};

/* Opens a file of credentials. NULL where it cannot be read, and where others may read it, as `*is_shared`
 * says. */
static FILE *open_credentials(const char *path, bool *is_shared) {
    struct stat told;
    FILE *file = fopen(path, "re");
    *is_shared = file && (fstat(fileno(file), &told) != 0 || (S_ISREG(told.st_mode) && told.st_mode & 077));
    if (!*is_shared) return file;
    fclose(file);
    return NULL;
}

bool pagelog_has_shared_credentials(sqlite3_filename uri) {
    const char *path = sqlite3_uri_parameter(uri, "credentials");
    bool is_shared = false;
    FILE *file = path ? open_credentials(path, &is_shared) : NULL;
    if (file) fclose(file);
    return is_shared;
}

/* Looks in the file `path` for a line "NAME VALUE". */
static bool find_in_file(const char *path, const char *name, char *value) {
    char line[VALUE_BYTES + 32], found[32], text[VALUE_BYTES];
    bool is_there = false, is_shared;
    FILE *file = open_credentials(path, &is_shared);
    if (!file) return false;
    while (!is_there && fgets(line, sizeof line, file))
        is_there = sscanf(line, "%31s %255s", found, text) == 2 && strcmp(found, name) == 0;
    fclose(file);
    if (is_there) strcpy(value, text);
    return is_there;
}

static bool find_in_environment(const char *name, char *value) {
    char variable[40] = "PAGELOG_";
    size_t length = strlen(variable);
    for (size_t i = 0; name[i] && length + 1 < sizeof variable; i++)
        variable[length++] = (char)toupper((unsigned char)name[i]);
    const char *text = getenv(variable);
    if (text) strcpy(value, strlen(text) < VALUE_BYTES ? text : "");
    return text;
}

/* The first parameter that has no meaning, or NULL. */
static const char *find_unknown(sqlite3_filename uri) {
    const char *name;
    for (int number = 0; (name = sqlite3_uri_key(uri, number)); number++) {
        size_t i = 0;
        while (i < sizeof known / sizeof *known && strcmp(known[i], name) != 0)
            i++;
        if (i == sizeof known / sizeof *known) return name;
    }
    return NULL;
}

bool pagelog_find_setting(sqlite3_filename uri, const char *name, char value[VALUE_BYTES], int *rank) {
    const char *text = sqlite3_uri_parameter(uri, name), *path = sqlite3_uri_parameter(uri, "credentials");
    if (text) strcpy(value, strlen(text) < VALUE_BYTES ? text : "");
    *rank = 0;
    if (text) return true;
    *rank = 1;
    if (path && find_in_file(path, name, value)) return true;
    *rank = 2;
    return find_in_environment(name, value);
}

static bool find_setting(sqlite3_filename uri, const char *name, char value[VALUE_BYTES]) {
    int rank;
    return pagelog_find_setting(uri, name, value, &rank);
}

bool pagelog_read_number_of(const char *text, uint64_t most, uint64_t *number) {
    char *end;
    errno = 0;
    unsigned long long read = strtoull(text, &end, 10);
    if (!isdigit((unsigned char)text[0]) || *end || errno || read > most) return false;
    *number = read;
    return true;
}

/* Reads a number of at most `most`; false where there is a setting that is none. `*number` stays where there
 * is none. */
static bool read_setting(sqlite3_filename uri, const char *name, uint64_t most, uint64_t *number) {
    char text[VALUE_BYTES];
    return !find_setting(uri, name, text) || pagelog_read_number_of(text, most, number);
}

static int digit_of(char c) {
    return isdigit((unsigned char)c)    ? c - '0'
           : isxdigit((unsigned char)c) ? tolower((unsigned char)c) - 'a' + 10
                                        : -1;
}

static bool read_token(sqlite3_filename uri, const char *name, uint8_t token[PAGELOG_TOKEN_BYTES]) {
    char text[VALUE_BYTES];
    if (!find_setting(uri, name, text) || strlen(text) != 2 * PAGELOG_TOKEN_BYTES) return false;
    for (size_t i = 0; i < PAGELOG_TOKEN_BYTES; i++) {
        int high = digit_of(text[2 * i]), low = digit_of(text[2 * i + 1]);
        if (high < 0 || low < 0) return false;
        token[i] = (uint8_t)(high << 4 | low);
    }
    return true;
}

/* The settings of a writer's operator, if it has one. */
static bool read_operator(sqlite3_filename uri, struct pagelog_file_options *options) {
    uint64_t principal = UINT64_MAX;
    if (!read_setting(uri, "op", UINT32_MAX, &principal)) return false;
    if (principal == UINT64_MAX || options->reads_only) return true;
    options->has_operator = true;
    options->operator_principal = (uint32_t)principal;
    return read_token(uri, "optoken", options->operator_token);
}

unsigned pagelog_spin_of(uint64_t us) {
    return us == 0 ? PAGELOG_NO_SPIN : (unsigned)us;
}

/* Whether a URI names a database of keepers: the nearest place that has one of `to` and `where` decides. */
static bool is_of_keepers(sqlite3_filename uri, char where[VALUE_BYTES]) {
    bool has_address = sqlite3_uri_parameter(uri, "to") && !sqlite3_uri_parameter(uri, "where");
    return !has_address && find_setting(uri, "where", where);
}

/* Of `errors`. */
static const char *const shown = "stderr", *const hidden = "log";

bool pagelog_reads_shown(sqlite3_filename uri) {
    char text[VALUE_BYTES];
    if (!find_setting(uri, "errors", text)) return pagelog_shows_by_default();
    return strcmp(text, shown) == 0;
}

static bool is_shown_or_hidden(sqlite3_filename uri) {
    char text[VALUE_BYTES];
    return !find_setting(uri, "errors", text) || strcmp(text, shown) == 0 || strcmp(text, hidden) == 0;
}

/* Whether a reader goes to page servers; false where it says something else. */
static bool read_pages(sqlite3_filename uri, enum pagelog_pages *pages) {
    static const char *const words[] = {[PAGELOG_PAGES_PREFERRED] = "prefer",
                                        [PAGELOG_PAGES_FOR_OLDER] = "older",
                                        [PAGELOG_PAGES_NEVER] = "never",
                                        [PAGELOG_PAGES_ONLY] = "only"};
    char text[VALUE_BYTES];
    bool is_known = !find_setting(uri, "page_servers", text);
    for (unsigned i = 0; i < sizeof words / sizeof *words && !is_known; i++)
        if ((is_known = strcmp(text, words[i]) == 0)) *pages = (enum pagelog_pages)i;
    return is_known;
}

/* Where the database is: the name of the first setting that is wrong, or NULL. */
static const char *read_place(sqlite3_filename uri, struct pagelog_file_options *options,
                              struct settings *settings) {
    uint64_t move = 0, durable = 0;
    bool is_there = find_setting(uri, "to", settings->address);
    options->service.address = settings->address;
    if (sqlite3_uri_parameter(uri, "to") && sqlite3_uri_parameter(uri, "where")) return "where";
    if (!is_of_keepers(uri, settings->address)) return is_there ? NULL : "to";
    if (!find_setting(uri, "name", settings->name) || !*settings->name) return "name";
    if (!read_setting(uri, "move", MOST_MS, &move)) return "move";
    if (!read_setting(uri, "durable", 1, &durable)) return "durable";
    if (!read_pages(uri, &options->pages)) return "page_servers";
    options->keepers = settings->address;
    options->database_name = settings->name;
    options->move_ms = (unsigned)move;
    options->durable_only = durable == 1 && options->reads_only;
    return NULL;
}

/* Who asks for which database: the name of the first setting that is wrong, or NULL. */
static const char *read_principal(sqlite3_filename uri, struct pagelog_options *service) {
    uint64_t database = 0, id = UINT64_MAX;
    if (!read_setting(uri, "id", UINT32_MAX, &id) || id == UINT64_MAX) return "id";
    if (!read_token(uri, "token", service->token)) return "token";
    if (!read_setting(uri, "db", UINT32_MAX, &database)) return "db";
    service->principal = (uint32_t)id;
    service->database = (uint32_t)database;
    return NULL;
}

/* The landing zone, and to how many of its copies is written. */
static const char *read_zone(sqlite3_filename uri, struct pagelog_file_options *options) {
    uint64_t copies = 3, written = 0;
    if (!read_setting(uri, "copies", 6, &copies) || (copies != 3 && copies != 6)) return "copies";
    uint64_t wanted = copies == 6 ? 4 : 2, quorum = wanted;
    if (!read_setting(uri, "quorum", 4, &quorum) || quorum != wanted) return "quorum";
    if (!read_setting(uri, "written", copies, &written) || (written > 0 && written < quorum))
        return "written";
    options->service.copies = (unsigned)copies;
    options->service.quorum = (unsigned)quorum;
    options->written = (unsigned)written;
    return NULL;
}

/* How long is waited. */
static const char *read_waits(sqlite3_filename uri, struct pagelog_file_options *options) {
    uint64_t check = 0, timeout = 0, spin = DEFAULT_SPIN_US, unwaited = 0;
    if (!read_setting(uri, "check", MOST_MS, &check)) return "check";
    if (!read_setting(uri, "timeout", MOST_MS, &timeout)) return "timeout";
    uint64_t patience = timeout;
    if (!read_setting(uri, "patience", MOST_MS, &patience)) return "patience";
    if (!read_setting(uri, "spin", MOST_SPIN_US, &spin)) return "spin";
    if (!read_setting(uri, "async_commits", PAGELOG_WINDOW, &unwaited)) return "async_commits";
    options->service.connect_ms = options->service.reply_ms = (unsigned)timeout;
    options->service.patience_ms = (unsigned)patience;
    options->service.spin_us = pagelog_spin_of(spin);
    options->check_ms = (unsigned)check;
    options->unwaited = (unsigned)unwaited;
    return NULL;
}

const char *pagelog_read_settings(sqlite3_filename uri, struct pagelog_file_options *options,
                                  struct settings *settings) {
    uint64_t pages = 0, stale = 0, keep = MOST_KEPT_PAGES;
    const char *wrong = find_unknown(uri);
    settings->entries = MOST_ENTRIES;
    *settings->why = 0;
    settings->shows_errors = pagelog_reads_shown(uri);
    if (!wrong && strlen(uri) > PAGELOG_NAME_BYTES) wrong = "(name)";
    if (!wrong) wrong = read_place(uri, options, settings);
    if (!wrong) wrong = read_principal(uri, &options->service);
    if (!wrong) wrong = read_zone(uri, options);
    if (!wrong) wrong = read_waits(uri, options);
    if (!wrong && !is_shown_or_hidden(uri)) wrong = "errors";
    if (!wrong) wrong = pagelog_read_tls(uri, &options->service.tls, settings->why, sizeof settings->why);
    if (wrong) return wrong;
    if (!read_setting(uri, "at", PAGELOG_LAST_LSN, &options->at)) return "at";
    if (!read_setting(uri, "pages", UINT32_MAX, &pages)) return "pages";
    if (!read_setting(uri, "keep", MOST_KEPT_PAGES, &keep)) return "keep";
    if (!read_setting(uri, "stale", 1, &stale)) return "stale";
    if (!read_setting(uri, "audit", MOST_ENTRIES, &settings->entries) || settings->entries == 0)
        return "audit";
    options->reads_only = options->reads_only || options->at > 0;
    options->cache_pages = (size_t)pages;
    settings->most_kept = (size_t)keep;
    options->may_be_stale = stale == 1;
    options->name = uri;
    bool needs_operator = options->keepers && !options->reads_only; /* its writer begins epochs as it moves */
    return read_operator(uri, options) && (options->has_operator || !needs_operator) ? NULL : "op";
}
