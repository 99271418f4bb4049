/* A program that is linked with the VFS: a writer of the torture, as the one of kept_client.py, until its
 * standard input ends.
 *
 *   teller URI LEVEL
 *
 * Its last transaction waits until all of them are durable.
 */
#include "../pagelog_sha256.h"

#include <poll.h>
#include <sqlite3.h>
#include <stdbool.h>
#include <stdio.h>
#include <stdlib.h>
#include <string.h>
#include <time.h>
#include <unistd.h>

int pagelog_register_vfs(void);

enum {
    BETWEEN_COMMITS = 3000000
}; /* nanoseconds: else the archive is far behind, and nothing is handed over */

enum { ACCOUNTS = 50, MOST_TEXT = 3100, HASH_TEXT = 2 * PAGELOG_SHA256_BYTES + 1 };

static double longest;

static double now(void) {
    struct timespec time;
    clock_gettime(CLOCK_MONOTONIC, &time);
    return (double)time.tv_sec + (double)time.tv_nsec / 1e9;
}

/* The code of a text, in digits. */
static void hash_of(const char *text, char hash[HASH_TEXT]) {
    uint8_t code[PAGELOG_SHA256_BYTES];
    pagelog_hmac_sha256((const uint8_t *)"ledger", 6, text, strlen(text), code);
    for (size_t i = 0; i < sizeof code; i++)
        sprintf(hash + 2 * i, "%02x", code[i]);
}

/* One statement, the first row of which is a number and a text. */
static int run(sqlite3 *db, char *text, sqlite3_int64 *number, char *word, size_t room) {
    sqlite3_stmt *statement = NULL;
    double since = now();
    int code = sqlite3_prepare_v2(db, text, -1, &statement, NULL);
    while (code == SQLITE_OK && (code = sqlite3_step(statement)) == SQLITE_ROW) {
        if (number) *number = sqlite3_column_int64(statement, 0);
        const unsigned char *found = word ? sqlite3_column_text(statement, 1) : NULL;
        if (found) snprintf(word, room, "%s", (const char *)found);
        code = SQLITE_OK;
    }
    code = sqlite3_finalize(statement);
    if (code != SQLITE_OK) code = sqlite3_extended_errcode(db);
    if (now() - since > longest) longest = now() - since;
    sqlite3_free(text);
    return code;
}

static int change(sqlite3 *db, const char *table, int amount) {
    return run(
        db,
        sqlite3_mprintf("update %s set money = money + %d where id = %d", table, amount, rand() % ACCOUNTS),
        NULL, NULL, 0);
}

/* One transaction. `*last` is its number in the ledger, and `text` what it entered there. */
static int transfer(sqlite3 *db, int count, sqlite3_int64 *last, char text[MOST_TEXT]) {
    static const int sizes[] = {10, 10, 10, 200, 3000}, changes[] = {1, 1, 1, 1, 5, 40};
    char before[HASH_TEXT] = "", hash[HASH_TEXT], both[HASH_TEXT + MOST_TEXT];
    int left = changes[rand() % 6], code = run(db, sqlite3_mprintf("begin immediate"), NULL, NULL, 0);
    for (; left > 0 && code == SQLITE_OK; left--) {
        int amount = 1 + rand() % 99, turn = rand() % 2;
        code = change(db, turn ? "account" : "saving", amount);
        if (code == SQLITE_OK) code = change(db, turn ? "saving" : "account", -amount);
    }
    *last = 0;
    if (code == SQLITE_OK)
        code = run(db, sqlite3_mprintf("select number, hash from ledger order by number desc limit 1"), last,
                   before, sizeof before);
    int length = snprintf(text, MOST_TEXT, "c%d ", count), size = sizes[rand() % 5];
    memset(text + length, '.', (size_t)size);
    text[length + size] = 0;
    snprintf(both, sizeof both, "%s%s", before, text);
    hash_of(both, hash);
    ++*last;
    if (code == SQLITE_OK)
        code = run(db, sqlite3_mprintf("insert into ledger values (%lld, %Q, %Q)", *last, text, hash), NULL,
                   NULL, 0);
    return code == SQLITE_OK ? run(db, sqlite3_mprintf("commit"), NULL, NULL, 0) : code;
}

/* Why the last statement was not done. */
static void say_why(sqlite3 *db, int code) {
    char why[256] = "";
    run(db, sqlite3_mprintf("select 0, pagelog_error from pragma_pagelog_error"), NULL, why, sizeof why);
    printf("{\"told\": \"%d\", \"why\": \"%s: %s\"}\n", code, sqlite3_errstr(code), why);
}

static sqlite3_int64 number_of(sqlite3 *db, const char *name) {
    sqlite3_int64 number = 0;
    run(db, sqlite3_mprintf("pragma pagelog_%s", name), &number, NULL, 0);
    return number;
}

static int is_over(void) {
    struct pollfd fd = {.fd = 0, .events = POLLIN};
    char byte;
    return poll(&fd, 1, 0) > 0 && read(0, &byte, 1) <= 0;
}

int main(int count, char **words) {
    sqlite3 *db = NULL;
    char text[MOST_TEXT], hash[HASH_TEXT];
    if (count != 3 || pagelog_register_vfs() != SQLITE_OK) return 2;
    setvbuf(stdout, NULL, _IOLBF, 0);
    srand((unsigned)getpid());
    int code = sqlite3_open_v2(words[1], &db, SQLITE_OPEN_READWRITE | SQLITE_OPEN_URI, "pagelog");
    if (code != SQLITE_OK) return 3;
    sqlite3_busy_timeout(db, 300000);
    run(db, sqlite3_mprintf("pragma synchronous = %s", words[2]), NULL, NULL, 0);
    bool is_normal = strcmp(words[2], "normal") == 0, is_last = false;
    for (int number = 1; !is_last; number++) {
        const struct timespec pause = {.tv_nsec = is_normal ? BETWEEN_COMMITS : 0};
        sqlite3_int64 last;
        is_last = is_over();
        if (is_last) run(db, sqlite3_mprintf("pragma synchronous = full"), NULL, NULL, 0);
        nanosleep(&pause, NULL);
        code = transfer(db, number, &last, text);
        hash_of(text, hash);
        if (code == SQLITE_OK)
            printf("{\"done\": %lld, \"hash\": \"%s\"}\n", last, hash);
        else
            say_why(db, code);
        if (code != SQLITE_OK) is_last = false;
        if (!sqlite3_get_autocommit(db)) run(db, sqlite3_mprintf("rollback"), NULL, NULL, 0);
    }
    sqlite3_int64 moves = number_of(db, "moves"), resent = number_of(db, "resent");
    printf("{\"end\": true, \"longest\": %.3f, \"moves\": %lld, \"resent\": %lld}\n", longest, moves, resent);
    return sqlite3_close(db) == SQLITE_OK ? 0 : 4;
}
