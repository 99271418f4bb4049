/* A program that is linked with the VFS: a writer, a second one that fences it, a reader, and opens that
 * fail, for want of memory too. The sanitizers see at its end whether all memory was given back.
 *
 *   statements ADDRESS
 */
#include "../pagelog_vfs.h"

#include <sqlite3.h>
#include <stdio.h>
#include <string.h>

static int failures;

static void expect(const char *what, int wanted, int found) {
    if (wanted == found) return;
    printf("%s: wanted %d, found %d\n", what, wanted, found);
    failures++;
}

static sqlite3 *open_as(const char *address, const char *words, int wanted) {
    sqlite3 *db = NULL;
    char uri[400];
    sqlite3_snprintf(sizeof uri, uri, "file:x?to=%s&%s", address, words);
    expect(words, wanted, sqlite3_open_v2(uri, &db, SQLITE_OPEN_READWRITE | SQLITE_OPEN_URI, "pagelog"));
    if (wanted == SQLITE_OK) return db;
    sqlite3_close(db);
    return NULL;
}

static void run(sqlite3 *db, const char *text, int wanted) {
    expect(text, wanted, sqlite3_exec(db, text, NULL, NULL, NULL));
}

/* What the last statement says, with why it has failed. */
static void expect_message(const char *wanted, sqlite3 *db) {
    const char *found = pagelog_explain_message(db, sqlite3_errmsg(db));
    if (strcmp(wanted, found) == 0) return;
    printf("wanted %s, found %s\n", wanted, found);
    failures++;
}

static sqlite3_mutex_methods mutexes;
static int refuses_mutexes;

/* A mutex of a database, as SQLite gives it, unless it is refused. */
static sqlite3_mutex *make_mutex(int kind) {
    return refuses_mutexes && kind == SQLITE_MUTEX_FAST ? NULL : mutexes.xMutexAlloc(kind);
}

/* Has SQLite ask for its mutexes by the function above. */
static void take_mutexes(void) {
    sqlite3_initialize();
    sqlite3_shutdown();
    expect("SQLite's mutexes", SQLITE_OK, sqlite3_config(SQLITE_CONFIG_GETMUTEX, &mutexes));
    sqlite3_mutex_methods own = mutexes;
    own.xMutexAlloc = make_mutex;
    expect("mutexes", SQLITE_OK, sqlite3_config(SQLITE_CONFIG_MUTEX, &own));
}

#define READS   "attempt to write a readonly database:"
#define TOKEN_1 "11111111111111111111111111111111"
#define TOKEN_2 "22222222222222222222222222222222"
#define TOKEN_3 "33333333333333333333333333333333"
#define TOKEN_5 "55555555555555555555555555555555"

int main(int count, char **words) {
    const char *address = words[count - 1];
    take_mutexes();
    expect("register", SQLITE_OK, pagelog_register_vfs());
    open_as(address, "id=2", SQLITE_MISUSE);
    open_as(address, "id=2&token=" TOKEN_3, SQLITE_PERM);
    open_as("127.0.0.1:1", "timeout=20&id=2&token=" TOKEN_2, SQLITE_CANTOPEN);
    refuses_mutexes = 1;
    open_as(address, "mode=ro&id=3&token=" TOKEN_3, SQLITE_NOMEM);
    refuses_mutexes = 0;
    sqlite3 *one = open_as(address, "id=2&token=" TOKEN_2 "&op=1&optoken=" TOKEN_1, SQLITE_OK);
    sqlite3 *same = open_as(address, "id=2&token=" TOKEN_2 "&op=1&optoken=" TOKEN_1, SQLITE_OK);
    run(one, "create table t(a, b); insert into t values (1, randomblob(100000)), (2, zeroblob(50000));",
        SQLITE_OK);
    run(same, "begin; update t set b = randomblob(20000); savepoint s; delete from t; rollback to s; commit",
        SQLITE_OK);
    run(one, "begin; insert into t select a, b from t; rollback", SQLITE_OK);
    run(one, "pragma pagelog; pragma pagelog_lsn; pragma pagelog_check = 10; vacuum", SQLITE_OK);
    sqlite3 *follower = open_as(address, "mode=ro&id=3&token=" TOKEN_3, SQLITE_OK);
    run(follower, "begin; select total(length(b)) from t", SQLITE_OK);
    sqlite3 *two = open_as(address, "id=5&token=" TOKEN_5 "&op=1&optoken=" TOKEN_1, SQLITE_OK);
    run(two, "insert into t values (3, 3)", SQLITE_OK);
    run(one, "insert into t values (4, 4)", SQLITE_READONLY);
    run(one, "begin; select a from t; insert into t values (4, 4)", SQLITE_READONLY);
    expect_message(READS " pagelog: fenced: epoch 2 is over, the current one is 3", one);
    run(follower, "commit; insert into t values (5, 5)", SQLITE_READONLY);
    expect_message("attempt to write a readonly database", follower);
    run(one, "select * from none", SQLITE_ERROR);
    expect_message("no such table: none", one);
    run(one, "commit; select a from t; pragma query_only = 1; insert into t values (5, 5)", SQLITE_READONLY);
    expect_message("attempt to write a readonly database", one); /* SQLite's own, for another reason */
    run(follower, "select count(*) from t", SQLITE_OK);
    sqlite3 *all[] = {one, same, follower, two};
    for (size_t i = 0; i < sizeof all / sizeof *all; i++)
        expect("close", SQLITE_OK, sqlite3_close(all[i]));
    sqlite3_shutdown();
    printf("%d failures\n", failures);
    return failures > 0;
}
