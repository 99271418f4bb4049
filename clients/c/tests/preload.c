/* For programs that load no extensions: LD_PRELOAD of this library registers the VFS before their first open.
 *
 *   make out/pagelog_preload.so
 *   LD_PRELOAD=out/pagelog_preload.so speedtest1 --vfs pagelog 'file:x?to=...'
 *
 * SQLite is not initialized any earlier: until then a program may configure it. */
#include "../pagelog_vfs.h"

#include <dlfcn.h>
#include <pthread.h>
#include <sqlite3.h>
#include <stdbool.h>

static pthread_once_t once = PTHREAD_ONCE_INIT;
static _Thread_local bool is_registering;

static void do_register(void) {
    is_registering = true;
    if (sqlite3_initialize() == SQLITE_OK) pagelog_register_vfs();
    pagelog_show_errors();
    is_registering = false;
}

/* What SQLite itself would do at these calls. Those that the registration makes pass. */
static void *function_of(const char *name) {
    if (!is_registering) pthread_once(&once, do_register);
    return dlsym(RTLD_NEXT, name);
}

int sqlite3_open(const char *name, sqlite3 **db) {
    int (*function)(const char *, sqlite3 **) = function_of("sqlite3_open");
    return function(name, db);
}

int sqlite3_open16(const void *name, sqlite3 **db) {
    int (*function)(const void *, sqlite3 **) = function_of("sqlite3_open16");
    return function(name, db);
}

int sqlite3_open_v2(const char *name, sqlite3 **db, int flags, const char *vfs) {
    int (*function)(const char *, sqlite3 **, int, const char *) = function_of("sqlite3_open_v2");
    return function(name, db, flags, vfs);
}

const char *sqlite3_errmsg(sqlite3 *db) {
    const char *(*function)(sqlite3 *) = function_of("sqlite3_errmsg");
    return pagelog_explain_message(db, function(db));
}

sqlite3_vfs *sqlite3_vfs_find(const char *name) {
    sqlite3_vfs *(*function)(const char *) = function_of("sqlite3_vfs_find");
    return function(name);
}
