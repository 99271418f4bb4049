/* The super-journal of a COMMIT to several databases. Nothing of it outlives this process, so that it is
 * never there when SQLite looks for it. */
#include "pagelog_vfs_inside.h"

#include <string.h>

/* A plain file that is written to together with others is rolled back after a crash only if the super-journal
 * is still there, and this one never is. So there is no COMMIT to a file whose journal is on the disk. */
static int refuse_plain_file(struct database *database, const char *journal) {
    static const char reason[] = "a plain file that is attached is not written to in one COMMIT with others";
    int is_there = 0;
    int code = pagelog_real_vfs->xAccess(pagelog_real_vfs, journal, SQLITE_ACCESS_EXISTS, &is_there);
    if (code != SQLITE_OK || !is_there) return code;
    sqlite3_log(SQLITE_CANTOPEN, "pagelog: %s", reason);
    if (!database) return SQLITE_CANTOPEN;
    sqlite3_mutex_enter(database->mutex);
    strcpy(database->error, reason);
    return leave(database, SQLITE_CANTOPEN);
}

int pagelog_take_name(struct memory *super, const char *name) {
    struct database *database = pagelog_database_of_name(name);
    if (!database) return refuse_plain_file(super->database, name);
    if (!super->database) super->database = database;
    return SQLITE_OK;
}

bool pagelog_is_end_of_name(const void *bytes, int length) {
    static const unsigned char magic[] = {0xd9, 0xd5, 0x05, 0xf9, 0x20, 0xa1, 0x63, 0xd7};
    return length == sizeof magic && memcmp(bytes, magic, sizeof magic) == 0;
}
