/* A connection that a child of fork() has inherited. Its socket and its locks are the parent's: it refuses to
 * be used, and closes without a word to the service. Its database is left as it is, since another thread of
 * the parent may have been amid a change. */
#include "pagelog_vfs_inside.h"

#include <unistd.h>

static int inherited_close(sqlite3_file *file) {
    (void)file;
    return SQLITE_OK;
}

static int inherited_read(sqlite3_file *file, void *bytes, int length, sqlite3_int64 offset) {
    (void)file, (void)bytes, (void)length, (void)offset;
    return SQLITE_IOERR;
}

static int inherited_write(sqlite3_file *file, const void *bytes, int length, sqlite3_int64 offset) {
    (void)file, (void)bytes, (void)length, (void)offset;
    return SQLITE_IOERR;
}

static int inherited_truncate(sqlite3_file *file, sqlite3_int64 size) {
    (void)file, (void)size;
    return SQLITE_IOERR;
}

static int inherited_sync(sqlite3_file *file, int flags) {
    (void)file, (void)flags;
    return SQLITE_IOERR;
}

static int inherited_size(sqlite3_file *file, sqlite3_int64 *size) {
    (void)file;
    *size = 0;
    return SQLITE_MISUSE;
}

static int inherited_lock(sqlite3_file *file, int lock) {
    if (lock <= ((struct connection *)file)->lock) return SQLITE_OK;
    sqlite3_log(SQLITE_MISUSE, "pagelog: a connection that was opened before a fork is the parent's");
    return SQLITE_MISUSE;
}

static int inherited_unlock(sqlite3_file *file, int lock) {
    ((struct connection *)file)->lock = lock;
    return SQLITE_OK;
}

static int inherited_check_reserved_lock(sqlite3_file *file, int *is_reserved) {
    (void)file;
    *is_reserved = 0;
    return SQLITE_OK;
}

static int inherited_control(sqlite3_file *file, int operation, void *argument) {
    (void)file, (void)argument;
    return operation == SQLITE_FCNTL_SYNC || operation == SQLITE_FCNTL_PRAGMA ? SQLITE_MISUSE
                                                                              : SQLITE_NOTFOUND;
}

static int inherited_sector_size(sqlite3_file *file) {
    (void)file;
    return LEAST_SECTOR_BYTES;
}

static int inherited_device_characteristics(sqlite3_file *file) {
    (void)file;
    return CHARACTERISTICS;
}

void pagelog_disown_connection(struct connection *connection) {
    static const sqlite3_io_methods methods = {
        .iVersion = 1,
        .xClose = inherited_close,
        .xRead = inherited_read,
        .xWrite = inherited_write,
        .xTruncate = inherited_truncate,
        .xSync = inherited_sync,
        .xFileSize = inherited_size,
        .xLock = inherited_lock,
        .xUnlock = inherited_unlock,
        .xCheckReservedLock = inherited_check_reserved_lock,
        .xFileControl = inherited_control,
        .xSectorSize = inherited_sector_size,
        .xDeviceCharacteristics = inherited_device_characteristics,
    };
    if (connection->keepers) pagelog_keepers_abandon(connection->keepers);
    if (connection->woken >= 0) close(connection->woken);
    connection->base.pMethods = &methods;
}
