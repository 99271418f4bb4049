/* A journal, by which SQLite rolls back: a file in this process' memory. */
#include "pagelog_vfs_inside.h"

#include <string.h>

/* Of a journal: the room that it begins with, and the most that is kept for the next one. */
enum { JOURNAL_BYTES = 65536, MOST_KEPT = 4 << 20 };

/* A journal takes the room of the one before it, so that not each transaction asks the system for memory. */
static void take_room(struct memory *memory) {
    struct database *database = memory->database;
    sqlite3_mutex_enter(database->mutex);
    memory->bytes = database->room;
    memory->room = database->room ? database->room_bytes : 0;
    database->room = NULL;
    sqlite3_mutex_leave(database->mutex);
}

static void give_back_room(struct memory *memory) {
    struct database *database = memory->database;
    sqlite3_mutex_enter(database->mutex);
    if (!database->room && memory->room <= MOST_KEPT) {
        database->room = memory->bytes;
        database->room_bytes = memory->room;
        memory->bytes = NULL;
    }
    sqlite3_mutex_leave(database->mutex);
}

static int memory_close(sqlite3_file *file) {
    struct memory *memory = (struct memory *)file;
    bool is_kept = memory->database && !memory->is_super && !memory->database->is_inherited;
    if (is_kept) give_back_room(memory);
    sqlite3_free(memory->bytes);
    memory->bytes = NULL;
    return SQLITE_OK;
}

static int memory_read(sqlite3_file *file, void *bytes, int length, sqlite3_int64 offset) {
    struct memory *memory = (struct memory *)file;
    sqlite3_int64 left = offset < memory->size ? memory->size - offset : 0;
    size_t count = left < length ? (size_t)left : (size_t)length;
    if (count > 0) memcpy(bytes, memory->bytes + offset, count);
    memset((char *)bytes + count, 0, (size_t)length - count);
    return count < (size_t)length ? SQLITE_IOERR_SHORT_READ : SQLITE_OK;
}

/* A journal that names a super-journal is not rolled back where that is gone, as it always is here. So it
 * has zeros for the end of that name, and not what a journal that persists had there. */
static int memory_write(sqlite3_file *file, const void *bytes, int length, sqlite3_int64 offset) {
    static const unsigned char no_end[8];
    struct memory *memory = (struct memory *)file;
    sqlite3_int64 end = offset + length;
    if (!memory->is_super && pagelog_is_end_of_name(bytes, length)) bytes = no_end;
    int code = memory->is_super ? pagelog_take_name(memory, bytes) : SQLITE_OK;
    if (code != SQLITE_OK) return code;
    if (end > memory->room) {
        sqlite3_int64 room = memory->room > 0 ? 2 * memory->room : JOURNAL_BYTES;
        if (room < end) room = end + SECTOR_BYTES;
        unsigned char *grown = sqlite3_realloc64(memory->bytes, (sqlite3_uint64)room);
        if (!grown) return SQLITE_IOERR_NOMEM;
        memory->bytes = grown;
        memory->room = room;
    }
    if (offset > memory->size) memset(memory->bytes + memory->size, 0, (size_t)(offset - memory->size));
    memcpy(memory->bytes + offset, bytes, (size_t)length);
    if (end > memory->size) memory->size = end;
    return SQLITE_OK;
}

static int memory_truncate(sqlite3_file *file, sqlite3_int64 size) {
    struct memory *memory = (struct memory *)file;
    if (size < memory->size) memory->size = size;
    return SQLITE_OK;
}

static int memory_sync(sqlite3_file *file, int flags) {
    (void)file, (void)flags;
    return SQLITE_OK;
}

static int memory_size(sqlite3_file *file, sqlite3_int64 *size) {
    *size = ((struct memory *)file)->size;
    return SQLITE_OK;
}

static int memory_lock(sqlite3_file *file, int lock) {
    (void)file, (void)lock;
    return SQLITE_OK;
}

static int memory_check_reserved_lock(sqlite3_file *file, int *is_reserved) {
    (void)file;
    *is_reserved = 0;
    return SQLITE_OK;
}

static int memory_control(sqlite3_file *file, int operation, void *argument) {
    (void)file, (void)operation, (void)argument;
    return SQLITE_NOTFOUND;
}

static int memory_sector_size(sqlite3_file *file) {
    (void)file;
    return LEAST_SECTOR_BYTES;
}

static int memory_device_characteristics(sqlite3_file *file) {
    (void)file;
    return CHARACTERISTICS;
}

static const sqlite3_io_methods memory_methods = {
    .iVersion = 1,
    .xClose = memory_close,
    .xRead = memory_read,
    .xWrite = memory_write,
    .xTruncate = memory_truncate,
    .xSync = memory_sync,
    .xFileSize = memory_size,
    .xLock = memory_lock,
    .xUnlock = memory_lock,
    .xCheckReservedLock = memory_check_reserved_lock,
    .xFileControl = memory_control,
    .xSectorSize = memory_sector_size,
    .xDeviceCharacteristics = memory_device_characteristics,
};

void pagelog_open_journal(struct memory *memory, struct database *database, bool is_super) {
    memset(memory, 0, sizeof *memory);
    memory->base.pMethods = &memory_methods;
    memory->is_super = is_super;
    memory->database = database;
    if (database) take_room(memory);
}
