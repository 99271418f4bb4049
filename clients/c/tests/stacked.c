/* An extension with a VFS "stacked" over "pagelog", as SQLite's multiplex: it opens a file by a name that it
 * has made itself, which has no parameters. */
#include <sqlite3ext.h>
#include <stddef.h>
SQLITE_EXTENSION_INIT1

static sqlite3_vfs stacked, *below;

static int open_file(sqlite3_vfs *vfs, const char *name, sqlite3_file *file, int flags, int *out_flags) {
    (void)vfs;
    const char *made = name ? sqlite3_create_filename(name, "", "", 0, NULL) : NULL;
    return below->xOpen(below, made, file, flags, out_flags); /* the name stays as long as this process */
}

__attribute__((visibility("default"))) int sqlite3_stacked_init(sqlite3 *db, char **error,
                                                                const sqlite3_api_routines *api) {
    (void)db, (void)error;
    SQLITE_EXTENSION_INIT2(api);
    below = sqlite3_vfs_find("pagelog");
    if (!below) return SQLITE_ERROR;
    stacked = *below;
    stacked.zName = "stacked";
    stacked.xOpen = open_file;
    int code = sqlite3_vfs_register(&stacked, 0);
    return code == SQLITE_OK ? SQLITE_OK_LOAD_PERMANENTLY : code;
}
