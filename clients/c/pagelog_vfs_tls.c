/* The settings of TLS, by libpq's words, and what this process has made of them: connections of one database
 * share it, with its sessions. */
#include "pagelog_vfs_inside.h"

#include <stdio.h>
#include <stdlib.h>
#include <string.h>

enum { FILES = 3 };

/* For each three files that were named, for as long as the process. */
struct made {
    struct made *next;
    char paths[FILES][VALUE_BYTES];
    struct pagelog_tls *tls;
};
static struct made *all_made;

void pagelog_forget_tls(void) {
    all_made = NULL; /* another thread of the parent may have been amid a use of them */
}

static struct made *find(char paths[FILES][VALUE_BYTES]) {
    struct made *made = all_made;
    while (made && memcmp(made->paths, paths, sizeof made->paths) != 0)
        made = made->next;
    return made;
}

/* That of these files, the paths of which have nothing behind their ends but zeros; NULL, and why. */
static struct pagelog_tls *tls_of(char paths[FILES][VALUE_BYTES], const bool has[FILES], char *why,
                                  size_t room) {
    const struct pagelog_tls_files files = {has[0] ? paths[0] : NULL, has[1] ? paths[1] : NULL,
                                            has[2] ? paths[2] : NULL};
    sqlite3_mutex *mutex = sqlite3_mutex_alloc(SQLITE_MUTEX_STATIC_VFS1);
    sqlite3_mutex_enter(mutex);
    struct made *made = find(paths);
    struct pagelog_tls *tls = made ? made->tls : pagelog_tls_new(&files, why, room);
    made = !made && tls ? calloc(1, sizeof *made) : NULL;
    if (made) {
        made->tls = tls;
        memcpy(made->paths, paths, sizeof made->paths);
        made->next = all_made;
        all_made = made;
    }
    sqlite3_mutex_leave(mutex);
    return tls;
}

const char *pagelog_read_tls(sqlite3_filename uri, struct pagelog_tls **tls, char *why, size_t room) {
    static const char *const names[FILES] = {"sslrootcert", "sslcert", "sslkey"};
    char mode[VALUE_BYTES] = "", paths[FILES][VALUE_BYTES] = {0};
    bool has[FILES];
    int rank, nearest = INT_MAX;
    for (size_t i = 0; i < FILES; i++) {
        has[i] = pagelog_find_setting(uri, names[i], paths[i], &rank);
        if (has[i] && rank < nearest) nearest = rank;
    }
    bool has_mode = pagelog_find_setting(uri, "sslmode", mode, &rank);
    bool is_off = has_mode && strcmp(mode, "disable") == 0;
    if (has_mode && !is_off && strcmp(mode, "verify-full") != 0) {
        snprintf(why, room, "sslmode is disable or verify-full, and not %s", mode);
        return "sslmode";
    }
    if (is_off && nearest <= rank) {
        snprintf(why, room, "sslmode=disable contradicts a CA or a certificate that is named beside it");
        return "sslmode";
    }
    if (is_off || (!has_mode && nearest == INT_MAX)) return NULL;
    *tls = tls_of(paths, has, why, room);
    return *tls ? NULL : "sslmode";
}
