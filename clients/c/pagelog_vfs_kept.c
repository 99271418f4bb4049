/* Pages that this process keeps when it closes a database, for its next connection: a program that opens one
 * for each task would read all of it again each time. They are used where the log has their transaction. */
#include "pagelog_vfs_inside.h"

#include <string.h>

enum { MOST_DATABASES = 4 };

struct kept {
    struct kept *next;
    char *key, *address, *name; /* of the database, and of who has read it */
    struct pagelog_kept *pages;
};

static struct kept *newest;

/* The one of vfs_database.c: no thread is amid a change of the list while this process forks. */
static sqlite3_mutex *list_mutex(void) {
    return sqlite3_mutex_alloc(SQLITE_MUTEX_STATIC_VFS1);
}

static void forget(struct kept *kept) {
    if (!kept) return;
    pagelog_kept_free(kept->pages);
    sqlite3_free(kept->key);
    sqlite3_free(kept->address);
    sqlite3_free(kept->name);
    sqlite3_free(kept);
}

static bool is_of(const struct kept *kept, const struct database *database) {
    return strcmp(kept->key, database->key) == 0 && strcmp(kept->address, database->address) == 0 &&
           strcmp(kept->name, database->name) == 0;
}

/* Takes those behind the newest out of the list that are too many. */
static struct kept *cut_list(void) {
    struct kept **at = &newest, *rest;
    size_t pages = 0;
    for (unsigned count = 0; *at; at = &(*at)->next, count++) {
        pages += pagelog_kept_count((*at)->pages);
        if (count == MOST_DATABASES || pages > MOST_KEPT_PAGES) break;
    }
    rest = *at;
    *at = NULL;
    return rest;
}

/* Puts them before the others, the oldest of which may go for it. */
static void list(struct kept *made) {
    sqlite3_mutex_enter(list_mutex());
    made->next = newest;
    newest = made;
    struct kept *rest = cut_list();
    sqlite3_mutex_leave(list_mutex());
    for (struct kept *next; rest; rest = next) {
        next = rest->next;
        forget(rest);
    }
}

void pagelog_keep_pages(struct database *database) {
    if (!database->file || !database->is_open || database->is_inherited || database->most_kept == 0) return;
    struct pagelog_kept *pages = pagelog_file_keep(database->file, database->most_kept);
    struct kept *made = pages ? sqlite3_malloc(sizeof *made) : NULL;
    if (!made) {
        pagelog_kept_free(pages);
        return;
    }
    *made = (struct kept){.key = sqlite3_mprintf("%s", database->key),
                          .address = sqlite3_mprintf("%s", database->address),
                          .name = sqlite3_mprintf("%s", database->name),
                          .pages = pages};
    if (made->key && made->address && made->name)
        list(made);
    else
        forget(made);
}

void pagelog_take_kept_pages(struct database *database) {
    if (database->most_kept == 0) return;
    sqlite3_mutex_enter(list_mutex());
    struct kept **at = &newest;
    while (*at && !is_of(*at, database))
        at = &(*at)->next;
    struct kept *found = *at;
    if (found) *at = found->next;
    sqlite3_mutex_leave(list_mutex());
    if (!found) return;
    pagelog_file_adopt(database->file, found->pages);
    found->pages = NULL;
    forget(found);
}
