/* Pages that outlive the file which has read them, for the next one of the same database. */
#include "pagelog_file_inside.h"

#include <stdlib.h>
#include <string.h>

struct pagelog_kept {
    struct pagelog_cache *cache;
    struct mark mark;                      /* of the transaction that they are of */
    char database[PAGELOG_IDENTITY_BYTES]; /* of a named one; else empty */
};

/* The database whose pages another file may go on with, empty where it has no name; NULL: not those of the
 * page server that the file is at. */
static const char *database_of(const struct pagelog_file *file) {
    const struct pagelog_place *place = pagelog_file_place(file);
    if (!place) return "";
    return place->is_page_server ? NULL : place->database;
}

/* Whether what is in memory is the transaction of the mark, and that is in the log as far as is known. */
static bool is_of_mark(const struct pagelog_file *file) {
    bool is_lost = file->standing == BROKEN || pagelog_is_restarted(file->log);
    return file->reading == OPEN && !is_lost && file->on_their_way == 0 && !is_none(file->mark.position) &&
           database_of(file);
}

struct pagelog_kept *pagelog_file_keep(struct pagelog_file *file, size_t most) {
    if (!is_of_mark(file)) return NULL;
    pagelog_file_undo(file);
    pagelog_cache_trim(file->cache, most);
    if (pagelog_cache_count(file->cache) == 0) return NULL;
    struct pagelog_kept *kept = calloc(1, sizeof *kept);
    struct pagelog_cache *empty = pagelog_cache_new(pagelog_cache_most(file->cache));
    if (!kept || !empty) {
        free(kept);
        pagelog_cache_free(empty);
        return NULL;
    }
    *kept = (struct pagelog_kept){.cache = file->cache, .mark = file->mark};
    strcpy(kept->database, database_of(file));
    file->cache = empty;
    return kept;
}

void pagelog_kept_free(struct pagelog_kept *kept) {
    if (!kept) return;
    pagelog_cache_free(kept->cache);
    free(kept);
}

size_t pagelog_kept_count(const struct pagelog_kept *kept) {
    return pagelog_cache_count(kept->cache);
}

/* Whether the log has this mark too, so that a reader may follow from there; then it is at that, and the next
 * begin follows. A fixed or a stale reader would stay there. */
static bool goes_back(struct pagelog_file *file, const struct mark *wanted) {
    const struct pagelog_file_options *options = &file->options;
    const uint32_t number = MARK_PAGE;
    uint8_t page[PAGELOG_PAGE_BYTES];
    struct mark found;
    bool follows = options->reads_only && !options->at && !options->may_be_stale;
    bool is_near = is_before(wanted->position, file->mark.position) &&
                   distance(wanted->position, file->mark.position) < FAR_BEHIND;
    if (!follows || !is_near) return false;
    if (get_at(file, PAGELOG_SECONDARY, wanted->position, &number, 1, page) != PAGELOG_DONE) return false;
    if (!pagelog_read_mark(file, page, &found) || !pagelog_is_same_mark(&found, wanted)) return false;
    file->mark = found;
    file->next = next_of(found.position);
    file->pending.length = 0;
    file->size = file->least = found.size;
    file->told_session = 0;
    file->is_far = false;
    file->checked = 0;
    return true;
}

void pagelog_file_adopt(struct pagelog_file *file, struct pagelog_kept *kept) {
    const struct mark *mark = &kept->mark;
    const char *database = database_of(file);
    bool is_own = database && strcmp(kept->database, database) == 0 &&
                  pagelog_cache_most(kept->cache) == pagelog_cache_most(file->cache);
    bool is_there = is_own && !is_none(lsn_of(file, mark->position));
    if (is_there && (pagelog_is_same_mark(mark, &file->mark) || goes_back(file, mark))) {
        pagelog_cache_free(file->cache);
        file->cache = kept->cache;
        kept->cache = NULL;
    }
    pagelog_kept_free(kept);
}
