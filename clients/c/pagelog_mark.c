/* The end mark: its bytes, how it is found, and how it ends the blocks of a transaction. */
#include "pagelog_file_inside.h"

#include <stdio.h>
#include <string.h>

static const uint8_t magic[8] = {'p', 'l', 'f', 'i', 'l', 'e', '0', '1'};

/* Zeros of a block, at most. Each page of a file has one at least, so that a log bounds the size of its file:
 * a mark beyond that is forged, and a writer that believed it would write zeros for hours. */
enum { MOST_ZEROS = PAGELOG_BLOCK_BYTES / PAGELOG_ZERO_BYTES };

/* What the mark of page 0 says where it is. */
static struct pagelog_position position_said(const uint8_t *page) {
    return (struct pagelog_position){pagelog_read_number(page + sizeof magic, 8)};
}

bool pagelog_read_mark(const struct pagelog_file *file, const uint8_t *page, struct mark *mark) {
    static const uint8_t zeros[MARK_BYTES];
    memset(mark, 0, sizeof *mark);
    if (memcmp(page, zeros, MARK_BYTES) == 0) return true;
    if (memcmp(page, magic, sizeof magic) != 0) return false;
    mark->position = position_said(page);
    mark->size = pagelog_read_number(page + 16, 8);
    mark->session = pagelog_read_number(page + 24, 8);
    mark->transaction = pagelog_read_number(page + 32, 8);
    if (mark->size > PAGELOG_FILE_MOST) return false;
    uint64_t least = ((uint64_t)pages_of(mark->size) + MOST_ZEROS - 1) / MOST_ZEROS;
    return !is_none(lsn_of(file, mark->position)) && mark->position.number >= least;
}

bool pagelog_is_same_mark(const struct mark *one, const struct mark *other) {
    return is_at(one->position, other->position) && one->session == other->session &&
           one->transaction == other->transaction;
}

static void write_mark(uint8_t *bytes, const struct mark *mark) {
    memcpy(bytes, magic, sizeof magic);
    uint8_t *at = pagelog_write_number(bytes + sizeof magic, mark->position.number, 8);
    at = pagelog_write_number(at, mark->size, 8);
    at = pagelog_write_number(at, mark->session, 8);
    pagelog_write_number(at, mark->transaction, 8);
}

bool pagelog_has_mark(const struct pagelog_file *file, const uint8_t *block, struct mark *mark) {
    struct pagelog_records records;
    struct pagelog_record record = {0}, last = {0};
    pagelog_records_begin(&records, block);
    while (pagelog_records_next(&records, &record))
        last = record;
    return last.page == MARK_PAGE && last.offset == 0 && last.length == MARK_BYTES &&
           pagelog_read_mark(file, last.bytes, mark) && lsn_of(file, mark->position).number == records.lsn;
}

/* Bytes of a Put's head. */
enum { PUT_BYTES = 9 };

enum pagelog_outcome pagelog_append_here(struct pagelog_file *file) {
    if (file->tell_sent && pagelog_append_unwaited(file->log, file->blocks, file->options.written))
        file->tell_sent(file->told_sent);
    return pagelog_append(file->log, file->blocks, file->options.written);
}

enum pagelog_outcome pagelog_append_ended(struct pagelog_file *file) {
    size_t count = pagelog_blocks_count(file->blocks);
    uint64_t asked = pagelog_now();
    enum pagelog_outcome outcome = file->source.calls->append(file);
    if (outcome != PAGELOG_DONE) return outcome;
    pagelog_blocks_drop(file->blocks, count);
    file->blocks_written += count;
    file->checked = file->on_their_way > 0 ? file->sent : asked;
    file->on_their_way = 0;
    return PAGELOG_DONE;
}

enum pagelog_outcome pagelog_append_full_group(struct pagelog_file *file) {
    return pagelog_blocks_count(file->blocks) >= GROUP ? pagelog_append_ended(file) : PAGELOG_DONE;
}

/* Whether page 0 has this name. */
static bool has_name(const uint8_t *page, const char *name) {
    size_t length = strlen(name);
    return length > 0 && page[NAME_PLACE] == length && memcmp(page + NAME_PLACE + 1, name, length) == 0;
}

/* A copy has the name of another one, up to where it was copied, and until a writer gives it its own. */
bool pagelog_is_misnamed(const struct pagelog_file *file, const uint8_t *page) {
    const struct pagelog_place *place = pagelog_file_place(file);
    if (!*file->name || page[NAME_PLACE] == 0 || has_name(page, file->name)) return false;
    if (!place || strcmp(file->name, file->source.name) != 0) return true;
    bool is_copied = !is_before(place->copied, position_said(page));
    return !is_copied && !has_name(page, place->ancestor);
}

enum pagelog_outcome pagelog_refuse_name(struct pagelog_file *file, const uint8_t *page) {
    char name[PAGELOG_NAME_BYTES + 1];
    size_t length = page[NAME_PLACE];
    for (size_t i = 0; i < length; i++) {
        uint8_t byte = page[NAME_PLACE + 1 + i];
        name[i] = (char)(byte < ' ' || byte == 0x7f ? '?' : byte); /* it may be another's, and is shown */
    }
    name[length] = 0;
    file->is_misnamed = true;
    snprintf(file->words, sizeof file->words, "the database has the name %s, and not %s", name, file->name);
    return pagelog_file_fail(file, PAGELOG_MALFORMED, file->words);
}

/* Adds the name of the database, which page 0 has after the mark. */
static enum pagelog_outcome add_name(struct pagelog_file *file) {
    uint8_t bytes[1 + PAGELOG_NAME_BYTES];
    size_t length = strlen(file->name);
    if (length == 0) return PAGELOG_DONE;
    bytes[0] = (uint8_t)length;
    memcpy(bytes + 1, file->name, length);
    return pagelog_blocks_put(file->blocks, MARK_PAGE, NAME_PLACE, bytes, (uint16_t)(1 + length));
}

/* Where zeros, a name or an origin come before the mark, all are in one block: nobody sees the page without
 * its mark. */
enum pagelog_outcome pagelog_add_mark(struct pagelog_file *file, struct mark *mark) {
    enum { NAME = PUT_BYTES + 1 + PAGELOG_NAME_BYTES, ORIGIN = PUT_BYTES + ORIGIN_BYTES };
    uint8_t bytes[MARK_BYTES];
    mark->session = file->session; /* the blocks before may have moved the file to another run */
    bool is_image = mark->transaction % IMAGE_EACH == 0,
         adds_name = *file->name && (is_image || !file->has_name),
         adds_origin = pagelog_file_place(file) && (is_image || file->told_session != file->session);
    size_t before = (size_t)PAGELOG_ZERO_BYTES + (adds_name ? NAME : 0) + (adds_origin ? ORIGIN : 0);
    enum pagelog_outcome outcome = PAGELOG_DONE;
    struct pagelog_lsn lsn = {pagelog_blocks_room(file->blocks, MARK_PAGE, (uint16_t)(before + MARK_BYTES))};
    if (is_none(lsn)) return PAGELOG_NO_MEMORY;
    mark->position = position_of(file, lsn);
    write_mark(bytes, mark);
    if (is_image) outcome = pagelog_blocks_zero(file->blocks, MARK_PAGE);
    if (outcome == PAGELOG_DONE && adds_name) outcome = add_name(file);
    if (outcome == PAGELOG_DONE && adds_origin) outcome = pagelog_add_origin(file);
    if (outcome == PAGELOG_DONE) outcome = pagelog_blocks_put(file->blocks, MARK_PAGE, 0, bytes, MARK_BYTES);
    return outcome == PAGELOG_DONE ? pagelog_blocks_end(file->blocks) : outcome;
}

/* Whether the page has no byte but zeros: nothing was ever written to it. */
static bool is_untouched(const uint8_t *page) {
    return page[0] == 0 && memcmp(page, page + 1, PAGELOG_PAGE_BYTES - 1) == 0;
}

/* Reads page 0 at a position: false where it is not what a file has there. */
static bool read_mark_at(const struct pagelog_file *file, const uint8_t *page,
                         struct pagelog_position position, struct mark *mark) {
    return pagelog_read_mark(file, page, mark) && !is_before(position, mark->position) &&
           (!is_none(mark->position) || is_untouched(page));
}

bool pagelog_is_foreign(const struct pagelog_file *file, const uint8_t *page,
                        struct pagelog_position position) {
    struct mark mark;
    return !read_mark_at(file, page, position, &mark);
}

/* Where the last end mark was before page 0 was written by another; 0 where that is not known. What is left
 * of the mark may still say it: then it is there. */
static struct pagelog_position find_last_mark(struct pagelog_file *file, enum pagelog_role role,
                                              const uint8_t *page, struct pagelog_position position) {
    uint8_t before[PAGELOG_PAGE_BYTES];
    const uint32_t number = MARK_PAGE;
    struct mark mark;
    struct pagelog_position left = position_said(page);
    if (!is_none(lsn_of(file, left)) && is_before(left, position) &&
        get_at(file, role, left, &number, 1, before) == PAGELOG_DONE &&
        read_mark_at(file, before, left, &mark) && is_at(mark.position, left))
        return left;
    return file->mark.position;
}

static void explain_foreign(struct pagelog_file *file, enum pagelog_role role, const uint8_t *page,
                            struct pagelog_position position) {
    struct pagelog_position last = find_last_mark(file, role, page, position);
    char at[24] = "LSN";
    if (!is_none(lsn_of(file, last))) snprintf(at, sizeof at, "%llu", (unsigned long long)last.number);
    snprintf(file->words, sizeof file->words,
             "page 0 was written by another client: this is no SQLite database; at=%s still reads what was "
             "before",
             at);
}

enum pagelog_outcome pagelog_refuse_foreign(struct pagelog_file *file, enum pagelog_role role,
                                            const uint8_t *page, struct pagelog_position position) {
    struct mark mark;
    file->is_foreign = true;
    if (pagelog_read_mark(file, page, &mark) && is_before(position, mark.position))
        snprintf(
            file->words, sizeof file->words,
            "page 0 says that a SQLite database ends at LSN %llu, above LSN %llu: the log is not its own",
            (unsigned long long)lsn_of(file, mark.position).number,
            (unsigned long long)lsn_of(file, position).number);
    else
        explain_foreign(file, role, page, position);
    return pagelog_file_fail(file, PAGELOG_MALFORMED, file->words);
}

enum pagelog_outcome pagelog_take_mark(struct pagelog_file *file, struct pagelog_position position) {
    uint8_t page[PAGELOG_PAGE_BYTES];
    const uint32_t number = MARK_PAGE;
    struct mark mark;
    bool was_gone = is_gone(file);
    enum pagelog_outcome outcome =
        pagelog_fetch(file, position, (struct wanted){.pages = &number, .count = 1}, page);
    bool is_gone_now = is_gone(file) && !was_gone;
    /* What was read before is not there, and is not asked for: another look may be had. */
    if (outcome == PAGELOG_LOST && is_gone_now) file->reason = NULL;
    if (outcome != PAGELOG_DONE) return outcome;
    file->is_foreign = !read_mark_at(file, page, position, &mark);
    if (file->is_foreign) return pagelog_refuse_foreign(file, role_of(file), page, position);
    if (!pagelog_is_same_mark(&mark, &file->mark)) {
        pagelog_cache_clear(file->cache);
        file->pending.length = 0;
        file->is_far = false;
        file->next = next_of(mark.position);
    }
    if (pagelog_is_misnamed(file, page)) return pagelog_refuse_name(file, page);
    outcome = pagelog_check_origin(file, page, &mark);
    if (outcome != PAGELOG_DONE) return outcome;
    file->has_name = has_name(page, file->name);
    file->told_session = pagelog_has_origin(file, page, &mark) ? mark.session : 0;
    file->mark = mark;
    if (file->reading == GONE) pagelog_have(file, OPEN);
    pagelog_expect(file->log, lsn_of(file, position).number, MARK_PAGE, 0, page, MARK_BYTES);
    return PAGELOG_DONE;
}
