/* What became of blocks that have no end mark after them, or that are not whole: the repair undoes them, in a
 * transaction of its own. */
#include "pagelog_file_inside.h"

#include <stdlib.h>
#include <string.h>

static enum pagelog_outcome out_of_memory(struct pagelog_file *file) {
    return pagelog_file_fail(file, PAGELOG_NO_MEMORY, "this process has no memory left");
}

/* ---- Pages ---- */

enum {
    MOST_BEHIND = 1 << 16, /* blocks after the end mark that are pulled */
    MOST_PAGES = 1 << 20,  /* pages that a repair keeps a list of */
    MOST_MARKS = 1024,     /* of this session that are passed over */
};

/* A set of pages, as a list. */
struct pages {
    uint32_t *numbers;
    size_t count, room;
    bool is_all; /* there is no list: it is the first `count` pages of the file */
};

/* Up to 64 of the pages, from an index on; how many. */
static size_t group_of(const struct pages *pages, size_t first, uint32_t group[GROUP]) {
    size_t count = pages->count - first < GROUP ? pages->count - first : GROUP;
    for (size_t i = 0; i < count; i++)
        group[i] = pages->is_all ? (uint32_t)(first + i + 1) : pages->numbers[first + i];
    return count;
}

static int compare_numbers(const void *one, const void *other) {
    uint32_t a = *(const uint32_t *)one, b = *(const uint32_t *)other;
    return a < b ? -1 : a > b;
}

static void sort_once_each(struct pages *pages) {
    size_t kept = 0;
    if (pages->count == 0) return;
    qsort(pages->numbers, pages->count, sizeof *pages->numbers, compare_numbers);
    for (size_t i = 0; i < pages->count; i++)
        if (kept == 0 || pages->numbers[kept - 1] != pages->numbers[i])
            pages->numbers[kept++] = pages->numbers[i];
    pages->count = kept;
}

/* Makes room in a full list: pages that are there twice go first, so that it is never much longer than the
 * file. */
static bool make_room(struct pages *pages) {
    sort_once_each(pages);
    if (2 * pages->count < pages->room) return true;
    size_t room = pages->room ? 2 * pages->room : 256;
    uint32_t *numbers = realloc(pages->numbers, room * sizeof *numbers);
    if (!numbers) return false;
    pages->numbers = numbers;
    pages->room = room;
    return true;
}

static bool add_page(struct pages *pages, uint32_t page) {
    if (pages->count > 0 && pages->numbers[pages->count - 1] == page) return true;
    if (pages->count == pages->room && !make_room(pages)) return false;
    pages->numbers[pages->count++] = page;
    return true;
}

/* ---- The repair ---- */

/* Adds the pages of the file that a block touches. */
static bool add_touched(struct pages *pages, const uint8_t *block, uint32_t last) {
    struct pagelog_records records;
    struct pagelog_record record;
    pagelog_records_begin(&records, block);
    while (pagelog_records_next(&records, &record))
        if (record.page != MARK_PAGE && record.page <= last && !add_page(pages, record.page)) return false;
    return true;
}

/* The pages of the file that the blocks after the end mark touch. All pages, of which there is no list, where
 * this principal may not pull, and where the blocks or the pages are so many that the file is the bound. */
static enum pagelog_outcome touched_pages(struct pagelog_file *file, struct pagelog_position end,
                                          struct pages *pages) {
    uint32_t last = pages_of(file->mark.size);
    bool is_near = distance(file->mark.position, end) <= MOST_BEHIND;
    struct pagelog_position next =
        is_near ? next_of(file->mark.position) : (struct pagelog_position){UINT64_MAX};
    while (!is_before(end, next) && pages->count <= MOST_PAGES) {
        struct pagelog_reply pulled;
        size_t at = 0, length;
        const uint8_t *block;
        enum pagelog_outcome outcome = file->source.calls->pull(file, next, &pulled);
        if (outcome == PAGELOG_DENIED) break;
        if (outcome != PAGELOG_DONE) return outcome;
        while ((block = pagelog_next_block(&pulled, &at, &length)))
            if (!add_touched(pages, block, last)) return out_of_memory(file);
        next = next_in(file, &pulled);
        if (is_before(end, next)) {
            sort_once_each(pages);
            return PAGELOG_DONE;
        }
    }
    pages->is_all = true;
    pages->count = last;
    return PAGELOG_DONE;
}

/* Adds what makes up to 64 pages again what they were at the end mark. */
static enum pagelog_outcome add_repairs(struct pagelog_file *file, struct pagelog_position end,
                                        const uint32_t *pages, size_t count) {
    uint8_t *old = malloc(2 * GROUP * PAGELOG_PAGE_BYTES);
    if (!old) return out_of_memory(file);
    uint8_t *now = old + GROUP * PAGELOG_PAGE_BYTES;
    enum pagelog_outcome outcome = get_at(file, PAGELOG_PRIMARY, file->mark.position, pages, count, old);
    if (outcome == PAGELOG_DONE) outcome = get_at(file, PAGELOG_PRIMARY, end, pages, count, now);
    for (size_t i = 0; i < count && outcome == PAGELOG_DONE; i++) {
        size_t at = i * PAGELOG_PAGE_BYTES;
        outcome = pagelog_blocks_difference(file->blocks, pages[i], now + at, old + at);
        if (outcome == PAGELOG_DONE) outcome = pagelog_append_full_group(file);
    }
    free(old);
    return outcome;
}

enum pagelog_outcome pagelog_repair(struct pagelog_file *file) {
    struct pages pages = {0};
    struct pagelog_position end = end_of(file);
    struct mark mark = {.size = file->mark.size, .transaction = file->mark.transaction + 1};
    enum pagelog_outcome outcome = touched_pages(file, end, &pages);
    restart_at(file, file->blocks, next_of(end));
    for (size_t i = 0; i < pages.count && outcome == PAGELOG_DONE; i += GROUP) {
        uint32_t group[GROUP];
        size_t count = group_of(&pages, i, group);
        outcome = add_repairs(file, end, group, count);
    }
    free(pages.numbers);
    if (outcome == PAGELOG_DONE) outcome = pagelog_add_mark(file, &mark);
    if (outcome == PAGELOG_DONE) outcome = pagelog_append_ended(file);
    if (outcome != PAGELOG_DONE) return outcome;
    file->mark = mark;
    file->told_session = mark.session;
    file->next = next_of(mark.position);
    file->repairs++;
    return PAGELOG_DONE;
}

/* ---- Whether a transaction is whole ---- */

static struct pagelog_position first_of_blocks(const struct pagelog_file *file) {
    size_t length;
    return position_of_block(file, pagelog_blocks_at(file->blocks, 0, &length));
}

/* Applies what a block has of these pages, `count` of them by rising number, to their bytes. */
static void apply_block(const uint8_t *block, const uint32_t *pages, size_t count, uint8_t *bytes) {
    struct pagelog_records records;
    struct pagelog_record record;
    pagelog_records_begin(&records, block);
    while (pagelog_records_next(&records, &record)) {
        const uint32_t *found = bsearch(&record.page, pages, count, sizeof *pages, compare_numbers);
        uint8_t *page = found ? bytes + (size_t)(found - pages) * PAGELOG_PAGE_BYTES : NULL;
        if (found && record.length == 0) memset(page, 0, PAGELOG_PAGE_BYTES);
        if (found && record.length > 0) memcpy(page + record.offset, record.bytes, record.length);
    }
}

/* Whether up to 64 pages at an LSN are what the blocks make of what they were before: DONE or CONFLICT. */
static enum pagelog_outcome compare_pages(struct pagelog_file *file, enum pagelog_role role,
                                          struct pagelog_position position, const uint32_t *pages,
                                          size_t count) {
    size_t blocks = pagelog_blocks_count(file->blocks), length, bytes = count * PAGELOG_PAGE_BYTES;
    uint8_t *wanted = malloc(2 * GROUP * PAGELOG_PAGE_BYTES);
    if (!wanted) return out_of_memory(file);
    uint8_t *found = wanted + GROUP * PAGELOG_PAGE_BYTES;
    struct pagelog_position before = last_before(first_of_blocks(file));
    enum pagelog_outcome outcome = get_at(file, role, before, pages, count, wanted);
    if (outcome == PAGELOG_DONE) outcome = get_at(file, role, position, pages, count, found);
    for (size_t i = 0; i < blocks && outcome == PAGELOG_DONE; i++)
        apply_block(pagelog_blocks_at(file->blocks, i, &length), pages, count, wanted);
    if (outcome == PAGELOG_DONE && memcmp(wanted, found, bytes) != 0) outcome = PAGELOG_CONFLICT;
    free(wanted);
    return outcome;
}

/* Only the last of the blocks has the end mark of the last transaction. So one block is whole where it is. */
enum pagelog_outcome pagelog_find_blocks(struct pagelog_file *file, enum pagelog_role role,
                                         struct pagelog_position position) {
    struct pages pages = {0};
    size_t blocks = pagelog_blocks_count(file->blocks), length;
    enum pagelog_outcome outcome = PAGELOG_DONE;
    for (size_t i = 0; i < blocks && blocks > 1 && outcome == PAGELOG_DONE; i++)
        if (!add_touched(&pages, pagelog_blocks_at(file->blocks, i, &length), UINT32_MAX))
            outcome = out_of_memory(file);
    sort_once_each(&pages);
    for (size_t i = 0; i < pages.count && outcome == PAGELOG_DONE; i += GROUP) {
        size_t count = pages.count - i < GROUP ? pages.count - i : GROUP;
        outcome = compare_pages(file, role, position, pages.numbers + i, count);
    }
    free(pages.numbers);
    if (outcome == PAGELOG_CONFLICT) file->torn = first_of_blocks(file);
    return outcome;
}

/* Looks for the blocks of a commit that is still in doubt, where its end mark is the newest one. Nothing was
 * made since that is in their place. */
static enum pagelog_outcome look_for_doubted(struct pagelog_file *file) {
    bool is_newest = is_at(file->mark.position, file->doubted) && file->mark.session == file->session;
    if (!is_newest || !is_none(file->torn)) return PAGELOG_DONE;
    enum pagelog_outcome outcome = pagelog_find_blocks(file, PAGELOG_PRIMARY, file->doubted);
    if (outcome != PAGELOG_DONE && outcome != PAGELOG_CONFLICT) return outcome;
    file->doubted.number = 0;
    return PAGELOG_DONE;
}

enum pagelog_outcome pagelog_take_whole(struct pagelog_file *file) {
    unsigned marks = 0;
    enum pagelog_outcome outcome = pagelog_take_mark(file, end_of(file));
    if (outcome == PAGELOG_DONE && !is_none(file->doubted)) outcome = look_for_doubted(file);
    while (outcome == PAGELOG_DONE && !is_none(file->torn) && !is_before(file->mark.position, file->torn) &&
           file->mark.session == file->session) {
        if (marks++ == MOST_MARKS)
            return pagelog_file_fail(file, PAGELOG_MALFORMED, "there are more end marks than were written");
        outcome = pagelog_take_mark(file, last_before(file->mark.position));
    }
    return outcome;
}

enum pagelog_outcome pagelog_recover(struct pagelog_file *file) {
    enum pagelog_outcome outcome = pagelog_take_whole(file);
    if (outcome == PAGELOG_DONE && is_writer(file) && is_before(file->mark.position, end_of(file)))
        outcome = pagelog_repair(file);
    if (outcome == PAGELOG_DONE) file->torn = file->doubted = (struct pagelog_position){0};
    return outcome;
}
