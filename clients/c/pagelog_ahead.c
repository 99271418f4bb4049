/* Pages that are asked for before they are read: which ones, and how they come into memory. */
#include "pagelog_copy.h"
#include "pagelog_file_inside.h"

#include <stdlib.h>
#include <string.h>

/* Where a file is read into memory, twice as many pages are asked for with each miss, up to 2 MiB, after so
 * many; and how many pages are looked at for each of those. */
enum { MOST_AHEAD = 256, MOST_MISSES = 8, LOOKED_FOR = 8 };

/* Of the pages that have room in memory, those that may be on their way and were not asked for yet. */
enum { SHARE_AHEAD = 4 };

_Static_assert(1 << MOST_MISSES == MOST_AHEAD, "as many as there is room for");

/* A page that was asked for ahead. It may have come late: after a commit, or where the file is shorter. */
void pagelog_take_page(void *argument, uint64_t lsn, uint32_t page, const uint8_t *bytes) {
    struct pagelog_file *file = argument;
    if (lsn != lsn_of(file, file->mark.position).number || page > pages_of(file->least)) return;
    struct pagelog_frame *frame = pagelog_cache_make(file->cache, page);
    if (!frame || frame->has_base) return;
    memcpy(frame->base, bytes, PAGELOG_PAGE_BYTES);
    frame->has_base = true;
    file->pages_fetched++;
}

/* ---- What is expected ---- */

bool pagelog_file_expects(const struct pagelog_file *file, uint32_t parent) {
    const struct expected *expected = &file->expected;
    for (size_t i = 0; i < expected->parent_count; i++)
        if (expected->parents[i] == parent) return true;
    return false;
}

void pagelog_file_expect(struct pagelog_file *file, uint32_t parent, const uint32_t *pages, size_t count) {
    struct expected *expected = &file->expected;
    size_t most = pagelog_cache_most(file->cache);
    if (most > MOST_EXPECTED) most = MOST_EXPECTED;
    if (count > most || pagelog_file_expects(file, parent)) return;
    if (expected->count + count > most || expected->parent_count == MOST_PARENTS) {
        expected->is_over = expected->is_over || expected->count + count > most;
        expected->count = expected->parent_count = 0;
        file->run = file->next_run = 0;
    }
    if (expected->room < expected->count + count) {
        size_t room =
            2 * expected->room > expected->count + count ? 2 * expected->room : expected->count + count;
        uint32_t *grown = realloc(expected->pages, room * sizeof *grown);
        if (!grown) return;
        expected->pages = grown;
        expected->room = room;
    }
    memcpy(expected->pages + expected->count, pages, count * sizeof *pages);
    expected->count += count;
    expected->parents[expected->parent_count++] = parent;
}

/* The place of a page among those that are expected; behind the last where it is not. */
static size_t place_of(const struct expected *expected, uint32_t page) {
    size_t place = 0;
    while (place < expected->count && expected->pages[place] != page)
        place++;
    return place;
}

/* ---- What is asked for ---- */

/* Whether a page of the transaction that is read is on its way. */
static bool is_on_its_way(const struct pagelog_file *file, uint32_t page) {
    return pagelog_is_ahead(file->log, lsn_of(file, file->mark.position).number, page);
}

/* How many pages are asked for with one that is missing: more where page after page is. */
static uint32_t pages_in_run(struct pagelog_file *file, bool follows) {
    size_t most = pagelog_cache_most(file->cache) / SHARE_AHEAD;
    file->run = follows ? 2 * file->run : 1;
    if (file->run > MOST_AHEAD) file->run = MOST_AHEAD;
    return file->run < most ? file->run : (uint32_t)most;
}

/* Whether all of the file has room in memory. */
static bool fits(const struct pagelog_file *file) {
    return pages_of(file->least) <= pagelog_cache_most(file->cache);
}

/* Whether all that will probably be read has room in memory: what is expected, or else the file. */
static bool has_room(const struct pagelog_file *file) {
    return file->is_by_place ? !file->expected.is_over : fits(file);
}

/* The same where all of it has room in memory: more where who reads spends half of its time with pages that
 * are missing, in whatever order. One that misses a page now and then asks for that alone. */
static uint32_t pages_to_fill(struct pagelog_file *file, uint64_t now) {
    bool is_busy = now - file->fetched_at <= file->fetched_in;
    file->misses = is_busy ? file->misses + 1 : file->misses / 2;
    if (file->misses > MOST_MISSES) file->misses = MOST_MISSES;
    return has_room(file) ? UINT32_C(1) << file->misses : 1;
}

/* The page at `next_run`, which begins again behind the last one if it `wraps`; 0: there is none. */
static uint32_t page_at_next(struct pagelog_file *file, bool wraps) {
    const struct expected *expected = &file->expected;
    uint32_t first = file->is_by_place ? 0 : 1;
    uint32_t last = file->is_by_place ? (uint32_t)expected->count - 1 : pages_of(file->least);
    bool is_behind = file->next_run < first || file->next_run > last;
    if (is_behind && !wraps) return 0;
    if (is_behind) file->next_run = first;
    return file->is_by_place ? expected->pages[file->next_run] : file->next_run;
}

/* Adds pages behind the first, from `next_run` on, that are neither in memory nor on their way: up to
 * `wanted` of `looked` pages. Returns how many there are. */
static uint32_t add_run(struct pagelog_file *file, uint32_t wanted, uint32_t looked, bool wraps,
                        uint32_t pages[1 + MOST_AHEAD]) {
    uint32_t count = 1, page;
    for (; looked > 0 && count <= wanted && (page = page_at_next(file, wraps)) > 0;
         looked--, file->next_run++) {
        bool is_there =
            page == pages[0] || page > pages_of(file->least) || pagelog_cache_has(file->cache, page);
        if (!is_there && !is_on_its_way(file, page)) pages[count++] = page;
    }
    return count;
}

/* The pages that are asked for with one that is missing, which is the first. One that is on its way is waited
 * for alone, while half of what was asked for is still to come. */
static uint32_t choose_pages(struct pagelog_file *file, uint32_t page, uint64_t now,
                             uint32_t pages[1 + MOST_AHEAD]) {
    bool is_ahead = is_on_its_way(file, page);
    pages[0] = page;
    if (is_ahead && 2 * pagelog_count_ahead(file->log) > file->asked) return 1;
    size_t place = place_of(&file->expected, page);
    bool is_by_place = place < file->expected.count && !(file->expected.is_over && fits(file));
    uint32_t at = is_by_place ? (uint32_t)place : page;
    bool follows = is_by_place == file->is_by_place && at == file->next_run;
    file->is_by_place = is_by_place;
    uint32_t fill = pages_to_fill(file, now);
    uint32_t run = pages_in_run(file, follows || (is_ahead && fill == 1));
    bool fills = fill > run;
    if (!is_ahead) file->next_run = at + 1;
    uint32_t others = (fills ? fill : run) - (is_ahead ? 0 : 1);
    file->asked = others;
    uint32_t all = is_by_place ? (uint32_t)file->expected.count : pages_of(file->least);
    uint32_t looked = fills ? LOOKED_FOR * fill
                            : others; /* none twice: those that are chosen here are not on their way yet */
    return add_run(file, others, looked < all ? looked : all, fills, pages);
}

/* Notes that a page was waited for, which took so long, with `asked` that were asked for then, and `came`
 * that have come. */
static void note_wait(struct pagelog_file *file, uint64_t took, uint64_t asked, uint64_t came) {
    file->fetched_at = pagelog_now_ns();
    if (asked > 0) file->fetched_in = asked > came && came > 0 ? took * asked / came : took;
}

static enum pagelog_outcome keep_page(struct pagelog_file *file, uint32_t page, const uint8_t *bytes) {
    struct pagelog_frame *frame = pagelog_cache_make(file->cache, page);
    if (!frame) return pagelog_file_fail(file, PAGELOG_NO_MEMORY, "this process has no memory left");
    memcpy(frame->base, bytes, PAGELOG_PAGE_BYTES);
    frame->has_base = true;
    return PAGELOG_DONE;
}

/* Has a page server send those that were chosen, as many as one question has. False: the service is to be
 * asked. */
static bool copy_pages(struct pagelog_file *file, const uint32_t *pages, size_t count, uint64_t began,
                       enum pagelog_outcome *outcome) {
    size_t asked = count < PAGELOG_COPY_PAGES ? count : PAGELOG_COPY_PAGES;
    if (is_on_its_way(file, pages[0])) return false;
    const uint8_t *copied = file->source.calls->copied(file, pages, asked);
    if (!copied) return false;
    note_wait(file, pagelog_now_ns() - began, asked, asked);
    if (asked < count)
        file->next_run = file->is_by_place ? (uint32_t)place_of(&file->expected, pages[asked]) : pages[asked];
    *outcome = PAGELOG_DONE;
    for (size_t i = asked; i > 0 && *outcome == PAGELOG_DONE; i--)
        *outcome = keep_page(file, pages[i - 1], copied + (i - 1) * PAGELOG_PAGE_BYTES);
    return true;
}

enum pagelog_outcome pagelog_fetch_page(struct pagelog_file *file, uint32_t page) {
    uint8_t bytes[PAGELOG_PAGE_BYTES];
    uint32_t pages[1 + MOST_AHEAD] = {0};
    uint64_t began = pagelog_now_ns();
    struct pagelog_counts before = pagelog_counts_of(file->log);
    struct wanted wanted = {.pages = pages, .count = 1};
    wanted.ahead = choose_pages(file, page, began, pages) - 1;
    enum pagelog_outcome outcome;
    if (copy_pages(file, pages, 1 + wanted.ahead, began, &outcome)) return outcome;
    outcome = pagelog_fetch(file, file->mark.position, wanted, bytes);
    if (outcome != PAGELOG_DONE) return outcome;
    struct pagelog_counts after = pagelog_counts_of(file->log);
    note_wait(file, pagelog_now_ns() - began, after.requests - before.requests,
              after.replies - before.replies);
    return keep_page(file, page, bytes);
}
