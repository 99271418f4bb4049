/* Reads a store: pages at positions, and blocks. */
#include "store_inside.h"

#include <stdio.h>
#include <stdlib.h>
#include <time.h>

/* Sets of changes behind the newest image; a page has some 64 between two of them, or more where images wait.
 */
struct sets {
    struct set {
        uint8_t *bytes;
        size_t length;
    } * found;
    size_t count, room;
};

struct store_view {
    struct store *store;
    rocksdb_readoptions_t *options, *total;
    rocksdb_iterator_t *rows, *blocks;
    uint64_t seen;                 /* `writes` of the store that `rows` was made after */
    time_t made;                   /* when that was */
    rocksdb_perfcontext_t *counts; /* of the thread that reads */
    struct sets sets;
};

struct store_view *store_view_new(struct store *store) {
    struct store_view *view = calloc(1, sizeof *view);
    if (!view) return NULL;
    view->store = store;
    view->options = rocksdb_readoptions_create();
    rocksdb_readoptions_set_prefix_same_as_start(view->options, 1);
    rocksdb_readoptions_set_background_purge_on_iterator_cleanup(view->options, 1);
    rocksdb_readoptions_set_verify_checksums(view->options, 1);
    view->total = rocksdb_readoptions_create();
    rocksdb_readoptions_set_total_order_seek(view->total, 1);
    rocksdb_readoptions_set_background_purge_on_iterator_cleanup(view->total, 1);
    rocksdb_readoptions_set_verify_checksums(view->total, 1);
    return view;
}

static void free_sets(struct sets *sets) {
    for (size_t n = 0; n < sets->count; n++)
        free(sets->found[n].bytes);
    sets->count = 0;
}

static void let_go(rocksdb_iterator_t **rows) {
    if (*rows) rocksdb_iter_destroy(*rows);
    *rows = NULL;
}

void store_view_free(struct store_view *view) {
    if (!view) return;
    free_sets(&view->sets);
    free(view->sets.found);
    let_go(&view->rows);
    let_go(&view->blocks);
    if (view->counts) rocksdb_perfcontext_destroy(view->counts);
    rocksdb_readoptions_destroy(view->options);
    rocksdb_readoptions_destroy(view->total);
    free(view);
}

static time_t now_s(void) {
    struct timespec now;
    clock_gettime(CLOCK_MONOTONIC_COARSE, &now);
    return now.tv_sec;
}

/* Files are given up without a write, too: rows of the second before pin none. */
static bool is_newest(const struct store_view *view) {
    return view->seen == atomic_load_explicit(&view->store->writes, memory_order_acquire) &&
           view->made == now_s();
}

bool store_view_rest(struct store_view *view) {
    let_go(&view->blocks);
    if (view->rows && !is_newest(view)) let_go(&view->rows);
    return view->rows != NULL;
}

/* An iterator sees what was written before it was made. */
static rocksdb_iterator_t *fresh_rows(struct store_view *view) {
    if (view->rows && is_newest(view)) return view->rows;
    let_go(&view->rows);
    view->seen = atomic_load_explicit(&view->store->writes, memory_order_acquire);
    view->made = now_s();
    return view->rows = rocksdb_create_iterator(view->store->db, view->options);
}

static bool is_damaged(struct store *store, const char *why) {
    if (atomic_exchange(&store->takes_damage, true)) return true;
    snprintf(store->damage, sizeof store->damage, "%s", why);
    for (char *at = store->damage; *at; at++) {
        if (*at == '\n') *at = ' ';
    }
    store->is_damaged = true;
    return true;
}

/* False, as a call of the store returns it. */
static bool is_no_row(struct store *store) {
    return !is_damaged(store, "Corruption: a row is none of a store's");
}

static bool keep_set(struct sets *sets, const char *bytes, size_t length) {
    if (sets->count == sets->room) {
        size_t more = sets->room ? 2 * sets->room : 128;
        struct set *larger = realloc(sets->found, more * sizeof *larger);
        if (!larger) return false;
        sets->found = larger;
        sets->room = more;
    }
    struct set *made = &sets->found[sets->count];
    if (!(made->bytes = malloc(length))) return false;
    memcpy(made->bytes, bytes, length);
    made->length = length;
    sets->count++;
    return true;
}

/* False: this row is none of a store's. */
static bool apply_set(const struct set *set, uint8_t page[PAGE_BYTES]) {
    size_t at = 1;
    while (at + 4 <= set->length) {
        size_t offset = number_at(set->bytes + at, 2), length = number_at(set->bytes + at + 2, 2);
        at += 4;
        if (length > set->length - at || offset + length > PAGE_BYTES) return false;
        memcpy(page + offset, set->bytes + at, length);
        at += length;
    }
    return at == set->length;
}

static bool is_of_page(rocksdb_iterator_t *rows, const uint8_t key[PAGE_KEY]) {
    size_t length;
    if (!rocksdb_iter_valid(rows)) return false;
    const char *found = rocksdb_iter_key(rows, &length);
    return length == PAGE_KEY && memcmp(found, key, PAGE_PREFIX) == 0;
}

/* The position of the newest row at or below that of the key, to which it goes; 0: there is none. */
static uint64_t newest_row(rocksdb_iterator_t *rows, const uint8_t key[PAGE_KEY]) {
    size_t length;
    rocksdb_iter_seek(rows, (const char *)key, PAGE_KEY);
    if (!is_of_page(rows, key)) return 0;
    return ~number_at((const uint8_t *)rocksdb_iter_key(rows, &length) + PAGE_PREFIX, 8);
}

/* Walks from the newest row at or below the position back to one that makes the page whole, or to the first.
 */
static bool gather(struct store_view *view, rocksdb_iterator_t *rows, const uint8_t key[PAGE_KEY],
                   uint8_t out[PAGE_BYTES]) {
    memset(out, 0, PAGE_BYTES);
    for (; is_of_page(rows, key); rocksdb_iter_next(rows)) {
        size_t key_length, length;
        const char *found = rocksdb_iter_key(rows, &key_length), *value = rocksdb_iter_value(rows, &length);
        if (found[PAGE_KEY - 1] == IMAGE) {
            if (length != PAGE_BYTES) return is_no_row(view->store);
            memcpy(out, value, PAGE_BYTES);
            return true;
        }
        if (length == 0) return is_no_row(view->store);
        if (!keep_set(&view->sets, value, length)) return false;
        if (value[0]) return true;
    }
    return true;
}

static bool is_sound(struct store *store, rocksdb_iterator_t *rows) {
    char *why = NULL;
    rocksdb_iter_get_error(rows, &why);
    bool is_good = !why || !is_damaged(store, why);
    rocksdb_free(why);
    return is_good;
}

bool store_page(struct store_view *view, uint32_t page, uint64_t position, uint8_t out[PAGE_BYTES]) {
    /* the writer's own reads are of what is not confirmed yet, each once */
    struct hot *hot = view == view->store->own ? NULL : view->store->hot;
    if (hot && hot_find(hot, page, position, out)) return true;
    uint8_t key[PAGE_KEY];
    page_key(key, page, position, IMAGE);
    rocksdb_iterator_t *rows = fresh_rows(view);
    uint64_t from = newest_row(rows, key);
    if (hot && is_sound(view->store, rows) && hot_is_still(hot, page, from, position, out)) return true;
    bool is_good = gather(view, rows, key, out) && is_sound(view->store, rows);
    for (size_t n = view->sets.count; is_good && n-- > 0;)
        is_good = apply_set(&view->sets.found[n], out) || is_no_row(view->store);
    free_sets(&view->sets);
    if (hot && is_good) hot_keep(hot, page, from, position, out);
    return is_good;
}

bool store_has_page(struct store *store, uint32_t page, uint64_t position) {
    return hot_has(store->hot, page, position);
}

uint64_t store_reads(struct store_view *view) {
    if (!view->counts) view->counts = rocksdb_perfcontext_create();
    return rocksdb_perfcontext_metric(view->counts, rocksdb_block_read_count);
}

bool store_block(struct store_view *view, uint64_t *position, uint64_t last, unsigned low, unsigned high,
                 const uint8_t **block, size_t *length) {
    uint8_t key[BLOCK_KEY];
    block_key(key, *position);
    *position = 0;
    let_go(&view->blocks);
    view->blocks = rocksdb_create_iterator(view->store->db, view->total);
    for (rocksdb_iter_seek(view->blocks, (char *)key, BLOCK_KEY); rocksdb_iter_valid(view->blocks);
         rocksdb_iter_next(view->blocks)) {
        size_t key_length;
        const uint8_t *found = (const uint8_t *)rocksdb_iter_key(view->blocks, &key_length);
        if (key_length != BLOCK_KEY || found[0] != 'B' || number_at(found + 1, 8) > last) break;
        *block = (const uint8_t *)rocksdb_iter_value(view->blocks, length);
        if (!block_touches(*block, low, high)) continue;
        *position = number_at(found + 1, 8);
        return true;
    }
    return is_sound(view->store, view->blocks);
}
