/* The writer of a store: blocks, images, and what they are confirmed by. */
#include "store_inside.h"

#include <blake2.h>
#include <stdlib.h>

enum { MOST_PAGES = 2048, HALF = PAGE_BYTES / 2 };

/* What one block changes of one page, as a row has it: 1 if it begins with zeros, then offset, length and
 * bytes of each. */
struct changes {
    uint32_t page;
    uint8_t *bytes;
    size_t length, room;
};

struct parts {
    struct changes *found;
    size_t count, room;
};

static enum store_end failed(struct store *store, char *why) {
    free(store->why);
    store->why = why ? strdup(why) : NULL;
    rocksdb_free(why);
    return STORE_FAILED;
}

static bool grow(void **items, size_t *room, size_t wanted, size_t size) {
    size_t more = *room ? *room : 64;
    while (more < wanted)
        more *= 2;
    if (more == *room) return true;
    void *larger = realloc(*items, more * size);
    if (!larger) return false;
    *items = larger;
    *room = more;
    return true;
}

/* A block has some thousand records at most, mostly of the page before. */
static struct changes *changes_of(struct parts *parts, uint32_t page) {
    for (size_t n = parts->count; n-- > 0;) {
        if (parts->found[n].page == page) return &parts->found[n];
    }
    size_t room = parts->room;
    if (!grow((void **)&parts->found, &parts->room, parts->count + 1, sizeof *parts->found)) return NULL;
    if (parts->room > room) memset(parts->found + room, 0, (parts->room - room) * sizeof *parts->found);
    struct changes *made = &parts->found[parts->count++];
    made->page = page;
    made->length = 1;
    if (!grow((void **)&made->bytes, &made->room, 1, 1)) return NULL;
    made->bytes[0] = 0;
    return made;
}

static bool add_record(struct parts *parts, const struct record *record) {
    struct changes *changes = changes_of(parts, record->page);
    if (!changes) return false;
    if (record->length == 0) {
        changes->bytes[0] = 1;
        changes->length = 1;
        return true;
    }
    if (!grow((void **)&changes->bytes, &changes->room, changes->length + 4 + record->length, 1))
        return false;
    uint8_t *at = put_number(changes->bytes + changes->length, record->offset, 2);
    at = put_number(at, record->length, 2);
    memcpy(at, record->bytes, record->length);
    changes->length += 4 + record->length;
    return true;
}

static void free_parts(struct parts *parts) {
    for (size_t n = 0; n < parts->room; n++)
        free(parts->found[n].bytes);
    free(parts->found);
}

static void apply_changes(const struct changes *changes, uint8_t page[PAGE_BYTES]) {
    for (size_t at = 1; at < changes->length;) {
        size_t offset = number_at(changes->bytes + at, 2), length = number_at(changes->bytes + at + 2, 2);
        memcpy(page + offset, changes->bytes + at + 4, length);
        at += 4 + length;
    }
}

static bool makes_whole_page(const struct changes *changes) {
    return changes->length == 1 + 4 + PAGE_BYTES || (changes->bytes[0] && changes->length > HALF);
}

static uint8_t *counter_of(struct store *store, uint32_t page) {
    return &store->counters[page * 2654435761u % COUNTERS];
}

/* Without memory for it the page only has more changes to its next image. */
static void want_image(struct store *store, uint32_t page) {
    if (!grow((void **)&store->due, &store->due_room, store->due_count + 1, sizeof *store->due)) return;
    store->due[store->due_count++] = page;
}

/* An image where the changes make the whole page, as it takes no more room. */
static void put_changes(struct store *store, const struct changes *changes, uint64_t position) {
    uint8_t key[PAGE_KEY], page[PAGE_BYTES] = {0}, *counter = counter_of(store, changes->page);
    bool is_image = makes_whole_page(changes);
    page_key(key, changes->page, position, is_image ? IMAGE : CHANGES);
    if (is_image) {
        apply_changes(changes, page);
        rocksdb_writebatch_put(store->batch, (char *)key, PAGE_KEY, (char *)page, PAGE_BYTES);
    } else {
        rocksdb_writebatch_put(store->batch, (char *)key, PAGE_KEY, (char *)changes->bytes, changes->length);
    }
    if (is_image || changes->bytes[0]) {
        *counter = 0;
    } else if (++*counter >= IMAGE_EACH) {
        *counter = 0;
        want_image(store, changes->page);
    }
}

static bool chain_on(struct chain *chain, const uint8_t *block, size_t length) {
    blake2b_state state;
    if (blake2b_init(&state, CHAIN_BYTES) < 0) return false;
    blake2b_update(&state, chain->bytes, chain->length);
    blake2b_update(&state, block, length);
    chain->length = CHAIN_BYTES;
    return blake2b_final(&state, chain->bytes, CHAIN_BYTES) == 0;
}

enum store_end store_add(struct store *store, const uint8_t *block, size_t length) {
    struct records records;
    struct record record;
    struct parts parts = {0};
    uint64_t position = store->added + 1;
    if (length < 8 || number_at(block, 8) != position) return STORE_NOT_NEXT;
    if (!block_open(block, length, &records)) return STORE_NO_BLOCK;
    enum store_end end = STORE_DONE;
    while (end == STORE_DONE && block_next(&records, &record)) {
        if (!add_record(&parts, &record)) end = STORE_NO_MEMORY;
    }
    if (end == STORE_DONE && !block_is_whole(&records)) end = STORE_NO_BLOCK;
    for (size_t n = 0; end == STORE_DONE && n < parts.count; n++)
        put_changes(store, &parts.found[n], position);
    free_parts(&parts);
    if (end != STORE_DONE) return end;
    uint8_t key[BLOCK_KEY];
    block_key(key, position);
    rocksdb_writebatch_put(store->batch, (char *)key, BLOCK_KEY, (const char *)block, length);
    store->added = position;
    return chain_on(&store->chain, block, length) ? STORE_DONE : STORE_FAILED;
}

static void put_meta(struct store *store, uint64_t written, uint64_t confirmed) {
    uint8_t meta[META_BYTES] = {META_FORMAT};
    uint8_t *at = put_number(put_number(meta + 1, written, 8), confirmed, 8);
    *at = (uint8_t)store->chain.length;
    memcpy(at + 1, store->chain.bytes, CHAIN_BYTES);
    rocksdb_writebatch_put(store->batch, "M", 1, (char *)meta, META_BYTES);
}

/* The batch goes, whole or not at all. */
static enum store_end write_batch(struct store *store) {
    char *why = NULL;
    rocksdb_write(store->db, store->unlogged, store->batch, &why);
    rocksdb_writebatch_clear(store->batch);
    if (why) return failed(store, why);
    atomic_fetch_add_explicit(&store->writes, 1, memory_order_release);
    return STORE_DONE;
}

/* Images of the pages that want one, at the position that was just written: rows that say again what the
 * store says. */
static enum store_end make_images(struct store *store) {
    for (size_t n = 0; n < store->due_count; n++) {
        uint8_t key[PAGE_KEY], page[PAGE_BYTES];
        if (!store_page(store->own, store->due[n], store->written, page)) return failed(store, NULL);
        page_key(key, store->due[n], store->written, IMAGE);
        rocksdb_writebatch_put(store->batch, (char *)key, PAGE_KEY, (char *)page, PAGE_BYTES);
    }
    store->due_count = 0;
    enum store_end end = rocksdb_writebatch_count(store->batch) ? write_batch(store) : STORE_DONE;
    store_view_rest(store->own);
    return end;
}

enum store_end store_write(struct store *store, const uint8_t *chain) {
    if (chain &&
        (store->chain.length != CHAIN_BYTES || memcmp(chain, store->chain.bytes, CHAIN_BYTES) != 0)) {
        rocksdb_writebatch_clear(store->batch);
        return STORE_OTHER_CHAIN;
    }
    put_meta(store, store->added, chain ? store->added : store->confirmed);
    enum store_end end = write_batch(store);
    if (end != STORE_DONE) return end;
    store->has_begun = true;
    store->written = store->added;
    if (chain) atomic_store(&store->confirmed, store->added);
    return make_images(store);
}

enum store_end store_add_image(struct store *store, uint32_t page, uint64_t position,
                               const uint8_t bytes[PAGE_BYTES]) {
    uint8_t key[PAGE_KEY];
    page_key(key, page, position, IMAGE);
    rocksdb_writebatch_put(store->batch, (char *)key, PAGE_KEY, (const char *)bytes, PAGE_BYTES);
    return rocksdb_writebatch_count(store->batch) < MOST_PAGES ? STORE_DONE : write_batch(store);
}

/* The files of a base, which hold no page twice, go to the last level as they are: a read looks at one of
 * them, and not at one of each level. */
static void settle(struct store *store) {
    char *why = NULL;
    rocksdb_suggest_compact_range(store->db, NULL, 0, NULL, 0, &why);
    rocksdb_free(why); /* in vain: reads take longer */
}

enum store_end store_begin_at(struct store *store, uint64_t position, const uint8_t chain[CHAIN_BYTES],
                              size_t chain_length) {
    enum store_end end = write_batch(store);
    if (end != STORE_DONE) return end;
    if (!store_forget(store, position)) return failed(store, NULL);
    store->added = position;
    store->chain.length = chain_length;
    memcpy(store->chain.bytes, chain, chain_length);
    put_meta(store, position, position);
    if ((end = write_batch(store)) != STORE_DONE) return end;
    store->has_begun = true;
    store->written = position;
    atomic_store(&store->confirmed, position);
    end = store_flush(store);
    if (end == STORE_DONE) settle(store);
    return end;
}

enum store_end store_flush(struct store *store) {
    char *why = NULL;
    uint64_t reached = store->confirmed;
    rocksdb_flush(store->db, store->flushes, &why);
    if (why) return failed(store, why);
    store->persisted = reached;
    return STORE_DONE;
}
