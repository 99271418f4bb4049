/* Opens and closes a store. */
#include "store_inside.h"

#include <stdlib.h>
#include <sys/resource.h>
#include <unistd.h>

enum {
    LOCK_TRIES = 100,
    LOCK_WAIT_US = 50000,
    BLOOM_BITS = 10,
    TABLE_BLOCK = 8 << 10,
    XXH3 = 4,
    TABLE_FORMAT = 5,
    MOST_FILES = 1000,
    HOT_PART = 8 /* of the cache: whole pages */
};

static rocksdb_block_based_table_options_t *table_options(struct store *store) {
    rocksdb_block_based_table_options_t *table = rocksdb_block_based_options_create();
    rocksdb_block_based_options_set_block_cache(table, store->cache);
    rocksdb_block_based_options_set_block_size(table, TABLE_BLOCK);
    rocksdb_block_based_options_set_cache_index_and_filter_blocks(table, 1);
    rocksdb_block_based_options_set_pin_l0_filter_and_index_blocks_in_cache(table, 1);
    rocksdb_block_based_options_set_index_type(table,
                                               rocksdb_block_based_table_index_type_two_level_index_search);
    rocksdb_block_based_options_set_filter_policy(table, rocksdb_filterpolicy_create_bloom_full(BLOOM_BITS));
    rocksdb_block_based_options_set_whole_key_filtering(table, 0);
    rocksdb_block_based_options_set_format_version(table, TABLE_FORMAT);
    rocksdb_block_based_options_set_checksum(table, XXH3);
    return table;
}

/* Open at a time: a quarter of the descriptors that there may be. */
static int most_files(void) {
    struct rlimit most;
    if (getrlimit(RLIMIT_NOFILE, &most) != 0 || most.rlim_cur / 4 > MOST_FILES) return MOST_FILES;
    return (int)(most.rlim_cur / 4);
}

static rocksdb_options_t *options_of(struct store *store, const struct store_settings *settings) {
    rocksdb_options_t *options = rocksdb_options_create();
    rocksdb_options_set_create_if_missing(options, 1);
    rocksdb_options_set_write_buffer_size(options, settings->memtable);
    rocksdb_options_set_max_background_jobs(options, 2);
    rocksdb_options_set_max_open_files(options, most_files());
    rocksdb_options_set_bytes_per_sync(options, 1 << 20);
    rocksdb_options_set_compression(options, rocksdb_lz4_compression);
    rocksdb_options_set_level_compaction_dynamic_level_bytes(options, 1);
    rocksdb_options_set_prefix_extractor(options, rocksdb_slicetransform_create_fixed_prefix(PAGE_PREFIX));
    rocksdb_options_set_compaction_filter_factory(options, store_forgetter(store));
    rocksdb_options_set_keep_log_file_num(options, 2);
    if (settings->direct) {
        rocksdb_options_set_use_direct_reads(options, 1);
        rocksdb_options_set_use_direct_io_for_flush_and_compaction(options, 1);
    }
    rocksdb_block_based_table_options_t *table = table_options(store);
    rocksdb_options_set_block_based_table_factory(options, table);
    rocksdb_block_based_options_destroy(table);
    return options;
}

/* The process before, if it was killed, may hold the lock for a moment yet. */
static bool open_locked(struct store *store, char **why) {
    for (int tries = 1;; tries++) {
        *why = NULL;
        store->db = rocksdb_open(store->options, store->folder, why);
        if (store->db) return true;
        if (tries == LOCK_TRIES || !strstr(*why, "lock")) return false;
        rocksdb_free(*why);
        usleep(LOCK_WAIT_US);
    }
}

/* Images of a base that never was whole: what is there counts for nothing. */
static bool begin_anew(struct store *store, char **why) {
    rocksdb_iterator_t *rows = rocksdb_create_iterator(store->db, store->reads);
    rocksdb_iter_seek_to_first(rows);
    bool has_rows = rocksdb_iter_valid(rows);
    rocksdb_iter_destroy(rows);
    if (!has_rows) return true;
    rocksdb_close(store->db);
    store->db = NULL;
    rocksdb_destroy_db(store->options, store->folder, why);
    return !*why && open_locked(store, why);
}

static bool read_meta(struct store *store, char **why) {
    size_t length = 0;
    char *found = rocksdb_get(store->db, store->reads, "M", 1, &length, why);
    if (*why) return false;
    const uint8_t *meta = (const uint8_t *)found;
    bool is_known = !found || (length == META_BYTES && meta[0] == META_FORMAT && meta[17] <= CHAIN_BYTES);
    if (found && is_known) {
        store->has_begun = true;
        store->written = store->added = number_at(meta + 1, 8);
        store->confirmed = number_at(meta + 9, 8);
        store->chain.length = meta[17];
        memcpy(store->chain.bytes, meta + 18, CHAIN_BYTES);
    }
    rocksdb_free(found);
    if (!is_known) *why = strdup("the store has a format that this program does not know");
    store->persisted = (uint64_t)store->confirmed;
    return is_known && (store->has_begun || begin_anew(store, why));
}

static void free_all(struct store *store) {
    store_view_free(store->own);
    if (store->db) rocksdb_close(store->db);
    if (store->batch) rocksdb_writebatch_destroy(store->batch);
    if (store->reads) rocksdb_readoptions_destroy(store->reads);
    if (store->unlogged) rocksdb_writeoptions_destroy(store->unlogged);
    if (store->flushes) rocksdb_flushoptions_destroy(store->flushes);
    if (store->options) rocksdb_options_destroy(store->options);
    if (store->cache) rocksdb_cache_destroy(store->cache);
    hot_free(store->hot);
    free(store->counters);
    free(store->due);
    free(store->folder);
    free(store->why);
    free(store);
}

struct store *store_open(const struct store_settings *settings, char **why) {
    struct store *store = calloc(1, sizeof *store);
    *why = NULL;
    if (!store || !(store->counters = calloc(COUNTERS, 1)) || !(store->folder = strdup(settings->folder)) ||
        !(store->hot = hot_new(settings->cache / HOT_PART))) {
        if (store) free_all(store);
        *why = strdup("out of memory");
        return NULL;
    }
    store->oldest = store_read_oldest(store->folder);
    store->cache = rocksdb_cache_create_lru(settings->cache - settings->cache / HOT_PART);
    store->options = options_of(store, settings);
    store->unlogged = rocksdb_writeoptions_create();
    rocksdb_writeoptions_disable_WAL(store->unlogged, 1);
    store->reads = rocksdb_readoptions_create();
    rocksdb_readoptions_set_verify_checksums(store->reads, 1);
    rocksdb_readoptions_set_total_order_seek(store->reads, 1);
    store->flushes = rocksdb_flushoptions_create();
    store->batch = rocksdb_writebatch_create();
    if (open_locked(store, why) && read_meta(store, why) && (store->own = store_view_new(store)))
        return store;
    if (!*why) *why = strdup("out of memory");
    free_all(store);
    return NULL;
}

void store_close(struct store *store) {
    store_flush(store);
    free_all(store);
}

uint64_t store_confirmed(const struct store *store) {
    return store->confirmed;
}

uint64_t store_written(const struct store *store) {
    return store->written;
}

uint64_t store_persisted(const struct store *store) {
    return store->persisted;
}

uint64_t store_oldest(const struct store *store) {
    return atomic_load_explicit(&store->oldest, memory_order_acquire);
}

const char *store_why(const struct store *store) {
    return store->why ? store->why : "";
}

const char *store_damage(const struct store *store) {
    return store->is_damaged ? store->damage : NULL;
}

bool store_is_empty(const struct store *store) {
    return !store->has_begun;
}
