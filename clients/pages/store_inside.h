/* What the files of the store share. */
#ifndef STORE_INSIDE_H
#define STORE_INSIDE_H

#include "bytes.h"
#include "hot.h"
#include "store.h"

#include <rocksdb/c.h>
#include <stdatomic.h>
#include <string.h>

/* Keys: 'P' page, the position with all bits turned, so that the newest is first, and what it is; 'B'
 * position; 'M'. */
enum { PAGE_KEY = 14, PAGE_PREFIX = 5, BLOCK_KEY = 9, IMAGE = 0, CHANGES = 1 };

/* What the store says of itself: the format, its three positions' first two, the chain up to what was
 * written, and its length. */
enum { META_BYTES = 1 + 8 + 8 + 1 + CHAIN_BYTES, META_FORMAT = 1 };

/* After so many sets of changes of a page an image of it is made. */
enum { IMAGE_EACH = 64, COUNTERS = 1 << 20 };

enum { DAMAGE_BYTES = 512 };

struct chain {
    uint8_t bytes[CHAIN_BYTES];
    size_t length; /* 0 of no blocks at all */
};

struct store {
    rocksdb_t *db;
    rocksdb_options_t *options;
    rocksdb_writeoptions_t *unlogged;
    rocksdb_readoptions_t *reads;
    rocksdb_cache_t *cache;
    struct hot *hot;
    rocksdb_flushoptions_t *flushes;
    char *folder;
    _Atomic uint64_t confirmed, written, persisted, oldest;
    _Atomic uint64_t writes; /* rises with each write, after it */
    /* Why a row could not be read first: by one thread, which has taken that upon itself. */
    atomic_bool takes_damage, is_damaged;
    char damage[DAMAGE_BYTES];
    /* The writer's. */
    struct chain chain; /* up to what was added */
    uint64_t added;
    rocksdb_writebatch_t *batch;
    bool has_begun;
    uint8_t *counters; /* sets of changes since an image, by a hash of the page */
    struct store_view *own;
    uint32_t *due; /* pages that want an image */
    size_t due_count, due_room;
    char *why;
};

static inline void page_key(uint8_t key[PAGE_KEY], uint32_t page, uint64_t position, uint8_t kind) {
    key[0] = 'P';
    put_number(put_number(key + 1, page, 4), ~position, 8);
    key[PAGE_KEY - 1] = kind;
}

static inline void block_key(uint8_t key[BLOCK_KEY], uint64_t position) {
    key[0] = 'B';
    put_number(key + 1, position, 8);
}

/* Which rows no reader sees any more, for RocksDB to drop as it goes through its files. */
rocksdb_compactionfilterfactory_t *store_forgetter(struct store *store);
/* The position that the file beside the store has; 0 where there is none. */
uint64_t store_read_oldest(const char *folder);

#endif
