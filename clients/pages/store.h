/* The pages of one database, at each position that is kept, over RocksDB.
 *
 * A row of the store is the image of a page at a position, or what a block changes of a page; a page at a
 * position is the newest image at or below it and the changes between. There is no log beside it: the archive
 * is the log. What a crash leaves is the store as it was a moment before, which its own row says, and the
 * rest is taken from the archive again.
 *
 * Rows above the confirmed position are not seen: they count once the digest of all blocks up to there is the
 * archive's. One thread writes; any number read, each by a view of its own. */
#ifndef STORE_H
#define STORE_H

#include "block.h"

enum { CHAIN_BYTES = 16 };

struct store_settings {
    const char *folder;
    size_t cache, memtable; /* bytes */
    bool direct;            /* reads pass by the system's cache */
};

enum store_end {
    STORE_DONE,
    STORE_NOT_NEXT,    /* the block is not the one behind the last; nothing has changed */
    STORE_NO_BLOCK,    /* it is no block; nothing has changed */
    STORE_OTHER_CHAIN, /* what was written since the confirmed position is not what the archive has: begin
                          again */
    STORE_NO_MEMORY,   /* nothing has changed */
    STORE_FAILED,      /* the disk; `store_why` says more */
};

struct store;

/* NULL: `why` says it, and is to be freed. */
struct store *store_open(const struct store_settings *settings, char **why);
/* Writes what is in memory alone to the disk. */
void store_close(struct store *store);

/* Up to which position pages are served; what was written; what a crash leaves; and from where on positions
 * are kept. */
uint64_t store_confirmed(const struct store *store);
uint64_t store_written(const struct store *store);
uint64_t store_persisted(const struct store *store);
uint64_t store_oldest(const struct store *store);
/* Why the last call of the writer failed. */
const char *store_why(const struct store *store);
/* Why a page or a block could not be read, the first time; NULL: all could. */
const char *store_damage(const struct store *store);

/* Whether it has nothing yet, so that it may begin with a base: images at one position. The images come
 * first, in any order; `chain` is that of all blocks up to the position. Until `store_begin_at` the store has
 * nothing. */
bool store_is_empty(const struct store *store);
enum store_end store_add_image(struct store *store, uint32_t page, uint64_t position,
                               const uint8_t bytes[PAGE_BYTES]);
enum store_end store_begin_at(struct store *store, uint64_t position, const uint8_t chain[CHAIN_BYTES],
                              size_t chain_length);

/* Adds the block of the next position to what `store_write` writes at once. */
enum store_end store_add(struct store *store, const uint8_t *block, size_t length);
/* Writes what was added. With a chain, of the archive at the last position of it, that is confirmed if it is
 * alike. */
enum store_end store_write(struct store *store, const uint8_t *chain);

/* Positions below this one are forgotten, once this is on the disk; `false`: it is not. It never falls. */
bool store_forget(struct store *store, uint64_t oldest);
/* Brings what is in memory to the disk. */
enum store_end store_flush(struct store *store);

/* A thread's own way to read. */
struct store_view;
struct store_view *store_view_new(struct store *store);
void store_view_free(struct store_view *view);
/* Lets go of memory and files that the store would have given up since. To be called now and then, also by
 * who reads nothing more. Returns whether there may be more to let go of later. */
bool store_view_rest(struct store_view *view);

/* The page at a position from `store_oldest` to `store_confirmed`. False: the disk failed, or what it has is
 * damaged. */
bool store_page(struct store_view *view, uint32_t page, uint64_t position, uint8_t out[PAGE_BYTES]);

/* Whether that page is in memory as it is then; false: it may be all the same. */
bool store_has_page(struct store *store, uint32_t page, uint64_t position);
/* How many reads of the disk the calling thread has done, where it is the only one that uses this view. */
uint64_t store_reads(struct store_view *view);

/* The first block at `*position` or behind it, at most `last`, which touches a partition from `low` to
 * `high`. `*position` becomes its own; 0: there is none. The bytes are the view's until its next call. False:
 * as above. */
bool store_block(struct store_view *view, uint64_t *position, uint64_t last, unsigned low, unsigned high,
                 const uint8_t **block, size_t *length);

#endif
