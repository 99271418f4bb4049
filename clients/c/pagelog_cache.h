/* Pages in memory, each as it was committed and, where it was changed since, as it is now. Knows no service.
 */
#ifndef PAGELOG_CACHE_H
#define PAGELOG_CACHE_H

#include "pagelog.h"

struct pagelog_frame {
    uint32_t page;
    bool has_base;
    uint8_t changes;  /* commits that changed it, from any number on: those before are not known */
    uint8_t *base;    /* 8,192 bytes: the page as it was committed, where `has_base` */
    uint8_t *changed; /* 8,192 bytes: the page as the transaction has it, or NULL */
    struct pagelog_frame *next_in_chain, *newer, *older;
};

struct pagelog_cache;

/* A cache of up to `most` pages, besides those that are changed or in use. NULL where memory runs out. */
struct pagelog_cache *pagelog_cache_new(size_t most);
void pagelog_cache_free(struct pagelog_cache *cache);

/* The frame of a page, as the one used last; NULL where there is none. */
struct pagelog_frame *pagelog_cache_find(struct pagelog_cache *cache, uint32_t page);

/* Whether there is such a frame; it is used by that no more than before. */
bool pagelog_cache_has(const struct pagelog_cache *cache, uint32_t page);

/* The frame of a page, a new one without a base where there was none. The unchanged page used longest ago may
 * go for it, so at most the two frames that were asked for last may be held on to. NULL where memory runs
 * out. */
struct pagelog_frame *pagelog_cache_make(struct pagelog_cache *cache, uint32_t page);

/* Gives a frame a changed page, if it has none: its base at first, or zeros where it has no base; where
 * `whole` is true the caller replaces all of its bytes, whatever they are. False where memory runs out. */
bool pagelog_cache_change(struct pagelog_cache *cache, struct pagelog_frame *frame, bool whole);

/* Whether there are changed frames. */
bool pagelog_cache_is_changed(const struct pagelog_cache *cache);

/* The changed frames, by rising page; `*frames` is to be freed. False where memory runs out. */
bool pagelog_cache_changed(const struct pagelog_cache *cache, struct pagelog_frame ***frames, size_t *count);

/* Forgets all changes, or makes them the base. */
void pagelog_cache_undo(struct pagelog_cache *cache);
void pagelog_cache_keep(struct pagelog_cache *cache);

/* Lets unchanged pages go that were used longest ago, until there are at most so many. */
void pagelog_cache_trim(struct pagelog_cache *cache, size_t most);

/* Forgets the pages above `last`, or all pages, changes included. */
void pagelog_cache_forget_above(struct pagelog_cache *cache, uint32_t last);
void pagelog_cache_clear(struct pagelog_cache *cache);

size_t pagelog_cache_count(const struct pagelog_cache *cache);

/* How many unchanged pages it has room for. */
size_t pagelog_cache_most(const struct pagelog_cache *cache);

#endif
