#include "pagelog_cache.h"

#include <stdlib.h>
#include <string.h>
#include <sys/mman.h>

enum { LEAST_CHAINS = 1024, LEAST_PAGES = 16 };

/* Of a slab: its bytes, which are a huge page's of the system, and the pages after its head. */
enum { SLAB_BYTES = 2 << 20, SLAB_PAGES = SLAB_BYTES / PAGELOG_PAGE_BYTES - 1 };

/* Frames from the one used last to the one used longest ago. */
struct list {
    struct pagelog_frame *newest, *oldest;
    size_t count;
};

/* Memory for pages. The system may give it as one huge page: then the first use of a page is no fault of its
 * own, and all of a slab is one address for the processor to look up. */
struct slab {
    struct slab *next, *previous; /* in the list of those with pages that nobody uses */
    unsigned free_count;          /* such pages */
    uint8_t free[SLAB_PAGES];     /* their numbers in the slab, from 0 on; the last one was given back last */
};

_Static_assert(sizeof(struct slab) <= PAGELOG_PAGE_BYTES && SLAB_PAGES <= UINT8_MAX + 1,
               "a slab has its head");

struct pagelog_cache {
    size_t most;
    struct pagelog_frame **chains;
    size_t chain_count; /* a power of two */
    struct list changed, unchanged;
    struct slab *slabs;    /* those with pages that nobody uses */
    unsigned unused_slabs; /* how many of them have no others: 0 or 1 */
    uint32_t made;         /* frames that were made */
};

/* ---- Memory for pages ---- */

static void link_slab(struct pagelog_cache *cache, struct slab *slab) {
    slab->previous = NULL;
    slab->next = cache->slabs;
    if (cache->slabs) cache->slabs->previous = slab;
    cache->slabs = slab;
}

static void unlink_slab(struct pagelog_cache *cache, struct slab *slab) {
    *(slab->previous ? &slab->previous->next : &cache->slabs) = slab->next;
    if (slab->next) slab->next->previous = slab->previous;
}

/* A slab of pages that nobody uses, at a multiple of its length; NULL where memory runs out. */
static struct slab *make_slab(void) {
    uint8_t *bytes =
        mmap(NULL, 2 * (size_t)SLAB_BYTES, PROT_READ | PROT_WRITE, MAP_PRIVATE | MAP_ANONYMOUS, -1, 0);
    if (bytes == MAP_FAILED) return NULL;
    size_t before = SLAB_BYTES - 1 - ((uintptr_t)bytes + SLAB_BYTES - 1) % SLAB_BYTES;
    struct slab *slab = (struct slab *)(bytes + before);
    if (before > 0) munmap(bytes, before);
    munmap(bytes + before + SLAB_BYTES, SLAB_BYTES - before);
    madvise(slab, SLAB_BYTES, MADV_HUGEPAGE);
    slab->free_count = SLAB_PAGES;
    for (unsigned i = 0; i < SLAB_PAGES; i++)
        slab->free[i] = (uint8_t)(SLAB_PAGES - 1 - i);
    return slab;
}

/* A page of any bytes, or NULL where memory runs out. */
static uint8_t *take_page(struct pagelog_cache *cache) {
    struct slab *slab = cache->slabs ? cache->slabs : make_slab();
    if (!slab) return NULL;
    if (!cache->slabs)
        link_slab(cache, slab);
    else if (slab->free_count == SLAB_PAGES)
        cache->unused_slabs--;
    unsigned number = slab->free[--slab->free_count];
    if (slab->free_count == 0) unlink_slab(cache, slab);
    return (uint8_t *)slab + (size_t)(number + 1) * PAGELOG_PAGE_BYTES;
}

/* A slab that is used no more is kept, so that it is not made again for the next page; a second one is not.
 */
static void give_back_page(struct pagelog_cache *cache, uint8_t *page) {
    if (!page) return;
    size_t place = (uintptr_t)page % SLAB_BYTES;
    struct slab *slab = (struct slab *)(page - place);
    if (slab->free_count == 0) link_slab(cache, slab);
    slab->free[slab->free_count++] = (uint8_t)(place / PAGELOG_PAGE_BYTES - 1);
    if (slab->free_count < SLAB_PAGES) return;
    if (cache->unused_slabs++ == 0) return;
    cache->unused_slabs--;
    unlink_slab(cache, slab);
    munmap(slab, SLAB_BYTES);
}

/* ---- Frames ---- */

struct pagelog_cache *pagelog_cache_new(size_t most) {
    struct pagelog_cache *cache = calloc(1, sizeof *cache);
    if (!cache) return NULL;
    cache->most = most > LEAST_PAGES ? most : LEAST_PAGES;
    cache->chain_count = LEAST_CHAINS;
    cache->chains = calloc(cache->chain_count, sizeof *cache->chains);
    if (cache->chains) return cache;
    free(cache);
    return NULL;
}

static struct pagelog_frame **chain_of(const struct pagelog_cache *cache, uint32_t page) {
    return &cache->chains[(page * UINT32_C(2654435761) >> 7) & (cache->chain_count - 1)];
}

static void put_in_chain(struct pagelog_cache *cache, struct pagelog_frame *frame) {
    struct pagelog_frame **chain = chain_of(cache, frame->page);
    frame->next_in_chain = *chain;
    *chain = frame;
}

/* Twice as many chains; as many as before where memory runs out. */
static void spread(struct pagelog_cache *cache) {
    struct pagelog_frame **chains = calloc(cache->chain_count * 2, sizeof *chains);
    if (!chains) return;
    free(cache->chains);
    cache->chains = chains;
    cache->chain_count *= 2;
    for (struct pagelog_frame *frame = cache->changed.newest; frame; frame = frame->older)
        put_in_chain(cache, frame);
    for (struct pagelog_frame *frame = cache->unchanged.newest; frame; frame = frame->older)
        put_in_chain(cache, frame);
}

static struct list *list_of(struct pagelog_cache *cache, const struct pagelog_frame *frame) {
    return frame->changed ? &cache->changed : &cache->unchanged;
}

static void unlink_frame(struct pagelog_cache *cache, struct pagelog_frame *frame) {
    struct list *list = list_of(cache, frame);
    *(frame->newer ? &frame->newer->older : &list->newest) = frame->older;
    *(frame->older ? &frame->older->newer : &list->oldest) = frame->newer;
    list->count--;
}

static void link_newest(struct pagelog_cache *cache, struct pagelog_frame *frame) {
    struct list *list = list_of(cache, frame);
    frame->newer = NULL;
    frame->older = list->newest;
    *(list->newest ? &list->newest->newer : &list->oldest) = frame;
    list->newest = frame;
    list->count++;
}

/* Gives the frame this page as its changed one, or none. */
static void set_changed(struct pagelog_cache *cache, struct pagelog_frame *frame, uint8_t *changed) {
    unlink_frame(cache, frame);
    if (!changed) give_back_page(cache, frame->changed);
    frame->changed = changed;
    link_newest(cache, frame);
}

static void drop_frame(struct pagelog_cache *cache, struct pagelog_frame *frame) {
    struct pagelog_frame **at = chain_of(cache, frame->page);
    while (*at != frame)
        at = &(*at)->next_in_chain;
    *at = frame->next_in_chain;
    unlink_frame(cache, frame);
    give_back_page(cache, frame->changed);
    give_back_page(cache, frame->base);
    free(frame);
}

void pagelog_cache_clear(struct pagelog_cache *cache) {
    while (cache->changed.oldest)
        drop_frame(cache, cache->changed.oldest);
    while (cache->unchanged.oldest)
        drop_frame(cache, cache->unchanged.oldest);
}

void pagelog_cache_free(struct pagelog_cache *cache) {
    if (!cache) return;
    pagelog_cache_clear(cache);
    while (cache->slabs) { /* the one that is kept */
        struct slab *slab = cache->slabs;
        unlink_slab(cache, slab);
        munmap(slab, SLAB_BYTES);
    }
    free(cache->chains);
    free(cache);
}

struct pagelog_frame *pagelog_cache_find(struct pagelog_cache *cache, uint32_t page) {
    struct pagelog_frame *frame = *chain_of(cache, page);
    while (frame && frame->page != page)
        frame = frame->next_in_chain;
    if (frame && frame->newer) {
        unlink_frame(cache, frame);
        link_newest(cache, frame);
    }
    return frame;
}

bool pagelog_cache_has(const struct pagelog_cache *cache, uint32_t page) {
    const struct pagelog_frame *frame = *chain_of(cache, page);
    while (frame && frame->page != page)
        frame = frame->next_in_chain;
    return frame != NULL;
}

void pagelog_cache_trim(struct pagelog_cache *cache, size_t most) {
    while (cache->unchanged.count > most)
        drop_frame(cache, cache->unchanged.oldest);
}

/* Makes room for one page more. LEAST_PAGES or more are there then, so the two used last stay. */
static void make_room(struct pagelog_cache *cache) {
    pagelog_cache_trim(cache, cache->most - 1);
}

struct pagelog_frame *pagelog_cache_make(struct pagelog_cache *cache, uint32_t page) {
    struct pagelog_frame *frame = pagelog_cache_find(cache, page);
    if (frame) return frame;
    make_room(cache);
    if (pagelog_cache_count(cache) >= 2 * cache->chain_count) spread(cache);
    frame = calloc(1, sizeof *frame);
    if (!frame) return NULL;
    frame->base = take_page(cache);
    if (!frame->base) {
        free(frame);
        return NULL;
    }
    frame->page = page;
    frame->changes = (uint8_t)(++cache->made * UINT32_C(2654435761) >> 24);
    put_in_chain(cache, frame);
    link_newest(cache, frame);
    return frame;
}

bool pagelog_cache_change(struct pagelog_cache *cache, struct pagelog_frame *frame, bool whole) {
    if (frame->changed) return true;
    uint8_t *changed = take_page(cache);
    if (!changed) return false;
    if (!whole && frame->has_base)
        memcpy(changed, frame->base, PAGELOG_PAGE_BYTES);
    else if (!whole)
        memset(changed, 0, PAGELOG_PAGE_BYTES);
    set_changed(cache, frame, changed);
    return true;
}

static int compare_pages(const void *one, const void *other) {
    uint32_t a = (*(struct pagelog_frame *const *)one)->page,
             b = (*(struct pagelog_frame *const *)other)->page;
    return a < b ? -1 : a > b;
}

bool pagelog_cache_changed(const struct pagelog_cache *cache, struct pagelog_frame ***frames, size_t *count) {
    *count = 0;
    *frames = malloc((cache->changed.count + 1) * sizeof **frames);
    if (!*frames) return false;
    for (struct pagelog_frame *frame = cache->changed.newest; frame; frame = frame->older)
        (*frames)[(*count)++] = frame;
    qsort(*frames, *count, sizeof **frames, compare_pages);
    return true;
}

bool pagelog_cache_is_changed(const struct pagelog_cache *cache) {
    return cache->changed.count > 0;
}

void pagelog_cache_undo(struct pagelog_cache *cache) {
    struct pagelog_frame *frame;
    while ((frame = cache->changed.oldest)) {
        set_changed(cache, frame, NULL);
        if (!frame->has_base) drop_frame(cache, frame);
    }
}

void pagelog_cache_keep(struct pagelog_cache *cache) {
    struct pagelog_frame *frame;
    while ((frame = cache->changed.oldest)) {
        uint8_t *old = frame->base;
        frame->base = frame->changed;
        frame->changed = old;
        frame->has_base = true;
        frame->changes++;
        set_changed(cache, frame, NULL);
    }
}

static void forget_above(struct pagelog_cache *cache, const struct list *list, uint32_t last) {
    for (struct pagelog_frame *frame = list->newest, *older; frame; frame = older) {
        older = frame->older;
        if (frame->page > last) drop_frame(cache, frame);
    }
}

void pagelog_cache_forget_above(struct pagelog_cache *cache, uint32_t last) {
    forget_above(cache, &cache->changed, last);
    forget_above(cache, &cache->unchanged, last);
}

size_t pagelog_cache_count(const struct pagelog_cache *cache) {
    return cache->changed.count + cache->unchanged.count;
}

size_t pagelog_cache_most(const struct pagelog_cache *cache) {
    return cache->most;
}
