#include "hot.h"

#include <pthread.h>
#include <stdlib.h>
#include <string.h>

enum { LOCKS = 64 };

/* The page from position `from` to `upto`; that is 0 where there is none. */
struct slot {
    uint64_t from, upto;
    uint32_t page;
    uint8_t bytes[PAGE_BYTES];
};

struct hot {
    struct slot *slots;
    size_t count;
    pthread_mutex_t locks[LOCKS];
};

struct hot *hot_new(size_t bytes) {
    struct hot *hot = calloc(1, sizeof *hot);
    if (!hot) return NULL;
    hot->count = bytes / sizeof *hot->slots + 1;
    hot->slots = calloc(hot->count, sizeof *hot->slots);
    for (size_t n = 0; n < LOCKS; n++)
        pthread_mutex_init(&hot->locks[n], NULL);
    if (hot->slots) return hot;
    hot_free(hot);
    return NULL;
}

void hot_free(struct hot *hot) {
    if (!hot) return;
    for (size_t n = 0; n < LOCKS; n++)
        pthread_mutex_destroy(&hot->locks[n]);
    free(hot->slots);
    free(hot);
}

/* The place of a page, locked. */
static struct slot *lock(struct hot *hot, uint32_t page) {
    pthread_mutex_lock(&hot->locks[page % hot->count % LOCKS]);
    return &hot->slots[page % hot->count];
}

static void unlock(struct hot *hot, const struct slot *slot) {
    pthread_mutex_unlock(&hot->locks[(size_t)(slot - hot->slots) % LOCKS]);
}

static bool is_in(const struct slot *slot, uint32_t page, uint64_t position) {
    return slot->upto && slot->page == page && slot->from <= position && position <= slot->upto;
}

bool hot_has(struct hot *hot, uint32_t page, uint64_t position) {
    struct slot *slot = lock(hot, page);
    bool is_here = is_in(slot, page, position);
    unlock(hot, slot);
    return is_here;
}

bool hot_find(struct hot *hot, uint32_t page, uint64_t position, uint8_t out[PAGE_BYTES]) {
    struct slot *slot = lock(hot, page);
    bool is_here = is_in(slot, page, position);
    if (is_here) memcpy(out, slot->bytes, PAGE_BYTES);
    unlock(hot, slot);
    return is_here;
}

bool hot_is_still(struct hot *hot, uint32_t page, uint64_t from, uint64_t position, uint8_t out[PAGE_BYTES]) {
    struct slot *slot = lock(hot, page);
    bool is_here = slot->upto && slot->page == page && slot->from == from;
    if (is_here) {
        memcpy(out, slot->bytes, PAGE_BYTES);
        if (slot->upto < position) slot->upto = position;
    }
    unlock(hot, slot);
    return is_here;
}

void hot_keep(struct hot *hot, uint32_t page, uint64_t from, uint64_t position,
              const uint8_t bytes[PAGE_BYTES]) {
    struct slot *slot = lock(hot, page);
    bool has_later = slot->upto && slot->page == page && slot->from > from;
    if (!has_later) {
        slot->page = page;
        slot->from = from;
        slot->upto = position;
        memcpy(slot->bytes, bytes, PAGE_BYTES);
    }
    unlock(hot, slot);
}
