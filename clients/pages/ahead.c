#include "ahead.h"

#include <pthread.h>
#include <stdlib.h>
#include <time.h>

/* What one caller wants, until all of it is read. */
struct batch {
    const struct place *places;
    unsigned count, next, done;
    uint64_t reads;
    pthread_cond_t is_done;
    struct batch *after;
};

struct ahead {
    struct store *store;
    pthread_mutex_t lock;
    pthread_cond_t has_more;
    struct batch *first, **last; /* those with places that nobody reads yet */
    bool ends;
    unsigned count;
    pthread_t *threads;
};

/* The next place of a batch, which has one. Locked. */
static const struct place *take(struct ahead *ahead, struct batch *batch) {
    const struct place *place = &batch->places[batch->next++];
    if (batch->next < batch->count) return place;
    struct batch **at = &ahead->first;
    while (*at != batch)
        at = &(*at)->after;
    *at = batch->after;
    if (ahead->last == &batch->after) ahead->last = at;
    return place;
}

/* Unlocks meanwhile. That a page cannot be read is found again by who asks for it. */
static void read_one(struct ahead *ahead, struct batch *batch, struct store_view *view, uint8_t *out) {
    const struct place *place = take(ahead, batch);
    pthread_mutex_unlock(&ahead->lock);
    uint64_t before = store_reads(view);
    store_page(view, place->page, place->position, out);
    uint64_t reads = store_reads(view) - before;
    pthread_mutex_lock(&ahead->lock);
    batch->reads += reads;
    if (++batch->done == batch->count) pthread_cond_signal(&batch->is_done);
}

/* Waits for more. Where the view holds something, a second at most. Locked, but while it lets go of that. */
static void rest(struct ahead *ahead, struct store_view *view) {
    struct timespec until;
    clock_gettime(CLOCK_MONOTONIC, &until);
    until.tv_sec++;
    pthread_mutex_unlock(&ahead->lock);
    bool holds = store_view_rest(view);
    pthread_mutex_lock(&ahead->lock);
    if (ahead->first || ahead->ends) return;
    if (holds)
        pthread_cond_clockwait(&ahead->has_more, &ahead->lock, CLOCK_MONOTONIC, &until);
    else
        pthread_cond_wait(&ahead->has_more, &ahead->lock);
}

static void *work(void *given) {
    struct ahead *ahead = given;
    uint8_t out[PAGE_BYTES];
    struct store_view *view = store_view_new(ahead->store);
    pthread_setname_np(pthread_self(), "reader");
    pthread_mutex_lock(&ahead->lock);
    while (view && !ahead->ends) {
        if (ahead->first)
            read_one(ahead, ahead->first, view, out);
        else
            rest(ahead, view);
    }
    pthread_mutex_unlock(&ahead->lock);
    store_view_free(view);
    return NULL;
}

struct ahead *ahead_start(struct store *store, unsigned threads) {
    struct ahead *ahead = calloc(1, sizeof *ahead);
    if (!ahead) return NULL;
    ahead->store = store;
    ahead->last = &ahead->first;
    pthread_mutex_init(&ahead->lock, NULL);
    pthread_cond_init(&ahead->has_more, NULL);
    ahead->threads = calloc(threads, sizeof *ahead->threads);
    while (ahead->threads && ahead->count < threads &&
           pthread_create(&ahead->threads[ahead->count], NULL, work, ahead) == 0) {
        ahead->count++;
    }
    if (ahead->count == threads) return ahead;
    ahead_stop(ahead);
    return NULL;
}

void ahead_stop(struct ahead *ahead) {
    if (!ahead) return;
    pthread_mutex_lock(&ahead->lock);
    ahead->ends = true;
    pthread_cond_broadcast(&ahead->has_more);
    pthread_mutex_unlock(&ahead->lock);
    for (unsigned n = 0; n < ahead->count; n++)
        pthread_join(ahead->threads[n], NULL);
    pthread_cond_destroy(&ahead->has_more);
    pthread_mutex_destroy(&ahead->lock);
    free(ahead->threads);
    free(ahead);
}

uint64_t ahead_read(struct ahead *ahead, struct store_view *view, const struct place *places,
                    unsigned count) {
    uint8_t out[PAGE_BYTES];
    struct batch batch = {.places = places, .count = count};
    if (count == 0) return 0;
    pthread_cond_init(&batch.is_done, NULL);
    pthread_mutex_lock(&ahead->lock);
    *ahead->last = &batch;
    ahead->last = &batch.after;
    pthread_cond_broadcast(&ahead->has_more);
    while (batch.next < batch.count)
        read_one(ahead, &batch, view, out);
    while (batch.done < batch.count)
        pthread_cond_wait(&batch.is_done, &ahead->lock);
    pthread_mutex_unlock(&ahead->lock);
    pthread_cond_destroy(&batch.is_done);
    return batch.reads;
}
