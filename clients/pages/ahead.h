/* Reads pages into memory together, for a connection that has asked for many, by a bounded number of threads
 * that all connections share. What is read is asked of the store again afterwards: nothing is answered by
 * this. */
#ifndef AHEAD_H
#define AHEAD_H

#include "store.h"

struct place {
    uint32_t page;
    uint64_t position;
};

struct ahead;

/* NULL: no memory, or no thread. */
struct ahead *ahead_start(struct store *store, unsigned threads);
void ahead_stop(struct ahead *ahead);

/* Returns once each was read, or could not be; who called reads too, by its own view. Returns how many reads
 * of the disk that took. */
uint64_t ahead_read(struct ahead *ahead, struct store_view *view, const struct place *places, unsigned count);

#endif
