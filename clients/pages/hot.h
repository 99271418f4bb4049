/* Whole pages in memory, by page: each as its newest row made it, and up to which position that row was the
 * newest. What the rows say of a position never changes, so nothing here becomes wrong, and nothing is taken
 * out: another page takes its place. For any number of threads. */
#ifndef HOT_H
#define HOT_H

#include "block.h"

struct hot;

/* Of so many bytes; NULL without memory. */
struct hot *hot_new(size_t bytes);
void hot_free(struct hot *hot);

/* Whether the page at this position is here, without a look at the rows. */
bool hot_find(struct hot *hot, uint32_t page, uint64_t position, uint8_t out[PAGE_BYTES]);
/* The same, without its bytes. */
bool hot_has(struct hot *hot, uint32_t page, uint64_t position);
/* As `hot_find`, where its newest row at or below the position is known, which is of position `from`; 0:
 * none. */
bool hot_is_still(struct hot *hot, uint32_t page, uint64_t from, uint64_t position, uint8_t out[PAGE_BYTES]);
void hot_keep(struct hot *hot, uint32_t page, uint64_t from, uint64_t position,
              const uint8_t bytes[PAGE_BYTES]);

#endif
