/* The format of a block: the records of it, and which partitions it touches. */
#ifndef BLOCK_H
#define BLOCK_H

#include <stdbool.h>
#include <stddef.h>
#include <stdint.h>

enum { PAGE_BYTES = 8192, BLOCK_BYTES = 32768, PAGES_OF_PARTITION = 65536 };

/* A record: bytes of a page, or with no bytes the whole page in zeros. */
struct record {
    uint32_t page;
    uint16_t offset, length;
    const uint8_t *bytes;
};

/* Walks the records of a block, one after the other. */
struct records {
    const uint8_t *at, *end;
    unsigned left;
};

/* Begins with the first record. False: these bytes do not begin as a block, of whichever number. */
bool block_open(const uint8_t *block, size_t length, struct records *records);

/* The next record. False: there is none, or the bytes are no record; then `records->left` is not 0. */
bool block_next(struct records *records, struct record *record);

/* Whether all bytes were read, and were records. */
bool block_is_whole(const struct records *records);

/* Whether a block that is one touches a partition from `low` to `high`. */
bool block_touches(const uint8_t *block, unsigned low, unsigned high);

#endif
