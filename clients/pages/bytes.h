/* Numbers as bytes, the high one first, as all formats of the service have them. */
#ifndef BYTES_H
#define BYTES_H

#include <stddef.h>
#include <stdint.h>

static inline uint64_t number_at(const uint8_t *bytes, size_t size) {
    uint64_t number = 0;
    for (size_t at = 0; at < size; at++)
        number = number << 8 | bytes[at];
    return number;
}

/* Returns what comes after it. */
static inline uint8_t *put_number(uint8_t *bytes, uint64_t number, size_t size) {
    for (size_t at = size; at > 0; at--, number >>= 8)
        bytes[at - 1] = (uint8_t)number;
    return bytes + size;
}

#endif
