#include "block.h"

#include "bytes.h"

enum { LSN_BYTES = 8, COUNT_BYTES = 2, PUT = 1, ZERO = 2, PUT_HEAD = 9, ZERO_BYTES = 5 };

bool block_open(const uint8_t *block, size_t length, struct records *records) {
    size_t head = LSN_BYTES + COUNT_BYTES;
    if (length < head + COUNT_BYTES || length > BLOCK_BYTES) return false;
    size_t annotations = COUNT_BYTES * (size_t)number_at(block + LSN_BYTES, COUNT_BYTES);
    if (length < head + annotations + COUNT_BYTES) return false;
    records->at = block + head + annotations + COUNT_BYTES;
    records->end = block + length;
    records->left = (unsigned)number_at(block + head + annotations, COUNT_BYTES);
    return true;
}

bool block_next(struct records *records, struct record *record) {
    size_t rest = (size_t)(records->end - records->at);
    const uint8_t *at = records->at;
    if (records->left == 0 || rest < ZERO_BYTES) return false;
    *record = (struct record){.page = (uint32_t)number_at(at + 1, 4)};
    if (*at == ZERO) {
        records->at += ZERO_BYTES;
    } else {
        if (*at != PUT || rest < PUT_HEAD) return false;
        record->offset = (uint16_t)number_at(at + 5, 2);
        record->length = (uint16_t)number_at(at + 7, 2);
        record->bytes = at + PUT_HEAD;
        if (record->length == 0 || record->offset + record->length > PAGE_BYTES) return false;
        if (rest - PUT_HEAD < record->length) return false;
        records->at += PUT_HEAD + record->length;
    }
    records->left--;
    return true;
}

bool block_is_whole(const struct records *records) {
    return records->left == 0 && records->at == records->end;
}

bool block_touches(const uint8_t *block, unsigned low, unsigned high) {
    unsigned count = (unsigned)number_at(block + LSN_BYTES, COUNT_BYTES);
    const uint8_t *at = block + LSN_BYTES + COUNT_BYTES;
    for (unsigned n = 0; n < count; n++, at += COUNT_BYTES) {
        unsigned partition = (unsigned)number_at(at, COUNT_BYTES);
        if (low <= partition && partition <= high) return true;
    }
    return false;
}
