/* Transactions in one piece of memory. Where it is full the older half of it goes. */
#include "pagelog_held.h"

#include "pagelog_common.h"

#include <stdlib.h>

enum { MOST_MARKS = 1024, MOST_BYTES = 4 << 20, LENGTH_BYTES = 4 };

void pagelog_held_free(struct pagelog_held *held) {
    free(held->bytes);
    free(held->marks);
    *held = (struct pagelog_held){0};
}

void pagelog_held_begin(struct pagelog_held *held, const struct pagelog_held_mark *mark) {
    held->count = held->length = 0;
    if (!held->marks) held->marks = malloc(MOST_MARKS * sizeof *held->marks);
    if (!held->marks) return;
    held->marks[held->count++] = *mark;
    held->marks[0].at = 0;
}

/* Forgets the older half, of marks or of bytes. */
static void forget_half(struct pagelog_held *held) {
    size_t first = held->count / 2;
    while (first < held->count - 1 && held->marks[first].at < held->length / 2)
        first++;
    size_t gone = held->marks[first].at;
    held->length -= gone;
    held->count -= first;
    if (held->length > 0) memmove(held->bytes, held->bytes + gone, held->length);
    memmove(held->marks, held->marks + first, held->count * sizeof *held->marks);
    for (size_t i = 0; i < held->count; i++)
        held->marks[i].at -= gone;
}

static bool reserve(struct pagelog_held *held, size_t wanted) {
    if (held->room - held->length >= wanted) return true;
    size_t room = 2 * (held->length + wanted);
    uint8_t *bytes = realloc(held->bytes, room);
    if (!bytes) return false;
    held->bytes = bytes;
    held->room = room;
    return true;
}

void pagelog_held_add(struct pagelog_held *held, const struct pagelog_held_mark *mark, const uint8_t *blocks,
                      size_t length) {
    if (held->count == 0 || length > MOST_BYTES / 2) return pagelog_held_begin(held, mark);
    if (held->count == MOST_MARKS || held->length + length > MOST_BYTES) forget_half(held);
    if (!reserve(held, length)) return pagelog_held_begin(held, mark);
    if (length > 0) memcpy(held->bytes + held->length, blocks, length);
    held->length += length;
    held->marks[held->count] = *mark;
    held->marks[held->count++].at = held->length;
}

const struct pagelog_held_mark *pagelog_held_last(const struct pagelog_held *held) {
    return held->count > 0 ? &held->marks[held->count - 1] : NULL;
}

const struct pagelog_held_mark *pagelog_held_until(const struct pagelog_held *held,
                                                   struct pagelog_position position) {
    for (size_t i = held->count; i > 0; i--)
        if (!is_before(position, held->marks[i - 1].position)) return &held->marks[i - 1];
    return NULL;
}

static void lay_record(const struct pagelog_record *record, const uint32_t *pages, size_t count,
                       uint8_t *bytes) {
    for (size_t i = 0; i < count; i++) {
        uint8_t *page = bytes + i * PAGELOG_PAGE_BYTES;
        if (pages[i] != record->page) continue;
        if (record->length == 0)
            memset(page, 0, PAGELOG_PAGE_BYTES);
        else
            memcpy(page + record->offset, record->bytes, record->length);
    }
}

void pagelog_held_lay(const struct pagelog_held *held, const struct pagelog_held_mark *from,
                      const uint32_t *pages, size_t count, uint8_t *bytes) {
    struct pagelog_records records;
    struct pagelog_record record;
    for (size_t at = from->at; at < held->length;) {
        size_t length = (size_t)pagelog_read_number(held->bytes + at, LENGTH_BYTES);
        pagelog_records_begin(&records, held->bytes + at + LENGTH_BYTES);
        while (pagelog_records_next(&records, &record))
            lay_record(&record, pages, count, bytes);
        at += LENGTH_BYTES + length;
    }
}
