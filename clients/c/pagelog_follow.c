/* The follower: it pulls blocks, keeps them aside until an end mark comes, and then applies them to the pages
 * in memory. */
#include "pagelog_file_inside.h"

#include <stdlib.h>
#include <string.h>

enum {
    MOST_PENDING =
        8 << 20, /* bytes that are kept aside; past it the pages in memory are forgotten in their place */
};

static bool keep_aside(struct pending *pending, const uint8_t *block, size_t length) {
    if (pending->room - pending->length < length + 4) {
        size_t room = 2 * (pending->length + length + 4);
        uint8_t *bytes = realloc(pending->bytes, room);
        if (!bytes) return false;
        pending->bytes = bytes;
        pending->room = room;
    }
    uint8_t *at = pagelog_write_number(pending->bytes + pending->length, length, 4);
    memcpy(at, block, length);
    pending->length += 4 + length;
    return true;
}

static void apply_record(struct pagelog_file *file, const struct pagelog_record *record) {
    struct pagelog_frame *frame = pagelog_cache_find(file->cache, record->page);
    if (!frame || !frame->has_base) return;
    if (record->length == 0)
        memset(frame->base, 0, PAGELOG_PAGE_BYTES);
    else
        memcpy(frame->base + record->offset, record->bytes, record->length);
}

/* A transaction is whole: the file is what it was made into. */
static void apply_pending(struct pagelog_file *file, const struct mark *mark) {
    struct pending *pending = &file->pending;
    struct pagelog_records records;
    struct pagelog_record record;
    for (size_t at = 0; at < pending->length;) {
        size_t length = (size_t)pagelog_read_number(pending->bytes + at, 4);
        pagelog_records_begin(&records, pending->bytes + at + 4);
        while (pagelog_records_next(&records, &record))
            apply_record(file, &record);
        at += 4 + length;
    }
    pending->length = 0;
    file->mark = *mark;
    file->told_session = 0;
}

/* Takes a block that was pulled. */
static enum pagelog_outcome take_block(struct pagelog_file *file, const uint8_t *block, size_t length) {
    struct mark mark;
    if (file->pending.length + length > MOST_PENDING) {
        file->is_far = true;
        file->pending.length = 0;
    }
    if (!file->is_far && !keep_aside(&file->pending, block, length))
        return pagelog_file_fail(file, PAGELOG_NO_MEMORY, "this process has no memory left");
    file->next = next_of(position_of_block(file, block));
    if (!pagelog_has_mark(file, block, &mark)) return PAGELOG_DONE;
    enum pagelog_outcome outcome = pagelog_check_pending(file, &mark);
    if (outcome != PAGELOG_DONE) return outcome;
    if (file->is_far)
        pagelog_cache_clear(file->cache);
    else
        file->source.calls->note_pulled(file, &mark);
    file->is_far = false;
    apply_pending(file, &mark);
    return PAGELOG_DONE;
}

/* Where the log has gone far ahead, takes its newest transaction at once, and what is in memory no more.
 * `*until` is the end of the log, up to which the rest is to be pulled; 0 where nothing is. */
static enum pagelog_outcome leap(struct pagelog_file *file, struct pagelog_position *until) {
    struct pagelog_reply status;
    enum pagelog_outcome outcome = pagelog_status(file->log, PAGELOG_SECONDARY, &status);
    struct pagelog_position end = lower_of(hard_of(file, &status), file->source.calls->limit(file));
    bool is_far = outcome == PAGELOG_DONE && !is_before(end, plus(file->next, FAR_BEHIND));
    *until = is_far ? (struct pagelog_position){0} : end;
    return is_far ? pagelog_take_mark(file, end) : outcome;
}

enum pagelog_outcome pagelog_take_pulled(struct pagelog_file *file, const struct pagelog_reply *pulled) {
    struct pagelog_position limit = file->source.calls->limit(file);
    size_t at = 0, length;
    const uint8_t *block;
    while ((block = pagelog_next_block(pulled, &at, &length))) {
        if (is_before(limit, position_of_block(file, block))) return PAGELOG_DONE;
        enum pagelog_outcome outcome = take_block(file, block, length);
        if (outcome != PAGELOG_DONE) return outcome;
    }
    file->next = next_in(file, pulled);
    return PAGELOG_DONE;
}

/* It ends where the log ended when it was behind, so that a writer that goes on for ever keeps nobody here:
 * what was committed before the begin is there. After a leap nothing is pulled, however far the log is said
 * to go on from that transaction. */
enum pagelog_outcome pagelog_follow(struct pagelog_file *file) {
    struct pagelog_position until = {UINT64_MAX};
    if (is_before(file->source.calls->limit(file), file->next)) return PAGELOG_DONE;
    for (bool may_leap = true;;) {
        struct pagelog_reply pulled;
        enum pagelog_outcome outcome = file->source.calls->pull(file, file->next, &pulled);
        if (outcome == PAGELOG_DONE) outcome = pagelog_take_pulled(file, &pulled);
        bool is_all_taken = outcome == PAGELOG_DONE && is_at(file->next, next_in(file, &pulled));
        if (!is_all_taken) return outcome; /* or it is at the limit */
        if (pulled.hard != 0 || pulled.count == 0 || is_before(until, file->next)) return PAGELOG_DONE;
        if (may_leap) outcome = leap(file, &until);
        if (is_none(until)) return outcome;
        may_leap = false;
        if (outcome != PAGELOG_DONE) return outcome;
    }
}
