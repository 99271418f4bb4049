/* Whether a reply may come to the request that it answers by its place. */
#include "pagelog_inside.h"

struct asked pagelog_asked_of(const struct pagelog_request *request) {
    return (struct asked){.lsn = request->lsn,
                          .epoch = request->epoch,
                          .page = request->page,
                          .max = request->max,
                          .operation = request->operation,
                          .is_exact = request->exact};
}

/* Whether the blocks are those that this pull may be served. */
static bool are_pulled(const struct pagelog_reply *blocks, struct asked asked) {
    uint64_t last = asked.lsn - 1;
    size_t at = 0, length;
    const uint8_t *block;
    while ((block = pagelog_next_block(blocks, &at, &length))) {
        uint64_t lsn = pagelog_read_number(block, 8);
        if (lsn <= last) return false;
        last = lsn;
    }
    return blocks->count <= asked.max && blocks->next > last && blocks->next > asked.lsn;
}

/* Whether the entries have the numbers that were asked for. */
static bool are_entries(const struct pagelog_reply *entries, struct asked asked) {
    bool is_first = entries->count == 0 || pagelog_read_number(entries->bytes, 8) == asked.lsn;
    return entries->count <= asked.max && is_first;
}

bool pagelog_answers(struct asked asked, const struct pagelog_reply *reply) {
    if (reply->kind >= PAGELOG_REPLY_DENIED) return true;
    switch (asked.operation) {
    case PAGELOG_GET:
        return reply->kind == PAGELOG_REPLY_PAGE && reply->at >= asked.lsn &&
               (reply->at == asked.lsn || !asked.is_exact);
    case PAGELOG_PULL:
        return reply->kind == PAGELOG_REPLY_BLOCKS && are_pulled(reply, asked);
    case PAGELOG_STATUS:
        return reply->kind == PAGELOG_REPLY_STATUS && reply->epoch == asked.epoch;
    case PAGELOG_AUDIT:
        return reply->kind == PAGELOG_REPLY_ENTRIES && are_entries(reply, asked);
    }
    return reply->kind == PAGELOG_REPLY_DONE;
}
