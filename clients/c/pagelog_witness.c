/* Whether a service that was connected to again has the history that this object has seen. No reply names the
 * service, and one that was restarted and restored from an archive may have the same epoch, and a log that
 * is as long. So what the object saw last in the log is read again over each new connection, before anything
 * else is believed. */
#include "pagelog_inside.h"

#include <string.h>

enum { MOST_TRIES = 64 };

static void set(struct witness *witness, uint64_t lsn, uint32_t page, uint16_t offset, const uint8_t *bytes,
                size_t length) {
    witness->lsn = lsn;
    witness->page = page;
    witness->offset = offset;
    witness->length = (uint16_t)(length < PAGELOG_WITNESS_BYTES ? length : PAGELOG_WITNESS_BYTES);
    memcpy(witness->bytes, bytes, witness->length);
}

void pagelog_expect(struct pagelog *log, uint64_t lsn, uint32_t page, uint16_t offset, const uint8_t *bytes,
                    size_t length) {
    set(&log->witness, lsn, page, offset, bytes, length);
}

/* The last record of a block; false where it has none. */
static bool find_last(const uint8_t *block, struct witness *witness) {
    static const uint8_t zeros[PAGELOG_WITNESS_BYTES];
    struct pagelog_records records;
    struct pagelog_record record, last = {0};
    pagelog_records_begin(&records, block);
    if (records.left == 0) return false;
    while (pagelog_records_next(&records, &record))
        last = record;
    if (last.length > 0)
        set(witness, records.lsn, last.page, last.offset, last.bytes, last.length);
    else
        set(witness, records.lsn, last.page, 0, zeros, sizeof zeros);
    return true;
}

void pagelog_note_block(struct pagelog *log, const uint8_t *block) {
    find_last(block, &log->witness);
}

/* Asks for the page of the witness in this role, or for its block. */
static enum pagelog_outcome ask(struct pagelog *log, enum pagelog_role role, enum pagelog_operation operation,
                                struct pagelog_reply *reply) {
    bool is_writer = role == PAGELOG_PRIMARY;
    struct pagelog_request request = {.principal = log->options.principal,
                                      .role = (uint8_t)role,
                                      .database = log->options.database,
                                      .epoch = is_writer ? log->writing_epoch : log->epoch,
                                      .operation = (uint8_t)operation,
                                      .hi = UINT16_MAX,
                                      .max = 1,
                                      .exact = 1,
                                      .lsn = log->witness.lsn,
                                      .page = log->witness.page};
    memcpy(request.token, log->options.token, PAGELOG_TOKEN_BYTES);
    return pagelog_exchange(log, &request, reply);
}

static bool is_denied(const struct pagelog_reply *reply, unsigned section, unsigned least, unsigned most) {
    return reply->kind == PAGELOG_REPLY_DENIED && reply->section == section && reply->row >= least &&
           reply->row <= most;
}

/* Whether a page or a block is what it was. */
static bool is_same(const struct witness *witness, const struct pagelog_reply *reply) {
    struct witness found = {0};
    size_t at = 0, length;
    if (reply->kind == PAGELOG_REPLY_PAGE)
        return memcmp(reply->bytes + witness->offset, witness->bytes, witness->length) == 0;
    const uint8_t *block = pagelog_next_block(reply, &at, &length);
    return block && find_last(block, &found) && found.lsn == witness->lsn && found.page == witness->page &&
           found.offset == witness->offset && found.length == witness->length &&
           memcmp(found.bytes, witness->bytes, found.length) == 0;
}

/* What the reply says of the service. */
static enum pagelog_outcome judge(struct pagelog *log, const struct pagelog_reply *reply) {
    bool is_there = reply->kind == PAGELOG_REPLY_PAGE || reply->kind == PAGELOG_REPLY_BLOCKS;
    bool ends_before = is_denied(reply, SECTION_C, 1, 1) && reply->value < log->witness.lsn;
    if ((is_there && !is_same(&log->witness, reply)) || ends_before) log->is_restarted = true;
    if (log->is_restarted) return pagelog_fail(log, PAGELOG_FENCED);
    if (is_there) return PAGELOG_DONE;
    if (reply->kind == PAGELOG_REPLY_NO_MEMORY) return pagelog_restore(log, PAGELOG_LOST, reply);
    return pagelog_restore(log, pagelog_outcome_of(reply), reply);
}

/* Who may get no page looks at the block. Where the writing epoch is over nothing of this object gets into
 * the log any more, so that it may go on even if its principal may not look at all. Epochs that rise for ever
 * end it: by their number, and by `reply_ms`. */
enum pagelog_outcome pagelog_confirm(struct pagelog *log) {
    enum pagelog_role role = log->writing_epoch > 0 ? PAGELOG_PRIMARY : PAGELOG_SECONDARY;
    enum pagelog_operation operation = PAGELOG_GET;
    bool is_over = false;
    uint64_t until = pagelog_after(log->options.reply_ms);
    for (unsigned tries = 0; tries < MOST_TRIES && (tries == 0 || pagelog_now() < until); tries++) {
        struct pagelog_reply reply = {0};
        enum pagelog_outcome outcome = ask(log, role, operation, &reply);
        if (outcome != PAGELOG_DONE) return outcome;
        if (is_denied(&reply, SECTION_A, 2, 3)) pagelog_notice(log, &reply);
        outcome = judge(log, &reply);
        bool may_pull = is_denied(&reply, SECTION_B, 0, UINT16_MAX) && operation == PAGELOG_GET;
        bool is_fenced = outcome == PAGELOG_FENCED && !log->is_restarted;
        if (!may_pull && !is_fenced) return is_over && outcome == PAGELOG_DENIED ? PAGELOG_DONE : outcome;
        is_over = is_over || (is_fenced && role == PAGELOG_PRIMARY);
        if (may_pull) operation = PAGELOG_PULL;
        role = PAGELOG_SECONDARY;
    }
    return pagelog_fail(log, PAGELOG_LOST);
}
