/* The append: it knows the blocks until they are in the log, repeats them after a lost connection, and turns
 * the replies into an outcome that never lies.
 *
 * What it rests on, of docs/RULES.md:
 *   - The content of an LSN is fixed in an epoch. So a block may be written again, and a write that was Done
 * says that the content is this block.
 *   - A report says nothing about whose blocks it hardens. So the reply to each write is read.
 *   - What is connected to again may be another run of the service, restored from an archive: the history of
 * the log is compared (pagelog_witness.c), but nothing shows what its window holds. So a write that was Done
 * before is written again, or looked for.
 *   - A failover hardens the longest run of blocks that are in a quorum of copies. So blocks that were Done
 * in a quorum are in the log once their epoch is over, whatever became of their report.
 *   - Nothing of an epoch that is over can be written any more. So a block that was then in fewer copies than
 * a quorum, and was not hardened, never will be.
 *   - A landing zone has three copies and quorum two, or six and four, and keeps them for an epoch. Which of
 * the two it is no reply says, and the object may have been given the wrong one. So what holds of one of them
 * alone is said once the replies have shown the zone, or after a look at the log.
 */
#include "pagelog_inside.h"

#include <string.h>

enum { MEMORY_TRIES = 5 };

static const struct pagelog_zone three_copies = {3, 2, true}, six_copies = {6, 4, true};

/* What is known of a block above the end of the log: of each copy a bit. */
struct marks {
    uint8_t done;   /* the write was Done */
    uint8_t unsure; /* the write was sent, and its reply was lost */
};

struct append {
    struct pagelog *log;
    const struct pagelog_blocks *blocks;
    size_t count;
    unsigned wanted;                    /* to how many copies the caller wants them written; 0: the quorum */
    uint64_t base;                      /* the LSN of block 0 */
    size_t first;                       /* the blocks before it are in the log */
    struct marks marks[PAGELOG_WINDOW]; /* of block i, first <= i < first + 64, at i % 64 */
    struct ahead ahead;    /* what was sent before; `done` of its replies are still to be counted */
    bool is_report_unsure; /* a report of the last block was sent, and its reply was lost */
    /* What the last group was answered. */
    bool is_reported, is_ahead;    /* the report was Done; a write met an LSN in the log (C2) */
    bool has_fourth, lacks_fourth; /* a write to the fourth copy or above was Done; was denied C5 */
    enum pagelog_outcome refusal;  /* that the epoch is over, else the first one, or DONE */
    struct pagelog_reply refused;
};

static struct marks *marks_of(struct append *append, size_t index) {
    return &append->marks[index % PAGELOG_WINDOW];
}

static unsigned count_of(unsigned bits) {
    unsigned count = 0;
    for (; bits > 0; bits >>= 1)
        count += bits & 1;
    return count;
}

/* To how many copies the blocks are written. */
static unsigned copies_of(const struct append *append) {
    const struct pagelog_zone *zone = &append->log->zone;
    unsigned copies = append->wanted > zone->quorum ? append->wanted : zone->quorum;
    return copies < zone->copies ? copies : zone->copies;
}

/* The smallest and the largest quorum that the zone may have. */
static unsigned least_quorum(const struct append *append) {
    const struct pagelog_zone *zone = &append->log->zone;
    return zone->is_seen ? zone->quorum : three_copies.quorum;
}

static unsigned most_quorum(const struct append *append) {
    const struct pagelog_zone *zone = &append->log->zone;
    return zone->is_seen ? zone->quorum : six_copies.quorum;
}

/* In how many copies the last block may be. */
static unsigned copies_of_last(struct append *append) {
    size_t last = append->count - 1;
    if (last >= append->first + PAGELOG_WINDOW) return 0;
    const struct marks *marks = marks_of(append, last);
    return count_of(marks->done | marks->unsure);
}

/* Whether each of `count` blocks from the first one on was Done in `copies` copies. */
static bool are_done(struct append *append, size_t count, unsigned copies) {
    for (size_t i = append->first; i < append->first + count; i++)
        if (i >= append->first + PAGELOG_WINDOW || count_of(marks_of(append, i)->done) < copies) return false;
    return true;
}

/* The connection is gone: what was Done over it need not be so in the service that answers next. */
static void forget_answers(struct append *append) {
    for (size_t i = 0; i < PAGELOG_WINDOW; i++) {
        append->marks[i].unsure |= append->marks[i].done;
        append->marks[i].done = 0;
    }
}

/* The next `count` blocks are in the log. */
static void advance(struct append *append, size_t count) {
    size_t length;
    for (size_t i = 0; i < count && i < PAGELOG_WINDOW; i++)
        *marks_of(append, append->first + i) = (struct marks){0, 0};
    append->first += count;
    uint64_t end = append->base + append->first - 1;
    if (end > append->log->end) append->log->end = end;
    pagelog_note_block(append->log, pagelog_blocks_at(append->blocks, append->first - 1, &length));
}

/* ---- A group: writes and a report in one round trip ---- */

static enum pagelog_outcome send_writes(struct append *append, size_t index) {
    struct pagelog_request request = {.role = PAGELOG_PRIMARY, .operation = PAGELOG_WRITE};
    request.bytes = pagelog_blocks_at(append->blocks, index, &request.length);
    for (unsigned copy = 0; copy < copies_of(append); copy++) {
        if (marks_of(append, index)->done >> copy & 1) continue;
        request.copy = (uint8_t)copy;
        enum pagelog_outcome outcome = pagelog_lend(append->log, &request);
        if (outcome != PAGELOG_DONE) return outcome;
    }
    return PAGELOG_DONE;
}

static enum pagelog_outcome send_report(struct append *append, size_t count) {
    struct pagelog_request request = {.role = PAGELOG_PRIMARY, .operation = PAGELOG_REPORT};
    request.lsn = append->base + append->first + count - 1;
    return pagelog_send(append->log, &request);
}

/* Whether a refusal is this row of section C. */
static bool is_row(const struct pagelog_reply *refused, unsigned row) {
    return refused->kind == PAGELOG_REPLY_DENIED && refused->section == SECTION_C && refused->row == row;
}

static bool is_epoch_over(const struct pagelog_reply *refused) {
    return refused->kind == PAGELOG_REPLY_DENIED && refused->section == SECTION_A && refused->row == 2;
}

/* Notes what a write or the report was answered; false where the connection is gone. */
static bool note(struct append *append, enum pagelog_outcome outcome) {
    const struct pagelog_reply *refused = pagelog_refused(append->log);
    if (outcome == PAGELOG_CONFLICT && is_row(refused, 2)) append->is_ahead = true;
    bool decides = is_epoch_over(refused) && !is_epoch_over(&append->refused);
    if (outcome != PAGELOG_DONE && (append->refusal == PAGELOG_DONE || decides)) {
        append->refusal = outcome;
        append->refused = *refused;
    }
    if (outcome == PAGELOG_MALFORMED) pagelog_disconnect(append->log); /* no more of its replies is read */
    return append->log->socket >= 0;
}

/* The reply to the oldest request in flight, unless it was read before. */
static enum pagelog_outcome receive(struct append *append, bool connected) {
    struct pagelog_reply reply;
    if (append->ahead.done > 0) {
        append->ahead.done--;
        return PAGELOG_DONE;
    }
    return connected ? pagelog_receive(append->log, &reply) : PAGELOG_LOST;
}

/* Reads the replies to the writes of a block. Once the connection is gone the others' are lost with it. */
static bool receive_writes(struct append *append, size_t index, bool connected) {
    struct marks *marks = marks_of(append, index);
    for (unsigned copy = 0; copy < copies_of(append); copy++) {
        if (marks->done >> copy & 1) continue;
        enum pagelog_outcome outcome = receive(append, connected);
        if (connected) connected = note(append, outcome);
        if (outcome == PAGELOG_DONE) marks->done |= (uint8_t)(1u << copy);
        if (outcome == PAGELOG_DONE && copy >= three_copies.copies) append->has_fourth = true;
        if (outcome == PAGELOG_DENIED && copy >= three_copies.copies &&
            is_row(pagelog_refused(append->log), 5))
            append->lacks_fourth = true;
        if (!connected && outcome != PAGELOG_DONE) marks->unsure |= (uint8_t)(1u << copy);
    }
    return connected;
}

static bool receive_report(struct append *append, bool connected) {
    enum pagelog_outcome outcome = receive(append, connected);
    append->is_reported = outcome == PAGELOG_DONE;
    return connected && note(append, outcome);
}

static bool has_report_ahead(const struct append *append, size_t index) {
    return index < append->ahead.blocks && (append->ahead.reports >> index & 1);
}

/* Reads the replies to a group: of each block, and of each report. */
static bool receive_group(struct append *append, size_t count, bool connected) {
    append->log->is_in_group = true;
    for (size_t i = 0; i < count; i++) {
        connected = receive_writes(append, append->first + i, connected);
        if (i + 1 == count || has_report_ahead(append, i)) connected = receive_report(append, connected);
    }
    append->log->is_in_group = false;
    return connected;
}

static enum pagelog_outcome exchange_group(struct append *append, size_t count) {
    enum pagelog_outcome outcome = PAGELOG_DONE;
    bool has_last = append->first + count == append->count;
    append->ahead = append->log->ahead;
    append->log->ahead = (struct ahead){0};
    append->is_reported = append->is_ahead = append->has_fourth = append->lacks_fourth = false;
    append->refusal = PAGELOG_DONE;
    for (size_t i = append->ahead.blocks; i < count && outcome == PAGELOG_DONE; i++)
        outcome = send_writes(append, append->first + i);
    if (outcome == PAGELOG_DONE && !has_report_ahead(append, count - 1)) outcome = send_report(append, count);
    if (outcome != PAGELOG_DONE) { /* nothing has left this process yet, but for what was sent ahead */
        pagelog_disconnect(append->log);
        note(append, outcome);
        receive_group(append, append->ahead.blocks, false);
        append->is_report_unsure |= has_last && has_report_ahead(append, count - 1);
        return outcome;
    }
    bool connected = receive_group(append, count, true);
    if (!connected && has_last && !append->is_reported) append->is_report_unsure = true;
    return append->refusal;
}

/* Whether the group that was exchanged is in the log. A report that was Done hardened the contents of these
 * LSNs, and a write that was Done says that the content is this block. */
static bool is_in_log(struct append *append, size_t count) {
    return append->is_reported && are_done(append, count, 1);
}

/* Learns from the replies to a group which landing zone the epoch has. Whether it is not the one that the
 * group was written for. A report that was Done shows a quorum only where these blocks are the ones that it
 * is about, and nobody else is known to write in the epoch. */
static bool learn_zone(struct append *append, size_t count) {
    struct pagelog *log = append->log;
    struct pagelog_zone old = log->zone;
    bool in_fewer = copies_of(append) < six_copies.quorum;
    bool suffices = in_fewer && is_in_log(append, count) && log->owns_epoch;
    bool too_few = in_fewer && append->refusal == PAGELOG_CONFLICT && is_row(&append->refused, 6) &&
                   are_done(append, count, copies_of(append));
    if (log->zone.is_seen) return false;
    if (append->has_fourth || too_few)
        log->zone = six_copies;
    else if (append->lacks_fourth || suffices)
        log->zone = three_copies;
    return log->zone.copies != old.copies;
}

/* ---- A look at what is in the log ---- */

/* Whether the log has just these blocks from the first one on, `count` of them: DONE, CONFLICT where another
 * is in its place or the log ends before, else why it could not be learned. */
static enum pagelog_outcome look(struct append *append, size_t first, size_t count) {
    size_t seen = 0;
    while (seen < count) {
        struct pagelog_reply pulled;
        size_t at = 0, length, own_length;
        const uint8_t *block;
        unsigned max = count - seen < PAGELOG_PULL_BLOCKS ? (unsigned)(count - seen) : PAGELOG_PULL_BLOCKS;
        enum pagelog_outcome outcome = pagelog_pull(append->log, append->base + first + seen, max, &pulled);
        if (outcome == PAGELOG_DENIED && is_row(pagelog_refused(append->log), 1)) return PAGELOG_CONFLICT;
        if (outcome != PAGELOG_DONE) return outcome;
        while (seen < count && (block = pagelog_next_block(&pulled, &at, &length))) {
            const uint8_t *own = pagelog_blocks_at(append->blocks, first + seen, &own_length);
            if (length != own_length || memcmp(block, own, length) != 0) return PAGELOG_CONFLICT;
            seen++;
        }
        if (at == 0) return PAGELOG_CONFLICT;
    }
    return PAGELOG_DONE;
}

/* Whether a page has what a block makes of it: its records change nothing there any more. */
static bool has_records(const uint8_t *block, uint32_t page, const uint8_t *bytes) {
    struct pagelog_records records;
    struct pagelog_record record;
    uint8_t wanted[PAGELOG_PAGE_BYTES];
    memcpy(wanted, bytes, sizeof wanted);
    pagelog_records_begin(&records, block);
    while (pagelog_records_next(&records, &record)) {
        if (record.page != page) continue;
        if (record.length == 0) memset(wanted, 0, sizeof wanted);
        if (record.length > 0) memcpy(wanted + record.offset, record.bytes, record.length);
    }
    return memcmp(wanted, bytes, sizeof wanted) == 0;
}

/* Whether the pages that a block touches are what it makes of them at its LSN: DONE or CONFLICT. */
static enum pagelog_outcome look_at_pages(struct append *append, const uint8_t *block) {
    uint8_t bytes[PAGELOG_PAGE_BYTES];
    struct pagelog_records records;
    struct pagelog_record record;
    pagelog_records_begin(&records, block);
    for (uint64_t last = UINT64_MAX; pagelog_records_next(&records, &record); last = record.page) {
        if (record.page == last) continue;
        enum pagelog_outcome outcome =
            pagelog_get(append->log, PAGELOG_PRIMARY, records.lsn, &record.page, 1, bytes);
        if (outcome != PAGELOG_DONE) return outcome;
        if (!has_records(block, record.page, bytes)) return PAGELOG_CONFLICT;
    }
    return PAGELOG_DONE;
}

/* As look, for who may not pull: by the pages, which the primary may get. Another's block is taken for one of
 * these only where it makes the same of each page. */
static enum pagelog_outcome look_as_primary(struct append *append, size_t first, size_t count) {
    size_t length;
    enum pagelog_outcome outcome = PAGELOG_DONE;
    for (size_t i = first; i < first + count && outcome == PAGELOG_DONE; i++)
        outcome = look_at_pages(append, pagelog_blocks_at(append->blocks, i, &length));
    return outcome == PAGELOG_CONFLICT ? pagelog_restore(append->log, outcome, &append->refused) : outcome;
}

/* After a lost connection, or a write at an LSN that is in the log: learns how far the log goes, and whether
 * what is there is what was to be appended. DONE: the rest may be asked again. */
static enum pagelog_outcome catch_up(struct append *append) {
    struct pagelog_reply status;
    enum pagelog_outcome outcome = pagelog_status(append->log, PAGELOG_PRIMARY, &status);
    if (outcome != PAGELOG_DONE) return outcome;
    uint64_t next = append->base + append->first;
    if (status.hard < next) return PAGELOG_DONE;
    size_t count = append->count - append->first;
    if (status.hard - next + 1 < count) count = (size_t)(status.hard - next + 1);
    outcome = look(append, append->first, count);
    if (outcome == PAGELOG_DENIED) outcome = look_as_primary(append, append->first, count);
    if (outcome == PAGELOG_DONE) advance(append, count);
    return outcome;
}

/* ---- The end of an append ---- */

/* Ends an append that is not DONE. What the window may hold now nobody takes back but a failover. */
static enum pagelog_outcome give_up(struct append *append, enum pagelog_outcome outcome) {
    bool accepted = false;
    for (size_t i = 0; i < PAGELOG_WINDOW; i++)
        if (append->marks[i].done | append->marks[i].unsure) accepted = true;
    if (accepted) append->log->stuck = true;
    return pagelog_restore(append->log, outcome, &append->refused);
}

/* The epoch is over, so that what became of the last block is decided. */
static enum pagelog_outcome conclude_after_epoch(struct append *append) {
    size_t left = append->count - append->first;
    enum pagelog_outcome outcome = PAGELOG_DONE;
    if (copies_of_last(append) < least_quorum(append)) return give_up(append, PAGELOG_FENCED);
    if (!are_done(append, left, most_quorum(append))) {
        outcome = look(append, append->count - 1, 1);
        if (outcome == PAGELOG_CONFLICT || append->log->is_restarted) return give_up(append, PAGELOG_FENCED);
        if (outcome == PAGELOG_DONE) outcome = look(append, append->first, left);
        /* Who may not look goes by the zone that it was given. */
        if (outcome != PAGELOG_CONFLICT && are_done(append, left, append->log->zone.quorum))
            outcome = PAGELOG_DONE;
    }
    if (outcome != PAGELOG_DONE) return give_up(append, PAGELOG_IN_DOUBT);
    advance(append, left);
    return PAGELOG_DONE;
}

static bool is_dead(const struct pagelog_reply *refused) {
    return refused->kind == PAGELOG_REPLY_AUDIT_FULL || refused->kind == PAGELOG_REPLY_SPENT;
}

/* What an append has come to that cannot go on, by the last refusal. */
static enum pagelog_outcome conclude(struct append *append, enum pagelog_outcome cause) {
    if (append->log->is_restarted) return give_up(append, PAGELOG_FENCED);
    if (is_epoch_over(&append->refused)) return conclude_after_epoch(append);
    if (is_dead(&append->refused) && !append->is_report_unsure) return give_up(append, cause);
    return give_up(append, copies_of_last(append) < least_quorum(append) ? cause : PAGELOG_IN_DOUBT);
}

/* Keeps the refusal of a call within the append as its own. */
static enum pagelog_outcome taken_from_log(struct append *append, enum pagelog_outcome outcome) {
    if (outcome != PAGELOG_DONE) append->refused = *pagelog_refused(append->log);
    return outcome;
}

/* Goes on until all blocks are in the log, or why they are not. */
static enum pagelog_outcome run(struct append *append) {
    struct pagelog_patience patience = pagelog_patience_of(append->log);
    size_t most = PAGELOG_WINDOW;
    unsigned memory_tries = 0;
    while (append->first < append->count) {
        size_t left = append->count - append->first, count = left < most ? left : most;
        size_t before = append->first;
        enum pagelog_outcome outcome = exchange_group(append, count);
        bool is_other_zone = learn_zone(append, count);
        if (is_in_log(append, count)) {
            advance(append, count);
            pagelog_progress(&patience);
            memory_tries = 0;
            most = most * 2 < PAGELOG_WINDOW ? most * 2 : PAGELOG_WINDOW;
            continue;
        }
        if (is_other_zone) continue;
        if (append->log->socket < 0 && !is_epoch_over(&append->refused)) forget_answers(append);
        if (outcome == PAGELOG_LOST && pagelog_may_try_again(&patience)) {
            most = count > 1 ? count / 2 : 1;
            outcome = taken_from_log(append, catch_up(append));
        } else if (append->is_ahead) {
            outcome = taken_from_log(append, catch_up(append));
            if (outcome == PAGELOG_DONE && append->first == before) outcome = PAGELOG_CONFLICT;
        } else if (outcome == PAGELOG_NO_MEMORY && ++memory_tries < MEMORY_TRIES) {
            outcome = pagelog_may_try_again(&patience) ? PAGELOG_DONE : outcome;
        }
        if (append->first > before) pagelog_progress(&patience);
        if (outcome != PAGELOG_DONE) return conclude(append, outcome);
    }
    return PAGELOG_DONE;
}

/* Whether the blocks can be appended now; else why not. What was sent ahead is taken for theirs. */
static enum pagelog_outcome may_append(struct append *append) {
    struct pagelog *log = append->log;
    const struct ahead *ahead = &log->ahead;
    size_t length, sent = ahead->blocks * copies_of(append) + (size_t)__builtin_popcountll(ahead->reports);
    if (!pagelog_is_own(log)) return PAGELOG_MALFORMED;
    if (log->is_restarted) return PAGELOG_FENCED;
    if (log->stuck && ahead->blocks == 0) return PAGELOG_CONFLICT;
    if (log->writing_epoch == 0 || log->asked_count + ahead->done != sent || append->count < ahead->blocks ||
        append->wanted == 1 || append->wanted > PAGELOG_MOST_COPIES)
        return PAGELOG_MALFORMED;
    if (append->count == 0) return PAGELOG_DONE;
    append->base = pagelog_read_number(pagelog_blocks_at(append->blocks, 0, &length), 8);
    return append->base == log->end + 1 ? PAGELOG_DONE : PAGELOG_MALFORMED;
}

/* Queues the writes of blocks that were not sent ahead yet, as far as the window goes. Where that fails for
 * the first of them nothing has left this process, and the append sends all. */
static bool queue_ahead(struct append *append) {
    struct pagelog *log = append->log;
    bool is_first = log->ahead.blocks == 0;
    log->stuck = true;
    for (; log->ahead.blocks < append->count && log->ahead.blocks < PAGELOG_WINDOW; log->ahead.blocks++) {
        if (send_writes(append, log->ahead.blocks) == PAGELOG_DONE) continue;
        pagelog_disconnect(log);
        log->stuck = !is_first;
        return false;
    }
    return true;
}

void pagelog_append_ahead(struct pagelog *log, const struct pagelog_blocks *blocks, unsigned copies) {
    struct append append = {.log = log, .blocks = blocks, .wanted = copies};
    append.count = pagelog_blocks_count(blocks);
    if (append.count == log->ahead.blocks || may_append(&append) != PAGELOG_DONE) return;
    if (queue_ahead(&append)) pagelog_push(log);
}

bool pagelog_append_unwaited(struct pagelog *log, const struct pagelog_blocks *blocks, unsigned copies) {
    struct append append = {.log = log, .blocks = blocks, .wanted = copies};
    append.count = pagelog_blocks_count(blocks);
    if (log->socket < 0 || append.count == 0 || append.count > PAGELOG_WINDOW) return false;
    if (may_append(&append) != PAGELOG_DONE || !queue_ahead(&append)) return false;
    if (log->ahead.reports >> (append.count - 1) & 1) return true;
    bool is_reported = send_report(&append, append.count) == PAGELOG_DONE;
    if (is_reported) log->ahead.reports |= UINT64_C(1) << (append.count - 1);
    pagelog_push(log);
    return is_reported && pagelog_is_pushed(log);
}

bool pagelog_append_is_due(struct pagelog *log) {
    bool is_over;
    if (log->ahead.blocks == 0) return false;
    log->ahead.done += pagelog_take_done(log, &is_over);
    return is_over;
}

bool pagelog_append_is_answered(struct pagelog *log) {
    bool is_refused = pagelog_append_is_due(log);
    return log->ahead.blocks > 0 && !is_refused && log->asked_count == 0;
}

enum pagelog_outcome pagelog_append(struct pagelog *log, const struct pagelog_blocks *blocks,
                                    unsigned copies) {
    struct append append = {.log = log, .blocks = blocks, .wanted = copies};
    append.count = pagelog_blocks_count(blocks);
    enum pagelog_outcome outcome = may_append(&append);
    if (outcome != PAGELOG_DONE) return pagelog_fail(log, outcome);
    if (append.count == 0) return PAGELOG_DONE;
    log->stuck = false;
    return run(&append);
}
