/* What the log of a run has of the tail, and of the transaction that is read: what it lacks is sent again,
 * and what another has in its place is lost. */
#include "pagelog_move.h"

#include <stdio.h>
#include <string.h>

/* What comes before the records of a block, where it touches no partition. */
enum { HEAD_BYTES = 12, LSN_BYTES = 8 };

void pagelog_give_up_transaction(struct pagelog_file *file) {
    pagelog_cache_clear(file->cache);
    if (file->reading != OVER) pagelog_have(file, GONE);
    file->given_up++;
}

/* ---- What the log has of the tail ---- */

enum pagelog_outcome pagelog_learn_end(struct pagelog_file *file) {
    struct named *named = file->source.named;
    struct pagelog_fate fate;
    bool is_empty = pagelog_tail_is_empty(&named->tail);
    /* Where all is durable, it may be lost. */
    struct pagelog_position last = is_empty ? named->own : last_before(named->tail.next);
    if (is_settled_here(named) || is_none(last)) return PAGELOG_DONE;
    enum pagelog_outcome outcome =
        pagelog_fate_of(named->keepers, named->place.lines, &named->settled, last, &fate);
    if (outcome != PAGELOG_DONE) return outcome;
    bool is_lost =
        is_before(fate.end, named->durable) || (is_empty && fate.is_over && is_before(fate.end, last));
    if (is_lost) fate.loss = PAGELOG_SUPERSEDED; /* of what was durable some is lost */
    if (fate.loss) return pagelog_lose_run(file, &named->settled, fate.loss);
    struct pagelog_position told = lower_of(fate.end, named->told);
    named->durable = higher_of(named->durable, told);
    pagelog_tail_drop(&named->tail, told);
    return PAGELOG_DONE;
}

/* Whether two blocks are the same, whatever their LSNs are. No block stands for one without records. */
static bool is_same_block(const uint8_t *one, size_t one_length, const uint8_t *other, size_t other_length) {
    static const uint8_t none[HEAD_BYTES];
    if (!other) {
        other = none;
        other_length = HEAD_BYTES;
    }
    return one_length == other_length &&
           memcmp(one + LSN_BYTES, other + LSN_BYTES, one_length - LSN_BYTES) == 0;
}

/* Compares what one pull has served. False at the first block that is another; the walk is at it then. */
static bool compare_pulled(struct pagelog_file *file, const struct pagelog_reply *pulled,
                           struct pagelog_position hard, struct pagelog_tail_walk *walk) {
    const struct pagelog_tail *tail = &file->source.named->tail;
    size_t at = 0, length = 0, own_length;
    const uint8_t *block = pagelog_next_block(pulled, &at, &length), *own;
    struct pagelog_position next = lower_of(next_in(file, pulled), next_of(hard));
    while (is_before(walk->position, next)) {
        struct pagelog_tail_walk here = *walk;
        bool is_served = block && is_at(position_of_block(file, block), here.position);
        if (!(own = pagelog_tail_next(tail, walk, &own_length))) return true;
        if (!is_same_block(own, own_length, is_served ? block : NULL, length)) {
            *walk = here;
            return false;
        }
        if (is_served) block = pagelog_next_block(pulled, &at, &length);
    }
    return true;
}

/* The first position, from one on, at which the log, which ends at `hard`, lacks the tail's block or has
 * another one. */
static enum pagelog_outcome compare(struct pagelog_file *file, struct pagelog_position from,
                                    struct pagelog_position hard, struct pagelog_position *differs) {
    const struct pagelog_tail *tail = &file->source.named->tail;
    struct pagelog_tail_walk walk = pagelog_tail_at(tail, from);
    bool is_same = true;
    while (is_same && !is_before(hard, walk.position) && is_before(walk.position, tail->next)) {
        struct pagelog_reply pulled;
        struct pagelog_position at = walk.position;
        enum pagelog_outcome outcome = pull_from(file, at, PAGELOG_PULL_BLOCKS, &pulled);
        if (outcome != PAGELOG_DONE) return outcome;
        if (is_at(next_in(file, &pulled), at)) break; /* the end of the log, whatever was told before */
        is_same = compare_pulled(file, &pulled, hard, &walk);
    }
    *differs = walk.position;
    return PAGELOG_DONE;
}

/* The newest end mark up to a position. */
static enum pagelog_outcome mark_at(struct pagelog_file *file, struct pagelog_position position,
                                    struct mark *mark) {
    uint8_t page[PAGELOG_PAGE_BYTES];
    const uint32_t number = MARK_PAGE;
    enum pagelog_outcome outcome = get_at(file, PAGELOG_SECONDARY, position, &number, 1, page);
    if (outcome == PAGELOG_DONE && !pagelog_read_mark(file, page, mark)) *mark = (struct mark){0};
    return outcome;
}

/* The end mark of a block of the tail; zeros where it has none. */
static struct mark mark_of(const struct pagelog_file *file, struct pagelog_position position) {
    const struct pagelog_tail *tail = &file->source.named->tail;
    struct pagelog_tail_walk walk = pagelog_tail_at(tail, position);
    struct pagelog_records records;
    struct pagelog_record record, last = {0};
    struct mark mark = {0};
    size_t length;
    const uint8_t *block = pagelog_tail_next(tail, &walk, &length);
    if (block) pagelog_records_begin(&records, block);
    while (block && pagelog_records_next(&records, &record))
        last = record;
    bool is_mark = last.page == MARK_PAGE && last.offset == 0 && last.length == MARK_BYTES;
    if (is_mark && !pagelog_read_mark(file, last.bytes, &mark)) mark = (struct mark){0};
    return mark;
}

/* Of positions up to the base there may be images alone. The tail was there if it has the end mark that they
 * have: DONE, or IN_DOUBT. */
static enum pagelog_outcome compare_with_base(struct pagelog_file *file) {
    struct pagelog_position base = file->source.named->place.base;
    struct mark found, own = mark_of(file, base);
    enum pagelog_outcome outcome = mark_at(file, base, &found);
    if (outcome != PAGELOG_DONE) return outcome;
    return !is_none(own.position) && pagelog_is_same_mark(&own, &found) ? PAGELOG_DONE : PAGELOG_IN_DOUBT;
}

/* ---- Losing and sending again ---- */

/* From a position on the tail is not in the database, or cannot be found there. */
static enum pagelog_outcome lose_to(struct pagelog_file *file, struct pagelog_position position,
                                    enum pagelog_outcome outcome, const char *why) {
    struct named *named = file->source.named;
    bool was_told = !is_before(named->own, position);
    pagelog_tail_cut(&named->tail, position);
    named->durable = lower_of(named->durable, last_before(position));
    named->settled = named->place;
    pagelog_go(file, HERE);
    named->told = lower_of(named->told, last_before(position));
    pagelog_become_follower(file);
    pagelog_give_up_transaction(file);
    pagelog_begin_session(file); /* what comes at the positions of its commits is something else */
    if (!was_told) return pagelog_file_fail(file, outcome, why);
    named->own = last_before(position);
    file->lost = why;
    file->on_their_way = 0;
    file->losses++;
    pagelog_have(file, OVER);
    return pagelog_file_fail(file, outcome, why);
}

static enum pagelog_outcome lose_from(struct pagelog_file *file, struct pagelog_position position,
                                      enum pagelog_outcome outcome) {
    bool was_told = !is_before(file->source.named->own, position);
    return lose_to(file, position, outcome,
                   was_told ? "commits that were not durable are lost: another writer has gone on"
                            : "another writer has gone on: it is not in the database");
}

static const char *reason_of(enum pagelog_loss loss) {
    switch (loss) {
    case PAGELOG_DROPPED:
        return "the database was dropped";
    case PAGELOG_ANOTHER:
        return "the keepers have another database of this name";
    default:
        return "PostgreSQL went back, and has gone on without this run: what was not durable is lost";
    }
}

enum pagelog_outcome pagelog_lose_run(struct pagelog_file *file, const struct pagelog_place *place,
                                      enum pagelog_loss loss) {
    struct named *named = file->source.named;
    bool is_here = strcmp(place->run, named->place.run) == 0, is_no_more = loss != PAGELOG_SUPERSEDED;
    bool is_empty = pagelog_tail_is_empty(&named->tail);
    struct pagelog_position first = is_empty ? next_of(named->durable) : named->tail.first;
    bool is_durable = !is_none(named->own) && is_before(named->own, first); /* PostgreSQL may have lost it */
    if (is_no_more)
        named->dropped = reason_of(loss);
    else if (is_durable)
        first = named->own;
    file->lost = reason_of(loss);
    named->durable.number = 0; /* of the run that follows, whose positions come again, nothing is known */
    enum pagelog_outcome outcome =
        lose_to(file, first, is_no_more ? PAGELOG_DENIED : PAGELOG_FENCED, reason_of(loss));
    if (is_here && !is_no_more) pagelog_go(file, OUT);
    return outcome;
}

enum pagelog_outcome pagelog_take_denial(struct pagelog_file *file) {
    struct named *named = file->source.named;
    const char *reason = pagelog_keepers_reason(named->keepers);
    bool was_dropped = reason && named->where != NOWHERE && strcmp(reason, reason_of(PAGELOG_DROPPED)) == 0;
    bool is_another = reason && named->where != NOWHERE && strcmp(reason, reason_of(PAGELOG_ANOTHER)) == 0;
    if (was_dropped || is_another)
        return pagelog_lose_run(file, &named->place, was_dropped ? PAGELOG_DROPPED : PAGELOG_ANOTHER);
    snprintf(file->words, sizeof file->words, "the keepers know of no database %s",
             pagelog_keepers_name(named->keepers));
    return pagelog_file_fail(file, PAGELOG_DENIED, reason ? reason : file->words);
}

/* Sends the tail from the end of the log on, in the epoch of this file. */
static enum pagelog_outcome send_rest(struct pagelog_file *file) {
    struct named *named = file->source.named;
    struct pagelog_tail_walk walk = pagelog_tail_at(&named->tail, next_of(end_of(file)));
    struct pagelog_blocks *blocks = pagelog_blocks_new();
    enum pagelog_outcome outcome = blocks ? PAGELOG_DONE : PAGELOG_NO_MEMORY;
    named->is_sent_again = true;
    while (outcome == PAGELOG_DONE && is_before(walk.position, named->tail.next)) {
        const uint8_t *block;
        size_t length;
        restart_at(file, blocks, next_of(end_of(file)));
        while (outcome == PAGELOG_DONE && pagelog_blocks_count(blocks) < GROUP &&
               (block = pagelog_tail_next(&named->tail, &walk, &length)))
            outcome = pagelog_blocks_add(blocks, block, length);
        if (outcome == PAGELOG_DONE) outcome = pagelog_append(file->log, blocks, file->options.written);
        if (outcome == PAGELOG_DONE) named->resent += pagelog_blocks_count(blocks);
    }
    pagelog_blocks_free(blocks);
    return outcome;
}

/* The log ends within the tail: takes over from who has not written, and sends the rest. */
static enum pagelog_outcome send_again(struct pagelog_file *file, const struct pagelog_reply *status) {
    const struct pagelog_file_options *options = &file->options;
    uint32_t writing = pagelog_writing_epoch(file->log);
    bool is_own = status->epoch == writing || pagelog_may_have_begun(file->log, status);
    bool is_anothers = is_settled_here(file->source.named) && status->primary != PAGELOG_KEEPER && !is_own;
    if (is_anothers) return lose_from(file, next_of(hard_of(file, status)), PAGELOG_FENCED);
    enum pagelog_outcome outcome =
        pagelog_take_over(file->log, options->operator_principal, options->operator_token, status->epoch);
    if (outcome == PAGELOG_DONE && !is_at(end_of(file), hard_of(file, status))) outcome = PAGELOG_LOST;
    if (outcome == PAGELOG_DONE) outcome = send_rest(file);
    if (outcome != PAGELOG_DONE) return outcome;
    if (!is_writer(file)) pagelog_stand(file, WRITING);
    return PAGELOG_DONE;
}

/* The first position of the tail that the log lacks, or has another block at. What lies below the base is
 * compared block for block only where nothing was shifted, and may be images even there. */
static enum pagelog_outcome compare_tail(struct pagelog_file *file, struct pagelog_position hard,
                                         struct pagelog_position *differs) {
    const struct named *named = file->source.named;
    struct pagelog_position base = named->place.base, first = named->tail.first;
    enum pagelog_outcome outcome = PAGELOG_DONE;
    *differs = first;
    if (is_before(base, first) || named->place.shift == 0) outcome = compare(file, first, hard, differs);
    if (outcome != PAGELOG_DONE || is_before(base, *differs)) return outcome;
    outcome = compare_with_base(file);
    return outcome == PAGELOG_DONE ? compare(file, next_of(base), hard, differs) : outcome;
}

/* Whether the log may have something else right before the tail than what that was made upon: another's
 * blocks, which are not held and were not durable. Of the run that had the whole tail last they are there. */
static bool is_upon_lost(const struct pagelog_file *file) {
    const struct named *named = file->source.named;
    struct pagelog_position known = higher_of(named->durable, named->place.base);
    return !is_settled_here(named) && is_before(next_of(known), named->tail.first);
}

enum pagelog_outcome pagelog_settle_tail(struct pagelog_file *file, const struct pagelog_reply *status) {
    struct named *named = file->source.named;
    struct pagelog_position hard = hard_of(file, status), next = next_of(hard), differs;
    if (pagelog_tail_is_empty(&named->tail)) return PAGELOG_DONE;
    bool is_next = is_at(next, named->tail.first);
    if (is_before(next, named->tail.first) || (is_next && is_upon_lost(file)))
        return lose_from(file, next, PAGELOG_FENCED);
    enum pagelog_outcome outcome = compare_tail(file, hard, &differs);
    if (outcome == PAGELOG_IN_DOUBT) return lose_from(file, differs, outcome);
    if (outcome != PAGELOG_DONE || is_at(differs, named->tail.next)) return outcome;
    return is_before(differs, next) ? lose_from(file, differs, PAGELOG_FENCED) : send_again(file, status);
}

/* ---- The transaction that is read ---- */

enum pagelog_outcome pagelog_find_transaction(struct pagelog_file *file, struct pagelog_position hard) {
    struct named *named = file->source.named;
    struct mark found;
    file->next = next_of(file->mark.position);
    file->pending.length = 0;
    if (is_gone(file)) return PAGELOG_DONE;
    if (file->mark.transaction == 0 && is_none(named->place.base)) return PAGELOG_DONE; /* of an empty log */
    bool is_below = is_before(file->mark.position, named->place.base) && named->place.shift != 0;
    bool is_none_here = is_none(lsn_of(file, file->mark.position)) || is_below;
    if (is_none_here || is_before(hard, file->mark.position)) {
        pagelog_give_up_transaction(file);
        return PAGELOG_DONE;
    }
    enum pagelog_outcome outcome = mark_at(file, file->mark.position, &found);
    if (outcome == PAGELOG_DONE && !pagelog_is_same_mark(&found, &file->mark))
        pagelog_give_up_transaction(file);
    return outcome;
}
