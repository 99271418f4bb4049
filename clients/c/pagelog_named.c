/* A file of a named database: how it opens, begins and becomes the writer, wherever the database is. */
#include "pagelog_move.h"

#include <stdlib.h>
#include <string.h>

/* Of one call: each move ends where the database can be used, and a peer that says so and refuses is left in
 * the end. One that its keeper closes is waited for. */
enum { MOST_MOVES = 16 };

struct tries {
    unsigned moves;
    struct pagelog_file_patience patience; /* from the first one on */
};

/* Whether a call that had this outcome is made again: the file has moved to where the database is by then. */
static bool is_made_again(struct pagelog_file *file, enum pagelog_outcome *outcome, struct tries *tries) {
    if (*outcome == PAGELOG_DONE || file->reason || !pagelog_may_move(file, *outcome)) return false;
    if (tries->moves == 0) tries->patience = pagelog_file_patience(file);
    bool may_try = tries->moves++ < MOST_MOVES ||
                   (is_closing(file->source.named) && pagelog_file_may_wait(file, &tries->patience));
    if (may_try) *outcome = pagelog_move(file, *outcome);
    return may_try && *outcome == PAGELOG_DONE;
}

/* Blocks that are pulled when a file opens, so that their loss is not this file's too. */
enum { MOST_HELD = 1024 };

/* ---- What is read ---- */

static struct pagelog_position limit(const struct pagelog_file *file) {
    const struct pagelog_position no_limit = {UINT64_MAX};
    if (file->source.named->place.is_page_server) return no_limit; /* all that it has is durable */
    return file->options.durable_only ? file->source.named->durable : no_limit;
}

/* Holds what is in the log before the transaction that is read, and is not known to be archived. What is too
 * much is left to its writers. */
static enum pagelog_outcome hold_newest(struct pagelog_file *file) {
    const struct named *named = file->source.named;
    struct pagelog_position known = higher_of(named->durable, named->place.archived);
    struct pagelog_position from = next_of(higher_of(known, named->place.base));
    bool is_wanted = !file->options.reads_only && is_before(file->mark.position, plus(from, MOST_HELD));
    while (is_wanted && !is_before(file->mark.position, from)) {
        struct pagelog_reply pulled;
        enum pagelog_outcome outcome = pull_from(file, from, PAGELOG_PULL_BLOCKS, &pulled);
        if (outcome != PAGELOG_DONE || is_at(next_in(file, &pulled), from)) return outcome;
        pagelog_hold_pulled(file, from, &pulled);
        from = next_in(file, &pulled);
    }
    return PAGELOG_DONE;
}

/* Takes the newest transaction that may be read, or the one of `at`. */
static enum pagelog_outcome take_newest(struct pagelog_file *file) {
    struct named *named = file->source.named;
    struct pagelog_reply status;
    const struct pagelog_position at = {file->options.at};
    enum pagelog_outcome outcome = pagelog_status(file->log, PAGELOG_SECONDARY, &status);
    if (outcome != PAGELOG_DONE) return outcome;
    if (!is_none(at) && is_before(at, named->place.base) && named->place.shift != 0)
        return pagelog_file_fail(file, PAGELOG_MALFORMED,
                                 "this position is before the base of the generation");
    pagelog_cache_clear(file->cache);
    outcome = pagelog_take_mark(file, is_none(at) ? lower_of(hard_of(file, &status), limit(file)) : at);
    return outcome == PAGELOG_DONE ? hold_newest(file) : outcome;
}

/* Asks until it is done, wherever the database is by then. */
static enum pagelog_outcome ask_wherever(struct pagelog_file *file, enum pagelog_outcome outcome,
                                         enum pagelog_outcome (*call)(struct pagelog_file *file)) {
    struct tries tries = {0};
    while (is_made_again(file, &outcome, &tries))
        outcome = is_gone(file) ? take_newest(file) : call(file);
    return outcome;
}

static enum pagelog_outcome connect(struct pagelog_file *file, char *peer, size_t room) {
    (void)file, (void)room;
    *peer = 0;
    return PAGELOG_DONE;
}

static enum pagelog_outcome open(struct pagelog_file *file) {
    uint64_t asked = pagelog_now();
    enum pagelog_outcome outcome = pagelog_move(file, PAGELOG_LOST);
    if (outcome == PAGELOG_DONE) outcome = pagelog_glance(file);
    if (outcome == PAGELOG_DONE) outcome = take_newest(file);
    outcome = ask_wherever(file, outcome, take_newest);
    if (outcome != PAGELOG_DONE) return outcome;
    file->checked = asked;
    return PAGELOG_DONE;
}

/* A keeper that closes a generation begins an epoch of its own. The service may be there for a while yet, and
 * would show the past to a reader that has heard of no other. */
static enum pagelog_outcome look_at_epoch(struct pagelog_file *file) {
    struct named *named = file->source.named;
    struct pagelog_reply status;
    if (is_writer(file) || pagelog_epoch(file->log) == named->epoch) return PAGELOG_DONE;
    enum pagelog_outcome outcome = pagelog_status(file->log, PAGELOG_SECONDARY, &status);
    if (outcome != PAGELOG_DONE) return outcome;
    note_epoch(named, &status);
    return PAGELOG_DONE;
}

/* Whether a hand-over may be taken: nothing of this file is on its way, or between two generations. */
static bool may_take_hand_over(const struct pagelog_file *file) {
    const struct named *named = file->source.named;
    bool may_write = !file->options.reads_only && !file->options.durable_only && file->options.has_operator;
    return may_write && !is_gone(file) && !is_closing(named) && file->standing != BROKEN &&
           file->on_their_way == 0 && (pagelog_tail_is_empty(&named->tail) || is_settled_here(named));
}

/* Becomes the writer by what who had the turn before has said, and reads what was written since. False where
 * that is not so, or not all of it was read: then a begin goes on as ever. */
static bool take_hand_over(struct pagelog_file *file, uint32_t epoch) {
    const struct pagelog_file_options *options = &file->options;
    struct pagelog_reply pulled;
    uint64_t asked = pagelog_now();
    bool is_own = is_writer(file) && epoch == pagelog_writing_epoch(file->log); /* nobody has written since */
    if (epoch == 0 || is_own || !may_take_hand_over(file)) return false;
    pagelog_become_follower(file);
    struct pagelog_position from = begin_of_pull(file, file->next);
    enum pagelog_outcome outcome =
        pagelog_hand_over(file->log, options->operator_principal, options->operator_token, epoch,
                          lsn_of(file, from).number, &pulled);
    if (outcome == PAGELOG_DONE) pagelog_hold_pulled(file, from, &pulled);
    if (outcome == PAGELOG_DONE) outcome = pagelog_take_pulled(file, &pulled);
    if (outcome != PAGELOG_DONE || !is_at(file->mark.position, end_of(file))) return false;
    pagelog_stand(file, WRITING);
    file->source.named->is_doubted = false;
    file->checked = asked;
    return true;
}

void pagelog_file_hand_over(struct pagelog_file *file, uint32_t epoch, uint64_t generation) {
    file->source.named->handed = generation == file->source.named->place.generation ? epoch : 0;
}

static enum pagelog_outcome begin(struct pagelog_file *file) {
    uint64_t generation, first = file->source.named->place.generation;
    uint32_t handed = file->source.named->handed;
    enum pagelog_outcome outcome;
    file->source.named->handed = 0;
    do {
        generation = file->source.named->place.generation;
        outcome = pagelog_arrive(file);
        if (outcome == PAGELOG_DONE) outcome = pagelog_glance(file);
        bool is_handed = outcome == PAGELOG_DONE && file->source.named->place.generation == first &&
                         take_hand_over(file, handed);
        handed = 0;
        if (outcome == PAGELOG_DONE && !is_handed)
            outcome = is_gone(file) ? take_newest(file) : pagelog_refresh(file);
        if (file->reading != OVER) outcome = ask_wherever(file, outcome, pagelog_refresh);
        if (outcome == PAGELOG_DONE) outcome = ask_wherever(file, look_at_epoch(file), look_at_epoch);
        if (outcome == PAGELOG_DONE && is_closing(file->source.named)) outcome = pagelog_glance(file);
    } while (outcome == PAGELOG_DONE && file->source.named->place.generation != generation);
    return outcome;
}

static enum pagelog_outcome get(struct pagelog_file *file, struct pagelog_position position,
                                struct wanted wanted, uint8_t *out) {
    file->reason = NULL;
    bool was_gone = is_gone(file); /* a begin asks for the newest one then */
    enum pagelog_outcome outcome = pagelog_arrive(file);
    if (outcome != PAGELOG_DONE) return outcome;
    if (is_gone(file) && !was_gone) return pagelog_refuse_gone(file);
    outcome = pagelog_fetch_here(file, position, wanted, out);
    wanted.ahead = 0;
    struct tries tries = {0};
    while (is_made_again(file, &outcome, &tries)) {
        if (is_gone(file)) return was_gone ? PAGELOG_LOST : pagelog_refuse_gone(file);
        outcome = pagelog_fetch_here(file, position, wanted, out);
    }
    return outcome;
}

static enum pagelog_outcome pull(struct pagelog_file *file, struct pagelog_position from,
                                 struct pagelog_reply *pulled) {
    from = begin_of_pull(file, from);
    enum pagelog_outcome outcome = pull_from(file, from, PAGELOG_PULL_BLOCKS, pulled);
    if (outcome == PAGELOG_DONE) pagelog_hold_pulled(file, from, pulled);
    return outcome;
}

/* ---- Becoming the writer ---- */

enum pagelog_outcome pagelog_write_on(struct pagelog_file *file) {
    const struct pagelog_file_options *options = &file->options;
    size_t length;
    struct pagelog_position first = position_of_block(file, pagelog_blocks_at(file->blocks, 0, &length));
    enum pagelog_outcome outcome = PAGELOG_DONE;
    if (is_at(next_of(end_of(file)), first)) /* else it fences nobody */
        outcome = pagelog_take_over(file->log, options->operator_principal, options->operator_token, 0);
    if (outcome != PAGELOG_DONE) return outcome;
    if (!is_at(next_of(end_of(file)), first))
        return pagelog_file_fail(file, PAGELOG_FENCED, "another writer has gone on meanwhile");
    pagelog_stand(file, WRITING);
    return PAGELOG_DONE;
}

/* Whether the newest transaction at an LSN is the one that is read: DONE, or FENCED. */
static enum pagelog_outcome compare_newest(struct pagelog_file *file, enum pagelog_role role,
                                           struct pagelog_position position) {
    uint8_t page[PAGELOG_PAGE_BYTES];
    const uint32_t number = MARK_PAGE;
    struct mark mark;
    if (is_at(position, file->mark.position)) return PAGELOG_DONE;
    enum pagelog_outcome outcome = get_at(file, role, position, &number, 1, page);
    if (outcome != PAGELOG_DONE) return outcome;
    if (pagelog_read_mark(file, page, &mark) && pagelog_is_same_mark(&mark, &file->mark)) return PAGELOG_DONE;
    return pagelog_file_fail(file, PAGELOG_FENCED, "another writer has gone on since: begin again");
}

/* Looks before it takes over, so that a file which is behind fences nobody. */
static enum pagelog_outcome become_writer(struct pagelog_file *file) {
    const struct pagelog_file_options *options = &file->options;
    struct pagelog_reply status;
    uint64_t asked = pagelog_now();
    enum pagelog_outcome outcome = pagelog_status(file->log, PAGELOG_SECONDARY, &status);
    if (outcome == PAGELOG_DONE) outcome = compare_newest(file, PAGELOG_SECONDARY, hard_of(file, &status));
    bool is_let_in = outcome == PAGELOG_DONE;
    if (outcome == PAGELOG_DONE)
        outcome = pagelog_take_over(file->log, options->operator_principal, options->operator_token, 0);
    if (is_let_in && outcome == PAGELOG_DENIED && pagelog_is_unknown_principal(file))
        return pagelog_refuse_token(file, "operator", options->operator_principal);
    if (outcome == PAGELOG_DONE) outcome = compare_newest(file, PAGELOG_PRIMARY, end_of(file));
    if (outcome != PAGELOG_DONE) return outcome;
    pagelog_stand(file, WRITING);
    file->checked = asked;
    return is_before(file->mark.position, end_of(file)) ? pagelog_repair(file) : PAGELOG_DONE;
}

enum pagelog_outcome pagelog_file_move_on(struct pagelog_file *file) {
    file->reason = NULL;
    enum pagelog_outcome outcome = pagelog_move_on(file);
    return outcome == PAGELOG_DONE && is_gone(file) ? pagelog_refuse_gone(file) : outcome;
}

void pagelog_file_doubt(struct pagelog_file *file) {
    file->source.named->is_doubted = true;
    file->checked = 0;
}

/* Whether a writer still is one, and nobody has gone on from what it read. */
static enum pagelog_outcome confirm_writer(struct pagelog_file *file) {
    struct pagelog_reply status;
    enum pagelog_outcome outcome = pagelog_status(file->log, PAGELOG_PRIMARY, &status);
    if (outcome == PAGELOG_DONE && is_at(hard_of(file, &status), file->mark.position)) return PAGELOG_DONE;
    if (outcome == PAGELOG_DONE)
        return pagelog_file_fail(file, PAGELOG_FENCED, "another writer has gone on since: begin again");
    if (outcome == PAGELOG_FENCED) pagelog_become_follower(file);
    return outcome;
}

static enum pagelog_outcome reserve(struct pagelog_file *file) {
    enum pagelog_outcome outcome = pagelog_refuse_to_go_on(file);
    if (outcome != PAGELOG_DONE) return outcome;
    if (file->options.reads_only) return pagelog_file_fail(file, PAGELOG_FENCED, "this file only reads");
    outcome = pagelog_arrive(file);
    if (outcome == PAGELOG_DONE && is_gone(file)) return pagelog_refuse_gone(file);
    if (outcome != PAGELOG_DONE) return outcome;
    bool is_doubted = file->source.named->is_doubted;
    file->source.named->is_doubted = false;
    if (is_doubted && file->on_their_way > 0) outcome = pagelog_file_settle(file); /* to ask */
    if (outcome != PAGELOG_DONE) return outcome;
    if (is_writer(file) && is_doubted && confirm_writer(file) == PAGELOG_FENCED && file->reason)
        return PAGELOG_FENCED;
    if (is_writer(file)) return PAGELOG_DONE;
    outcome = become_writer(file);
    struct tries tries = {0};
    while (is_made_again(file, &outcome, &tries)) {
        if (is_gone(file)) return pagelog_refuse_gone(file);
        outcome = is_writer(file) ? PAGELOG_DONE : become_writer(file);
    }
    if (outcome != PAGELOG_DONE) pagelog_become_follower(file);
    return outcome;
}

/* In the name of the operator that it has. */
static enum pagelog_outcome take_over(struct pagelog_file *file, uint32_t operator_principal,
                                      const uint8_t operator_token[PAGELOG_TOKEN_BYTES]) {
    (void)operator_principal, (void)operator_token;
    return reserve(file);
}

static bool may_commit(const struct pagelog_file *file) {
    return !file->options.reads_only;
}

/* ---- Writing ---- */

/* Where what is held is not DONE nothing was sent: no move would make it done. */
static enum pagelog_outcome append(struct pagelog_file *file) {
    enum pagelog_outcome outcome = pagelog_hold_blocks(file);
    return outcome == PAGELOG_DONE ? pagelog_end_append(file, pagelog_append_here(file)) : outcome;
}

/* A move has looked already. */
static enum pagelog_outcome settle_doubt(struct pagelog_file *file, const struct mark *mark) {
    (void)file, (void)mark;
    return PAGELOG_IN_DOUBT;
}

static void fall_back(struct pagelog_file *file, enum pagelog_outcome outcome, bool may_be_there) {
    (void)outcome, (void)may_be_there;
    pagelog_become_follower(file);
}

/* ---- What is known ---- */

static const struct pagelog_place *place(const struct pagelog_file *file) {
    const struct named *named = file->source.named;
    return named->where != NOWHERE ? &named->place : NULL;
}

static bool is_no_more(const struct pagelog_file *file) {
    return file->source.named->dropped != NULL;
}

static void describe(const struct pagelog_file *file, struct pagelog_file_state *state) {
    const struct named *named = file->source.named;
    state->is_dropped = is_no_more(file);
    state->durable = named->durable.number;
    state->committed = named->own.number;
    state->moves = named->moves;
    state->resent = named->resent;
}

void pagelog_file_lend_token(const struct pagelog_file *file, struct pagelog_keepers *keepers) {
    pagelog_keepers_prove(keepers, file->options.service.principal, file->source.named->token);
}

/* ---- Made and freed ---- */

enum { DEFAULT_MOVE_MS = 30000, SERVICE_PATIENCE_MS = 200 };

static void leave(struct pagelog_file *file) {
    pagelog_keepers_abandon(file->source.named->keepers);
    pagelog_copies_abandon(file->source.named->copies);
}

static void end(struct pagelog_file *file) {
    struct named *named = file->source.named;
    pagelog_keepers_free(named->keepers);
    pagelog_copies_free(named->copies);
    free(named->copied);
    pagelog_held_free(&named->held);
    pagelog_tail_free(&named->tail);
    free(named);
}

static const struct source_calls by_name = {
    .connect = connect,
    .open = open,
    .begin = begin,
    .reserve = reserve,
    .take_over = take_over,
    .may_commit = may_commit,
    .get = get,
    .copied = pagelog_fetch_copied,
    .pull = pull,
    .limit = limit,
    .note_pulled = pagelog_hold_transaction,
    .append = append,
    .settle_doubt = settle_doubt,
    .fall_back = fall_back,
    .place = place,
    .is_no_more = is_no_more,
    .describe = describe,
    .set_waiting = pagelog_let_wait,
    .abandon = leave,
    .free = end,
    .is_gone_after_loss = true,
    .begins_again = true,
};

bool pagelog_make_named(struct pagelog_file *file) {
    struct pagelog_file_options *options = &file->options;
    struct named *named = calloc(1, sizeof *named);
    if (!named) return false;
    file->source = (struct source){.calls = &by_name, .named = named};
    named->keepers = pagelog_keepers_new(options->keepers, options->database_name, options->service.tls);
    if (!named->keepers) return false;
    file->source.name = pagelog_keepers_name(named->keepers);
    if (options->move_ms == 0) options->move_ms = DEFAULT_MOVE_MS;
    options->service.address = NULL;
    options->service.patience_ms = SERVICE_PATIENCE_MS; /* the wait for a place is the file's */
    memcpy(named->token, options->service.token, PAGELOG_TOKEN_BYTES);
    pagelog_keepers_prove(named->keepers, options->service.principal, named->token);
    memcpy(named->operator_token, options->operator_token, PAGELOG_TOKEN_BYTES);
    return true;
}
