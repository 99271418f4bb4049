/* A file by the address of its service: how it opens, becomes the writer, and learns what has become of a
 * commit in doubt. */
#include "pagelog_file_inside.h"

#include <string.h>

/* ---- Opening ---- */

static enum pagelog_outcome connect(struct pagelog_file *file, char *peer, size_t room) {
    enum pagelog_outcome outcome = pagelog_connect(file->log);
    pagelog_peer(file->log, peer, room);
    return outcome;
}

/* Looks whether the database is one of files, and has this name, before a writer elsewhere is fenced, if its
 * principal may look so. */
static enum pagelog_outcome look_at_mark(struct pagelog_file *file) {
    uint8_t page[PAGELOG_PAGE_BYTES];
    const uint32_t number = MARK_PAGE;
    struct pagelog_reply status;
    if (!*file->name) return PAGELOG_DONE;
    enum pagelog_outcome outcome = pagelog_status(file->log, PAGELOG_SECONDARY, &status);
    if (outcome == PAGELOG_DONE)
        outcome = get_at(file, PAGELOG_SECONDARY, hard_of(file, &status), &number, 1, page);
    if (outcome == PAGELOG_DONE && pagelog_is_foreign(file, page, hard_of(file, &status)))
        return pagelog_refuse_foreign(file, PAGELOG_SECONDARY, page, hard_of(file, &status));
    if (outcome == PAGELOG_DONE && pagelog_is_misnamed(file, page)) return pagelog_refuse_name(file, page);
    return outcome == PAGELOG_DENIED ? PAGELOG_DONE : outcome;
}

/* Begins an epoch as the options say, and takes over what is in the log. */
static enum pagelog_outcome begin_to_write(struct pagelog_file *file) {
    const struct pagelog_file_options *options = &file->options;
    uint64_t asked = pagelog_now();
    enum pagelog_outcome outcome =
        options->has_operator
            ? pagelog_take_over(file->log, options->operator_principal, options->operator_token, 0)
            : pagelog_join(file->log);
    if (outcome != PAGELOG_DONE) return outcome;
    pagelog_stand(file, WRITING);
    file->checked = asked;
    return pagelog_recover(file);
}

static enum pagelog_outcome open_reader(struct pagelog_file *file) {
    struct pagelog_reply status;
    uint64_t asked = pagelog_now();
    enum pagelog_outcome outcome = pagelog_status(file->log, PAGELOG_SECONDARY, &status);
    if (outcome != PAGELOG_DONE) return outcome;
    file->checked = asked;
    struct pagelog_position at = {file->options.at};
    return pagelog_take_mark(file, is_none(at) ? hard_of(file, &status) : at);
}

/* Another writer has begun an epoch right after this one, or in its place: it opens all the same, as one that
 * is fenced later, if its principal may be a secondary. */
static enum pagelog_outcome open_fenced(struct pagelog_file *file) {
    struct pagelog_reply refused = *pagelog_refused(file->log);
    pagelog_become_follower(file);
    enum pagelog_outcome outcome = open_reader(file);
    return outcome == PAGELOG_DENIED ? pagelog_restore(file->log, PAGELOG_FENCED, &refused) : outcome;
}

static enum pagelog_outcome open(struct pagelog_file *file) {
    if (file->options.reads_only) return open_reader(file);
    enum pagelog_outcome outcome = look_at_mark(file);
    if (outcome == PAGELOG_DONE) outcome = begin_to_write(file);
    bool is_overtaken =
        outcome == PAGELOG_FENCED && file->options.has_operator && !pagelog_is_restarted(file->log);
    return is_overtaken ? open_fenced(file) : outcome;
}

/* ---- Becoming the writer ---- */

/* A writer is that from its open on. */
static enum pagelog_outcome reserve(struct pagelog_file *file) {
    (void)file;
    return PAGELOG_DONE;
}

static bool may_commit(const struct pagelog_file *file) {
    return file->standing == WRITING;
}

static enum pagelog_outcome take_over(struct pagelog_file *file, uint32_t operator_principal,
                                      const uint8_t operator_token[PAGELOG_TOKEN_BYTES]) {
    enum pagelog_outcome outcome = pagelog_file_settle(file);
    if (outcome != PAGELOG_DONE && file->reading != OVER) return outcome;
    pagelog_file_undo(file);
    file->options.has_operator = true;
    file->options.operator_principal = operator_principal;
    memcpy(file->options.operator_token, operator_token, PAGELOG_TOKEN_BYTES);
    if (file->reading == OVER) pagelog_have(file, OPEN);
    outcome = begin_to_write(file);
    if (outcome != PAGELOG_DONE) pagelog_become_follower(file);
    file->size = file->least = file->mark.size;
    return outcome;
}

/* ---- Reading ---- */

static enum pagelog_outcome get(struct pagelog_file *file, struct pagelog_position position,
                                struct wanted wanted, uint8_t *out) {
    return pagelog_fetch_here(file, position, wanted, out);
}

static const uint8_t *copied(struct pagelog_file *file, const uint32_t *pages, size_t count) {
    (void)file, (void)pages, (void)count;
    return NULL;
}

static enum pagelog_outcome pull(struct pagelog_file *file, struct pagelog_position from,
                                 struct pagelog_reply *pulled) {
    return pull_from(file, from, PAGELOG_PULL_BLOCKS, pulled);
}

static struct pagelog_position limit(const struct pagelog_file *file) {
    (void)file;
    return (struct pagelog_position){UINT64_MAX};
}

static void note_pulled(struct pagelog_file *file, const struct mark *mark) {
    (void)file, (void)mark;
}

/* ---- A commit in doubt ---- */

/* Whether the end mark is in the log, of an epoch that is over: DONE where it is, CONFLICT where it is not.
 */
static enum pagelog_outcome find_mark(struct pagelog_file *file, enum pagelog_role role,
                                      const struct mark *mark) {
    uint8_t page[PAGELOG_PAGE_BYTES];
    const uint32_t number = MARK_PAGE;
    struct mark found;
    enum pagelog_outcome outcome = get_at(file, role, mark->position, &number, 1, page);
    bool ends_before = outcome == PAGELOG_DENIED && pagelog_refused(file->log)->section == 3 &&
                       pagelog_refused(file->log)->row == 1 && !pagelog_is_restarted(file->log);
    if (ends_before) return PAGELOG_CONFLICT;
    if (outcome != PAGELOG_DONE) return outcome;
    bool is_ours = pagelog_read_mark(file, page, &found) && pagelog_is_same_mark(&found, mark);
    return is_ours ? PAGELOG_DONE : PAGELOG_CONFLICT;
}

/* A commit in doubt whose end mark is in the log: it is done if all of its blocks are. */
static enum pagelog_outcome settle_by_blocks(struct pagelog_file *file, const struct mark *mark,
                                             const struct pagelog_reply *refused) {
    enum pagelog_outcome outcome = pagelog_find_blocks(file, role_of(file), mark->position);
    if (outcome == PAGELOG_DONE) return outcome;
    if (outcome == PAGELOG_CONFLICT)
        return pagelog_file_fail(
            file, PAGELOG_IN_DOUBT,
            "another session of this epoch has put a block in the place of one of these");
    file->reason = NULL;
    return pagelog_restore(file->log, PAGELOG_IN_DOUBT, refused);
}

/* Another epoch decides it, be it one that this writer begins or one that somebody else has begun. */
static enum pagelog_outcome settle_doubt(struct pagelog_file *file, const struct mark *mark) {
    const struct pagelog_file_options *options = &file->options;
    struct pagelog_reply refused = *pagelog_refused(file->log);
    enum pagelog_outcome cause = pagelog_outcome_of(&refused);
    if (!options->has_operator) return PAGELOG_IN_DOUBT;
    file->doubted = mark->position;
    enum pagelog_outcome outcome = pagelog_take_over(
        file->log, options->operator_principal, options->operator_token, pagelog_writing_epoch(file->log));
    bool is_fenced = outcome == PAGELOG_FENCED && !pagelog_is_restarted(file->log);
    if (outcome != PAGELOG_DONE && !is_fenced) return pagelog_restore(file->log, PAGELOG_IN_DOUBT, &refused);
    if (is_fenced) pagelog_become_follower(file);
    outcome = find_mark(file, role_of(file), mark);
    if (outcome == PAGELOG_DONE) outcome = settle_by_blocks(file, mark, &refused);
    if (outcome == PAGELOG_IN_DOUBT) return outcome;
    if (outcome == PAGELOG_DONE || outcome == PAGELOG_CONFLICT) file->doubted.number = 0;
    /* Where a failover's reply was lost, another writer may have gone on from there before this epoch. */
    bool has_gone_on = outcome == PAGELOG_DONE && !is_fenced && !is_at(end_of(file), mark->position);
    if (has_gone_on && is_writer(file)) pagelog_stand(file, BROKEN);
    if (outcome == PAGELOG_DONE) return PAGELOG_DONE;
    if (outcome != PAGELOG_CONFLICT) return pagelog_restore(file->log, PAGELOG_IN_DOUBT, &refused);
    if (is_fenced) return PAGELOG_FENCED;
    return pagelog_restore(file->log, cause == PAGELOG_DONE ? PAGELOG_LOST : cause, &refused);
}

/* A writer whose epoch goes on looks with its next begin what it has left there. */
static void fall_back(struct pagelog_file *file, enum pagelog_outcome outcome, bool may_be_there) {
    bool is_fenced = outcome == PAGELOG_FENCED && !pagelog_is_restarted(file->log);
    if (is_fenced || !is_writer(file))
        pagelog_become_follower(file);
    else if (may_be_there)
        pagelog_stand(file, BROKEN);
}

/* ---- What is known ---- */

static const struct pagelog_place *place(const struct pagelog_file *file) {
    (void)file;
    return NULL;
}

static bool is_no_more(const struct pagelog_file *file) {
    return pagelog_is_restarted(file->log);
}

static void describe(const struct pagelog_file *file, struct pagelog_file_state *state) {
    (void)file, (void)state;
}

static void set_waiting(struct pagelog_file *file, bool (*goes_on)(void *argument), void *argument) {
    pagelog_set_waiting(file->log, goes_on, argument);
}

static void end(struct pagelog_file *file) {
    (void)file;
}

static const struct source_calls by_address = {
    .connect = connect,
    .open = open,
    .begin = pagelog_refresh,
    .reserve = reserve,
    .take_over = take_over,
    .may_commit = may_commit,
    .get = get,
    .copied = copied,
    .pull = pull,
    .limit = limit,
    .note_pulled = note_pulled,
    .append = pagelog_append_here,
    .settle_doubt = settle_doubt,
    .fall_back = fall_back,
    .place = place,
    .is_no_more = is_no_more,
    .describe = describe,
    .set_waiting = set_waiting,
    .abandon = end,
    .free = end,
    .is_gone_after_loss = false,
    .begins_again = false,
};

void pagelog_make_addressed(struct pagelog_file *file) {
    file->source = (struct source){.calls = &by_address};
}
