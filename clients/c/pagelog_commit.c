/* The commit: pages that differ become records, records fill blocks, and the end mark ends the last of them.
 */
#include "pagelog_file_inside.h"

#include <stdlib.h>
#include <string.h>

/* After MUCH_SENT bytes there is so much left to do for the service that it is asked to do it at once. */
enum { FEW_BLOCKS = 8, MUCH_SENT = 8 * PAGELOG_BLOCK_BYTES };

static const uint8_t zeros[PAGELOG_PAGE_BYTES];

static enum pagelog_outcome out_of_memory(struct pagelog_file *file) {
    return pagelog_file_fail(file, PAGELOG_NO_MEMORY, "this process has no memory left");
}

/* ---- The commit ---- */

/* What is left to do of a commit. */
struct commit {
    struct pagelog_file *file;
    struct pagelog_frame **frames; /* the changed ones, by rising page */
    size_t count;
    uint32_t old_pages,
        fresh_pages; /* pages up to the first have a base in the log; from there to the second, zeros */
    bool has_bases;  /* no page has to be fetched */
};

/* Whether a frame's base has to be fetched. */
static bool lacks_base(const struct commit *commit, const struct pagelog_frame *frame) {
    return !frame->has_base && frame->page <= commit->old_pages;
}

/* Gives the changed frames from `first` on, up to 64, their bases where they have none in memory. */
static enum pagelog_outcome fetch_bases(struct commit *commit, size_t first) {
    uint32_t pages[GROUP];
    struct pagelog_frame *frames[GROUP];
    size_t count = 0;
    for (size_t i = first; i < commit->count && i < first + GROUP; i++) {
        struct pagelog_frame *frame = commit->frames[i];
        if (!lacks_base(commit, frame)) continue;
        pages[count] = frame->page;
        frames[count++] = frame;
    }
    if (count == 0) return PAGELOG_DONE;
    uint8_t *bytes = malloc(count * PAGELOG_PAGE_BYTES);
    if (!bytes) return out_of_memory(commit->file);
    struct wanted wanted = {.pages = pages, .count = count};
    enum pagelog_outcome outcome = pagelog_fetch(commit->file, commit->file->mark.position, wanted, bytes);
    for (size_t i = 0; i < count && outcome == PAGELOG_DONE; i++) {
        memcpy(frames[i]->base, bytes + i * PAGELOG_PAGE_BYTES, PAGELOG_PAGE_BYTES);
        frames[i]->has_base = true;
    }
    free(bytes);
    return outcome;
}

/* The blocks of a transaction leave as they become full, unless something else has to be asked meanwhile. */
static enum pagelog_outcome send_full_blocks(struct commit *commit) {
    struct pagelog_file *file = commit->file;
    if (commit->has_bases) pagelog_append_ahead(file->log, file->blocks, file->options.written);
    return pagelog_append_full_group(file);
}

/* Adds a page as a whole: zeros, and then what differs from them. */
static enum pagelog_outcome add_image(struct pagelog_blocks *blocks, uint32_t page, const uint8_t *bytes) {
    enum pagelog_outcome outcome = pagelog_blocks_zero(blocks, page);
    return outcome == PAGELOG_DONE ? pagelog_blocks_difference(blocks, page, zeros, bytes) : outcome;
}

/* Adds the records of a page that was in the file before. */
static enum pagelog_outcome add_old_page(struct pagelog_blocks *blocks, const struct pagelog_frame *frame) {
    _Static_assert(IMAGE_EACH == UINT8_MAX + 1, "the changes of a frame are counted in a byte");
    bool is_due = frame->changes == UINT8_MAX && memcmp(frame->base, frame->changed, PAGELOG_PAGE_BYTES) != 0;
    return is_due ? add_image(blocks, frame->page, frame->changed)
                  : pagelog_blocks_difference(blocks, frame->page, frame->base, frame->changed);
}

/* Adds the records of the changed pages that were in the file before. */
static enum pagelog_outcome add_old_pages(struct commit *commit, size_t *next) {
    struct pagelog_blocks *blocks = commit->file->blocks;
    for (; *next < commit->count && commit->frames[*next]->page <= commit->old_pages; ++*next) {
        struct pagelog_frame *frame = commit->frames[*next];
        enum pagelog_outcome outcome = frame->has_base ? PAGELOG_DONE : fetch_bases(commit, *next);
        if (outcome == PAGELOG_DONE) outcome = add_old_page(blocks, frame);
        if (outcome == PAGELOG_DONE) outcome = send_full_blocks(commit);
        if (outcome != PAGELOG_DONE) return outcome;
    }
    return PAGELOG_DONE;
}

/* Adds the records of the pages that are new in the file, each of which begins as zeros. */
static enum pagelog_outcome add_fresh_pages(struct commit *commit, size_t next) {
    struct pagelog_blocks *blocks = commit->file->blocks;
    for (uint32_t page = commit->old_pages + 1; page <= commit->fresh_pages; page++) {
        bool is_changed = next < commit->count && commit->frames[next]->page == page;
        enum pagelog_outcome outcome =
            add_image(blocks, page, is_changed ? commit->frames[next++]->changed : zeros);
        if (outcome == PAGELOG_DONE) outcome = send_full_blocks(commit);
        if (outcome != PAGELOG_DONE) return outcome;
    }
    return PAGELOG_DONE;
}

/* What is in memory is what was committed. */
static void keep(struct pagelog_file *file, const struct mark *mark, bool is_unwaited) {
    pagelog_cache_keep(file->cache);
    if (is_unwaited && file->on_their_way == 0) file->settled = file->mark;
    file->on_their_way = is_unwaited ? file->on_their_way + 1 : 0;
    file->mark = *mark;
    file->told_session = mark->session;
    file->has_name = file->has_name || *file->name;
    file->least = file->size;
    file->next = next_of(mark->position);
    file->commits++;
}

static struct mark next_mark(const struct pagelog_file *file) {
    return (struct mark){.size = file->size, .transaction = file->mark.transaction + 1};
}

/* Whether nothing differs from what was committed, where the first `blocks_before` blocks are of commits on
 * their way. Blocks that were appended already count too. */
static bool is_nothing(const struct pagelog_file *file, struct pagelog_position end_before,
                       size_t blocks_before) {
    return pagelog_blocks_is_fresh(file->blocks) && pagelog_blocks_count(file->blocks) == blocks_before &&
           is_at(end_of(file), end_before) && file->size == file->mark.size;
}

/* The outcome of a group before the last one: the end mark was not sent, so that there is no doubt about the
 * whole. */
static enum pagelog_outcome without_doubt(const struct pagelog_file *file, enum pagelog_outcome outcome) {
    if (outcome != PAGELOG_IN_DOUBT) return outcome;
    enum pagelog_outcome cause = pagelog_outcome_of(pagelog_refused(file->log));
    return cause == PAGELOG_DONE ? PAGELOG_LOST : cause;
}

/* What has become of the changes once DONE is returned. */
enum fate { NOTHING_DIFFERS, IN_THE_LOG, ON_ITS_WAY };

/* Sends the blocks of a transaction that are not sent yet. It waits for their replies unless the options say
 * otherwise. */
static enum pagelog_outcome send_last_blocks(struct pagelog_file *file, enum fate *fate) {
    uint64_t now = pagelog_now();
    *fate = IN_THE_LOG;
    if (file->on_their_way >= file->options.unwaited ||
        !pagelog_append_unwaited(file->log, file->blocks, file->options.written))
        return pagelog_append_ended(file);
    *fate = ON_ITS_WAY;
    file->sent = now;
    return PAGELOG_DONE;
}

/* Sends the changes and then the end mark. `*mark` is that of the transaction once DONE is returned. */
static enum pagelog_outcome send_changes(struct commit *commit, struct mark *mark, enum fate *fate) {
    struct pagelog_file *file = commit->file;
    size_t next = 0;
    struct pagelog_position end = end_of(file);
    if (file->on_their_way == 0) restart_at(file, file->blocks, next_of(end));
    size_t blocks = pagelog_blocks_count(file->blocks);
    enum pagelog_outcome outcome = add_old_pages(commit, &next);
    if (outcome == PAGELOG_DONE) outcome = add_fresh_pages(commit, next);
    if (outcome != PAGELOG_DONE) return without_doubt(file, outcome);
    *fate = NOTHING_DIFFERS;
    if (is_nothing(file, end, blocks)) return PAGELOG_DONE;
    outcome = pagelog_add_mark(file, mark);
    return outcome == PAGELOG_DONE ? send_last_blocks(file, fate) : outcome;
}

/* What an outcome leaves behind for the next transaction. */
static void note_failure(struct pagelog_file *file, enum pagelog_outcome outcome,
                         struct pagelog_position end) {
    if (pagelog_in_flight(file->log) > 0) pagelog_disconnect(file->log); /* blocks without an end */
    bool is_untouched = is_at(end_of(file), end) && !pagelog_is_stuck(file->log);
    file->source.calls->fall_back(file, outcome, !is_untouched || outcome == PAGELOG_IN_DOUBT);
}

/* Commits that nobody waited for are not in the log, or may not be: the file is what it was before them. */
static enum pagelog_outcome lose(struct pagelog_file *file, enum pagelog_outcome outcome) {
    pagelog_disconnect(file->log); /* their append is given up, even if all replies to it were read */
    pagelog_cache_clear(file->cache);
    file->mark = file->settled;
    file->size = file->least = file->mark.size;
    file->on_their_way = 0;
    pagelog_have(file, OVER);
    file->losses++;
    file->source.calls->fall_back(file, outcome, true);
    return pagelog_file_fail(file, outcome,
                             "the last commits, which nobody waited for, may not be in the log");
}

enum pagelog_outcome pagelog_file_settle(struct pagelog_file *file) {
    if (file->reading == OVER) return pagelog_refuse_to_go_on(file);
    if (file->on_their_way == 0) return PAGELOG_DONE;
    file->reason = NULL;
    enum pagelog_outcome outcome = pagelog_append_ended(file);
    if (outcome == PAGELOG_IN_DOUBT) outcome = file->source.calls->settle_doubt(file, &file->mark);
    if (outcome != PAGELOG_DONE) return file->reading == OVER ? outcome : lose(file, outcome);
    file->on_their_way = 0;
    return PAGELOG_DONE;
}

/* Has the service do what the last commits have left for the next report, while nobody waits. */
static void tidy_up_at_times(struct pagelog_file *file) {
    const struct pagelog_file_options *options = &file->options;
    uint64_t sent = pagelog_counts_of(file->log).bytes_sent;
    if (sent - file->tidied < MUCH_SENT) return;
    file->tidied = sent;
    pagelog_tidy_up(file->log, options->operator_principal,
                    options->has_operator ? options->operator_token : NULL);
}

static enum pagelog_outcome commit_changes(struct commit *commit) {
    struct pagelog_file *file = commit->file;
    struct mark mark = next_mark(file);
    enum fate fate = IN_THE_LOG;
    struct pagelog_position end = end_of(file);
    enum pagelog_outcome outcome = send_changes(commit, &mark, &fate);
    if (outcome == PAGELOG_IN_DOUBT) outcome = file->source.calls->settle_doubt(file, &mark);
    if (outcome != PAGELOG_DONE && file->on_their_way > 0) return lose(file, outcome);
    if (outcome == PAGELOG_DONE && fate != NOTHING_DIFFERS)
        keep(file, &mark, fate == ON_ITS_WAY);
    else if (outcome == PAGELOG_DONE)
        pagelog_file_undo(file);
    else
        note_failure(file, outcome, end);
    if (outcome == PAGELOG_DONE && fate == IN_THE_LOG) tidy_up_at_times(file);
    return outcome;
}

/* Whether something may differ from what was committed last. */
static bool has_changes(const struct commit *commit) {
    const struct pagelog_file *file = commit->file;
    if (file->size != file->mark.size || file->least != file->size) return true;
    for (size_t i = 0; i < commit->count; i++) {
        const struct pagelog_frame *frame = commit->frames[i];
        if (!frame->has_base || memcmp(frame->base, frame->changed, PAGELOG_PAGE_BYTES) != 0) return true;
    }
    return false;
}

/* The differences are against `mark`: a file that has gone on from there, or may have, takes none of them. */
static enum pagelog_outcome commit_if_allowed(struct commit *commit) {
    struct pagelog_file *file = commit->file;
    enum pagelog_outcome outcome = pagelog_file_reserve(file);
    if (outcome != PAGELOG_DONE) return outcome;
    if (!is_writer(file))
        return pagelog_file_fail(file, PAGELOG_FENCED, "this file is not written to: it follows");
    if (file->standing == BROKEN)
        return pagelog_file_fail(file, PAGELOG_CONFLICT, "a commit did not come to its end: begin again");
    if (pagelog_has_gone_on(file)) /* the last begin could not read it */
        return pagelog_file_fail(file, PAGELOG_CONFLICT,
                                 "the log has gone on from what was read: begin again");
    return commit_changes(commit);
}

/* Takes the replies to commits that nobody waited for, if all have come, so that no later one has to wait
 * until there is room in the window. It asks the system once for each few blocks. */
static enum pagelog_outcome settle_if_answered(struct pagelog_file *file) {
    size_t count = pagelog_blocks_count(file->blocks);
    if (file->on_their_way == 0) return PAGELOG_DONE;
    if (count < file->looked) file->looked = 0;
    if (count - file->looked < FEW_BLOCKS) return PAGELOG_DONE;
    file->looked = count;
    return pagelog_append_is_answered(file->log) ? pagelog_file_settle(file) : PAGELOG_DONE;
}

enum pagelog_outcome pagelog_file_commit(struct pagelog_file *file) {
    struct commit commit = {.file = file};
    enum pagelog_outcome outcome = pagelog_refuse_to_go_on(file);
    if (outcome != PAGELOG_DONE) return outcome;
    file->reason = NULL;
    bool is_resized = file->size != file->mark.size || file->least != file->size;
    if (!is_resized && !pagelog_cache_is_changed(file->cache)) return PAGELOG_DONE;
    if (!pagelog_cache_changed(file->cache, &commit.frames, &commit.count)) return out_of_memory(file);
    commit.old_pages = pages_of(file->least);
    commit.fresh_pages = pages_of(file->size);
    commit.has_bases = true;
    for (size_t i = 0; i < commit.count && commit.has_bases; i++)
        commit.has_bases = !lacks_base(&commit, commit.frames[i]);
    outcome = commit.has_bases ? settle_if_answered(file) : pagelog_file_settle(file); /* to ask for them */
    if (outcome == PAGELOG_DONE && has_changes(&commit))
        outcome = commit_if_allowed(&commit);
    else if (outcome == PAGELOG_DONE)
        pagelog_file_undo(file);
    free(commit.frames);
    return outcome;
}
