/* Opening, transactions, reads and writes. pagelog_mark.c has the end mark, pagelog_commit.c the commit,
 * pagelog_repair.c the repair, pagelog_follow.c the follower. */
#include "pagelog_file_inside.h"

#include <stdio.h>
#include <stdlib.h>
#include <string.h>

enum { DEFAULT_CACHE = 4096 };

/* ---- Making, opening, freeing ---- */

enum pagelog_outcome pagelog_file_fail(struct pagelog_file *file, enum pagelog_outcome outcome,
                                       const char *reason) {
    file->failed = outcome;
    file->reason = reason;
    return outcome;
}

struct pagelog_file *pagelog_file_new(const struct pagelog_file_options *options) {
    struct pagelog_file *file = calloc(1, sizeof *file);
    if (!file) return NULL;
    file->options = *options;
    snprintf(file->name, sizeof file->name, "%s", options->name ? options->name : "");
    pagelog_make_addressed(file);
    bool is_made = !options->keepers || pagelog_make_named(file);
    file->options.keepers = file->options.database_name = file->options.name =
        NULL; /* they are the caller's */
    file->log = pagelog_new(&file->options.service);
    file->cache = pagelog_cache_new(options->cache_pages ? options->cache_pages : DEFAULT_CACHE);
    file->blocks = pagelog_blocks_new();
    file->next.number = 1;
    if (file->log) pagelog_set_taker(file->log, pagelog_take_page, file);
    if (is_made && file->log && file->cache && file->blocks) return file;
    pagelog_file_free(file);
    return NULL;
}

void pagelog_file_free(struct pagelog_file *file) {
    if (!file) return;
    pagelog_free(file->log);
    file->source.calls->free(file);
    pagelog_cache_free(file->cache);
    pagelog_blocks_free(file->blocks);
    free(file->pending.bytes);
    free(file->expected.pages);
    free(file);
}

enum pagelog_outcome pagelog_file_connect(struct pagelog_file *file, char *peer, size_t room) {
    file->reason = NULL;
    return file->source.calls->connect(file, peer, room);
}

void pagelog_file_abandon(struct pagelog_file *file) {
    pagelog_abandon(file->log);
    file->source.calls->abandon(file);
}

enum pagelog_outcome pagelog_file_open(struct pagelog_file *file) {
    file->reason = NULL;
    if (!pagelog_begin_session(file))
        return pagelog_file_fail(file, PAGELOG_NO_MEMORY, "the system has no random number");
    enum pagelog_outcome outcome = file->source.calls->open(file);
    pagelog_have(file, outcome == PAGELOG_DONE ? OPEN : CLOSED);
    file->size = file->least = file->mark.size;
    return outcome;
}

/* ---- Beginning ---- */

void pagelog_become_follower(struct pagelog_file *file) {
    pagelog_stand(file, FOLLOWING);
    file->checked = 0;
    file->next = next_of(file->mark.position);
    file->pending.length = 0;
}

enum pagelog_outcome pagelog_file_take_over(struct pagelog_file *file, uint32_t operator_principal,
                                            const uint8_t operator_token[PAGELOG_TOKEN_BYTES]) {
    file->reason = NULL;
    return file->source.calls->take_over(file, operator_principal, operator_token);
}

enum pagelog_outcome pagelog_file_reserve(struct pagelog_file *file) {
    file->reason = NULL;
    return file->source.calls->reserve(file);
}

/* After a commit that did not come to its end: an epoch of its own, in which all is decided, but only if
 * nobody else has begun one. */
static enum pagelog_outcome renew(struct pagelog_file *file) {
    const struct pagelog_file_options *options = &file->options;
    if (!options->has_operator)
        return pagelog_file_fail(file, PAGELOG_CONFLICT,
                                 "a commit did not come to its end: open the file again");
    enum pagelog_outcome outcome = pagelog_take_over(
        file->log, options->operator_principal, options->operator_token, pagelog_writing_epoch(file->log));
    if (outcome == PAGELOG_DONE) outcome = pagelog_recover(file);
    if (outcome == PAGELOG_DONE && file->standing == BROKEN) pagelog_stand(file, WRITING);
    return outcome;
}

/* Asks whether the writer's epoch goes on, and whether the log still ends where this file believes. */
static enum pagelog_outcome check_epoch(struct pagelog_file *file) {
    struct pagelog_reply status;
    enum pagelog_outcome outcome = pagelog_status(file->log, PAGELOG_PRIMARY, &status);
    if (outcome != PAGELOG_DONE || is_at(hard_of(file, &status), file->mark.position)) return outcome;
    outcome = pagelog_recover(file);
    bool is_ended = !pagelog_is_stuck(file->log); /* the repair */
    if (!is_ended && is_writer(file)) pagelog_stand(file, BROKEN);
    return outcome;
}

bool pagelog_has_gone_on(const struct pagelog_file *file) {
    return file->on_their_way == 0 && !is_at(end_of(file), file->mark.position);
}

static bool is_due(const struct pagelog_file *file, uint64_t now) {
    return file->checked == 0 || now - file->checked >= file->options.check_ms;
}

static enum pagelog_outcome begin_writer(struct pagelog_file *file, uint64_t now) {
    enum pagelog_outcome outcome = PAGELOG_DONE;
    if (file->standing == BROKEN)
        outcome = renew(file);
    else if (is_due(file, now) || pagelog_has_gone_on(file))
        outcome = check_epoch(file);
    if (outcome == PAGELOG_FENCED && !pagelog_is_restarted(file->log)) pagelog_become_follower(file);
    return outcome;
}

/* Learns what has become of commits that nobody waited for, where that is due, or where a refusal has come.
 */
static enum pagelog_outcome look_after_commits(struct pagelog_file *file, uint64_t now) {
    if (file->on_their_way == 0) return PAGELOG_DONE;
    bool is_wanted = is_due(file, now) || pagelog_append_is_due(file->log);
    return is_wanted ? pagelog_file_settle(file) : PAGELOG_DONE;
}

enum pagelog_outcome pagelog_refresh(struct pagelog_file *file) {
    uint64_t now = file->begun; /* by which it was decided whether commits on their way are waited for */
    enum pagelog_outcome outcome = is_writer(file) ? begin_writer(file, now) : PAGELOG_DONE;
    if (!is_writer(file) && !file->options.at && is_due(file, now)) outcome = pagelog_follow(file);
    if (outcome != PAGELOG_DONE) return outcome;
    if (is_due(file, now)) file->checked = now;
    return PAGELOG_DONE;
}

enum pagelog_outcome pagelog_file_begin(struct pagelog_file *file) {
    file->reason = NULL;
    if (file->reading == CLOSED) return pagelog_file_fail(file, PAGELOG_MALFORMED, "the file is not open");
    pagelog_file_undo(file);
    if (file->reading == OVER) pagelog_have(file, file->source.calls->is_gone_after_loss ? GONE : OPEN);
    file->lost = NULL;
    file->begun = pagelog_now();
    enum pagelog_outcome outcome = look_after_commits(file, file->begun);
    if (outcome != PAGELOG_DONE) return outcome;
    outcome = file->source.calls->begin(file);
    file->is_stale = outcome != PAGELOG_DONE && !is_writer(file) && file->options.may_be_stale;
    if (outcome != PAGELOG_DONE && !file->is_stale) return outcome;
    file->size = file->least = file->mark.size;
    return PAGELOG_DONE;
}

/* ---- Pages ---- */

static enum pagelog_outcome out_of_memory(struct pagelog_file *file) {
    return pagelog_file_fail(file, PAGELOG_NO_MEMORY, "this process has no memory left");
}

enum pagelog_outcome pagelog_fetch(struct pagelog_file *file, struct pagelog_position position,
                                   struct wanted wanted, uint8_t *out) {
    if (file->on_their_way > 0) {
        enum pagelog_outcome settled = pagelog_file_settle(file);
        if (settled != PAGELOG_DONE) return settled;
    }
    return file->source.calls->get(file, position, wanted, out);
}

static enum pagelog_outcome get(struct pagelog_file *file, struct pagelog_position position,
                                struct wanted wanted, uint8_t *out) {
    enum pagelog_role role = role_of(file);
    size_t all = wanted.count + wanted.ahead;
    if (wanted.count != 1) return get_at(file, role, position, wanted.pages, wanted.count, out);
    return pagelog_get_ahead(file->log, role, lsn_of(file, position).number, wanted.pages, all, out);
}

enum pagelog_outcome pagelog_fetch_here(struct pagelog_file *file, struct pagelog_position position,
                                        struct wanted wanted, uint8_t *out) {
    enum pagelog_outcome outcome = get(file, position, wanted, out);
    if (outcome == PAGELOG_FENCED && is_writer(file) && !pagelog_is_restarted(file->log)) {
        pagelog_become_follower(file);
        wanted.ahead = 0;
        outcome = get(file, position, wanted, out);
    }
    if (outcome == PAGELOG_DONE) file->pages_fetched += wanted.count;
    return outcome;
}

/* Whether a page was outside of the file at some moment since the last commit, so that it begins as zeros. */
static bool is_fresh(const struct pagelog_file *file, uint32_t page) {
    return page > pages_of(file->least);
}

/* The bytes of a page as the transaction has it; NULL in `*found` for zeros. */
static enum pagelog_outcome look_up(struct pagelog_file *file, uint32_t page, const uint8_t **found) {
    struct pagelog_frame *frame = pagelog_cache_find(file->cache, page);
    *found = frame ? frame->changed : NULL;
    if (*found || is_fresh(file, page)) return PAGELOG_DONE;
    if (!frame || !frame->has_base) {
        enum pagelog_outcome outcome = pagelog_fetch_page(file, page);
        if (outcome != PAGELOG_DONE) return outcome;
        frame = pagelog_cache_find(file->cache, page);
    }
    *found = frame->base;
    return PAGELOG_DONE;
}

enum pagelog_outcome pagelog_file_read(struct pagelog_file *file, uint64_t offset, void *bytes, size_t length,
                                       size_t *count) {
    uint8_t *out = bytes;
    uint64_t left = offset < file->size ? file->size - offset : 0;
    enum pagelog_outcome refused = pagelog_refuse_to_go_on(file);
    if (refused != PAGELOG_DONE) return refused;
    *count = left < length ? (size_t)left : length;
    memset(out + *count, 0, length - *count);
    for (size_t done = 0; done < *count;) {
        uint32_t page = (uint32_t)((offset + done) / PAGELOG_PAGE_BYTES) + 1;
        size_t start = (size_t)((offset + done) % PAGELOG_PAGE_BYTES), piece = PAGELOG_PAGE_BYTES - start;
        const uint8_t *found;
        if (piece > *count - done) piece = *count - done;
        enum pagelog_outcome outcome = look_up(file, page, &found);
        if (outcome != PAGELOG_DONE) return outcome;
        if (found)
            memcpy(out + done, found + start, piece);
        else
            memset(out + done, 0, piece);
        done += piece;
    }
    return PAGELOG_DONE;
}

/* Replaces bytes within a page. A page that is replaced as a whole need not be read before. */
static enum pagelog_outcome change_page(struct pagelog_file *file, uint32_t page, size_t start,
                                        const uint8_t *bytes, size_t length) {
    const uint8_t *found = NULL;
    bool whole = length == PAGELOG_PAGE_BYTES;
    if (!whole) {
        enum pagelog_outcome outcome = look_up(file, page, &found);
        if (outcome != PAGELOG_DONE) return outcome;
    }
    struct pagelog_frame *frame = pagelog_cache_make(file->cache, page);
    bool is_new = frame && !frame->changed;
    if (!frame || !pagelog_cache_change(file->cache, frame, whole)) return out_of_memory(file);
    if (is_new && !whole && is_fresh(file, page)) memset(frame->changed, 0, PAGELOG_PAGE_BYTES);
    if (bytes)
        memcpy(frame->changed + start, bytes, length);
    else
        memset(frame->changed + start, 0, length);
    return PAGELOG_DONE;
}

enum pagelog_outcome pagelog_file_write(struct pagelog_file *file, uint64_t offset, const void *bytes,
                                        size_t length) {
    const uint8_t *in = bytes;
    enum pagelog_outcome refused = pagelog_refuse_to_go_on(file);
    if (refused != PAGELOG_DONE) return refused;
    if (offset > PAGELOG_FILE_MOST || length > PAGELOG_FILE_MOST - offset)
        return pagelog_file_fail(file, PAGELOG_MALFORMED, "the file would be too long");
    for (size_t done = 0; done < length;) {
        uint32_t page = (uint32_t)((offset + done) / PAGELOG_PAGE_BYTES) + 1;
        size_t start = (size_t)((offset + done) % PAGELOG_PAGE_BYTES), piece = PAGELOG_PAGE_BYTES - start;
        if (piece > length - done) piece = length - done;
        enum pagelog_outcome outcome = change_page(file, page, start, in + done, piece);
        if (outcome != PAGELOG_DONE) return outcome;
        done += piece;
    }
    if (offset + length > file->size) file->size = offset + length;
    return PAGELOG_DONE;
}

enum pagelog_outcome pagelog_file_resize(struct pagelog_file *file, uint64_t size) {
    size_t start = (size_t)(size % PAGELOG_PAGE_BYTES);
    enum pagelog_outcome refused = pagelog_refuse_to_go_on(file);
    if (refused != PAGELOG_DONE) return refused;
    if (size > PAGELOG_FILE_MOST)
        return pagelog_file_fail(file, PAGELOG_MALFORMED, "the file would be too long");
    if (size < file->size && start > 0) { /* after the end of the file its last page has zeros */
        enum pagelog_outcome outcome =
            change_page(file, pages_of(size), start, NULL, PAGELOG_PAGE_BYTES - start);
        if (outcome != PAGELOG_DONE) return outcome;
    }
    if (size < file->size) pagelog_cache_forget_above(file->cache, pages_of(size));
    file->size = size;
    if (size < file->least) file->least = size;
    return PAGELOG_DONE;
}

uint64_t pagelog_file_size(const struct pagelog_file *file) {
    return file->size;
}

void pagelog_file_undo(struct pagelog_file *file) {
    pagelog_cache_undo(file->cache);
    file->size = file->least = file->mark.size;
}
