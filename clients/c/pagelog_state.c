/* What is known of a file, and what is asked for it beside its transactions. */
#include "pagelog_file_inside.h"

#include <stdio.h>
#include <string.h>

/* ---- The audit list ---- */

/* Learns whether there is an operator to ask for, and settles what is on its way. */
static enum pagelog_outcome prepare_to_ask(struct pagelog_file *file, struct pagelog_operator *who) {
    const struct pagelog_file_options *options = &file->options;
    if (!options->has_operator)
        return pagelog_file_fail(file, PAGELOG_DENIED, "there is no operator to ask for");
    who->principal = options->operator_principal;
    memcpy(who->token, options->operator_token, PAGELOG_TOKEN_BYTES);
    return pagelog_file_settle(file);
}

enum pagelog_outcome pagelog_file_has_entry(struct pagelog_file *file, uint64_t number, bool *has) {
    struct pagelog_operator who;
    enum pagelog_outcome outcome = prepare_to_ask(file, &who);
    *has = false;
    return outcome == PAGELOG_DONE ? pagelog_has_entry(file->log, &who, number, has) : outcome;
}

enum pagelog_outcome pagelog_file_count_entries(struct pagelog_file *file, uint64_t *count) {
    struct pagelog_operator who;
    enum pagelog_outcome outcome = prepare_to_ask(file, &who);
    return outcome == PAGELOG_DONE ? pagelog_count_entries(file->log, &who, count) : outcome;
}

/* ---- What is known ---- */

/* Of the transaction that is read; 0 where it is not in this run. */
static struct pagelog_lsn lsn_of_mark(const struct pagelog_file *file) {
    return lsn_of(file, file->mark.position);
}

const struct pagelog_reply *pagelog_file_refused(const struct pagelog_file *file) {
    return pagelog_refused(file->log);
}

bool pagelog_file_may_commit(const struct pagelog_file *file) {
    return file->source.calls->may_commit(file);
}

void pagelog_file_set_sent(struct pagelog_file *file, void (*sent)(void *argument), void *argument) {
    file->tell_sent = sent;
    file->told_sent = argument;
}

bool pagelog_file_is_named(const struct pagelog_file *file) {
    return file->source.name != NULL;
}

bool pagelog_file_is_no_more(const struct pagelog_file *file) {
    return file->source.calls->is_no_more(file);
}

bool pagelog_file_begins_again(const struct pagelog_file *file) {
    return file->source.calls->begins_again;
}

uint64_t pagelog_file_history(const struct pagelog_file *file) {
    return file->losses + file->given_up;
}

uint64_t pagelog_file_losses(const struct pagelog_file *file) {
    return file->losses;
}

uint64_t pagelog_file_generation(const struct pagelog_file *file) {
    const struct pagelog_place *place = pagelog_file_place(file);
    return place ? place->generation : 0;
}

const struct pagelog_place *pagelog_file_place(const struct pagelog_file *file) {
    return file->source.calls->place(file);
}

uint64_t pagelog_file_lsn(const struct pagelog_file *file) {
    return lsn_of_mark(file).number;
}

void pagelog_file_set_check(struct pagelog_file *file, unsigned check_ms) {
    file->options.check_ms = check_ms;
}

void pagelog_file_set_unwaited(struct pagelog_file *file, unsigned unwaited) {
    file->options.unwaited = unwaited;
}

void pagelog_file_set_spin(struct pagelog_file *file, unsigned spin_us) {
    pagelog_set_spin(file->log, spin_us);
}

void pagelog_file_set_waiting(struct pagelog_file *file, bool (*goes_on)(void *argument), void *argument) {
    file->source.calls->set_waiting(file, goes_on, argument);
}

struct pagelog_file_state pagelog_file_state_of(const struct pagelog_file *file) {
    bool is_named = pagelog_file_is_named(file), only_reads = file->options.reads_only && !is_named;
    struct pagelog_file_state state = {
        .is_writer = is_writer(file),
        .is_fenced = !is_writer(file) && file->reading != CLOSED && !only_reads,
        .is_broken = file->standing == BROKEN,
        .is_stale = file->is_stale,
        .is_restarted = pagelog_is_restarted(file->log),
        .is_foreign = file->is_foreign,
        .is_misnamed = file->is_misnamed,
        .is_over = file->reading == OVER,
        .is_named = is_named,
        .is_gone = is_gone(file),
        .generation = pagelog_file_generation(file),
        .position = is_none(lsn_of_mark(file)) ? 0 : file->mark.position.number,
        .lsn = lsn_of_mark(file).number,
        .end = pagelog_end(file->log),
        .size = file->mark.size,
        .transaction = file->mark.transaction,
        .epoch = pagelog_epoch(file->log),
        .writing_epoch = pagelog_writing_epoch(file->log),
        .zone = pagelog_zone_of(file->log),
        .cached_pages = pagelog_cache_count(file->cache),
        .check_ms = file->options.check_ms,
        .spin_us = pagelog_spin(file->log),
        .unwaited = file->options.unwaited,
        .on_their_way = file->on_their_way,
        .losses = file->losses,
        .commits = file->commits,
        .repairs = file->repairs,
        .pages_fetched = file->pages_fetched,
        .pages_copied = file->pages_copied,
        .blocks_written = file->blocks_written,
        .wire = pagelog_counts_of(file->log),
    };
    file->source.calls->describe(file, &state);
    return state;
}

/* What a denial by the table means. */
static const char *sentence_of(const struct pagelog_reply *refused) {
    if (refused->kind != PAGELOG_REPLY_DENIED) return "";
    if (refused->section == 1 && refused->row == 1)
        return ": the table does not list this principal with this token";
    if (refused->section != 2) return "";
    return refused->row == 0 ? ": no row of the table matches"
                             : ": this row of the table is the first that matches, and it denies";
}

void pagelog_file_explain(const struct pagelog_file *file, char *text, size_t room) {
    if (file->reason) {
        snprintf(text, room, "%s: %s", pagelog_outcome_name(file->failed), file->reason);
        return;
    }
    pagelog_explain(file->log, text, room);
    size_t length = strlen(text);
    snprintf(text + length, room - length, "%s", sentence_of(pagelog_refused(file->log)));
}
