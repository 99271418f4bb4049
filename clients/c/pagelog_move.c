/* Moves: where to, and how a file goes on there. */
#include "pagelog_move.h"

#include <stdio.h>
#include <string.h>

enum {
    CONFIRM_MS = 300, /* for how long a service says that it does not know the principal, */
    GONE_MS = 500,    /* or no keeper listens, before that is told */
};

enum { SECTION_A = 1, SECTION_B = 2 };

/* Whether the service has no memory. Where this process has none, the file says why. */
static bool is_service_full(const struct pagelog_file *file) {
    return !file->reason && pagelog_refused(file->log)->kind == PAGELOG_REPLY_NO_MEMORY;
}

bool pagelog_may_move(const struct pagelog_file *file, enum pagelog_outcome outcome) {
    switch (outcome) {
    case PAGELOG_NO_MEMORY:
        return is_service_full(file);
    case PAGELOG_LOST:
    case PAGELOG_FENCED:
    case PAGELOG_IN_DOUBT:
    case PAGELOG_CONFLICT:
    case PAGELOG_DENIED:
    case PAGELOG_AUDIT_FULL:
        return true;
    default:
        return false;
    }
}

/* ---- Into another generation ---- */

/* Goes to the service of a place. */
static enum pagelog_outcome enter(struct pagelog_file *file, const struct pagelog_place *place) {
    struct named *named = file->source.named;
    uint8_t token[PAGELOG_TOKEN_BYTES];
    pagelog_token_of_run(named->keepers, named->token, place->run, token);
    enum pagelog_outcome outcome = pagelog_enter(file->log, place->address, token);
    if (outcome != PAGELOG_DONE) return outcome;
    pagelog_token_of_run(named->keepers, named->operator_token, place->run, file->options.operator_token);
    bool is_same_run = strcmp(named->place.run, place->run) == 0, was_superseded = is_superseded(named);
    pagelog_blocks_shift(file->blocks, named->place.shift - place->shift);
    if (named->where != NOWHERE) named->moves++;
    named->place = *place;
    file->source.shift = place->shift;
    if (!place->is_page_server) pagelog_keepers_are_of(named->keepers, place);
    pagelog_go(file, ARRIVING);
    if (!is_same_run) {
        pagelog_hear(file, UNHEARD);
        pagelog_renew_session(file);
    }
    if (was_superseded) named->settled = *place; /* nothing is left of before: that is told once */
    if (file->options.durable_only) named->durable = higher_of(named->durable, place->archived);
    pagelog_become_follower(file);
    file->is_far = false;
    return PAGELOG_DONE;
}

/* ---- The run that it is in ---- */

bool pagelog_is_unknown_principal(const struct pagelog_file *file) {
    const struct pagelog_reply *refused = pagelog_refused(file->log);
    return refused->section == SECTION_A && refused->row == 1;
}

enum pagelog_outcome pagelog_refuse_token(struct pagelog_file *file, const char *who, uint32_t id) {
    snprintf(file->words, sizeof file->words, "the table does not list %s %u with this token", who, id);
    return pagelog_file_fail(file, PAGELOG_DENIED, file->words);
}

/* The service lists no such principal with this token. It may be another's that has the address of one that
 * is gone, which its keeper does not know at once: so it is final where this run has never answered, and its
 * keepers have named it all the while. */
static enum pagelog_outcome refuse_principal(struct pagelog_file *file) {
    struct named *named = file->source.named;
    if (named->listing == UNHEARD) pagelog_hear(file, UNLISTED);
    if (named->listing == LISTED || pagelog_now() - named->refused < CONFIRM_MS) return PAGELOG_DENIED;
    return pagelog_refuse_token(file, "principal", file->options.service.principal);
}

/* Whether the file is at a page server that has less than another one has shown. */
static bool is_behind(const struct pagelog_file *file, struct pagelog_position end) {
    const struct named *named = file->source.named;
    bool lacks_transaction = !is_gone(file) && is_before(end, file->mark.position);
    return named->place.is_page_server && (is_before(end, named->shown) || lacks_transaction);
}

/* Goes on in the generation that the file is in. What is LOST is tried again, there or in the next one. */
static enum pagelog_outcome go_on(struct pagelog_file *file) {
    struct named *named = file->source.named;
    struct pagelog_reply status;
    enum pagelog_outcome outcome = pagelog_status(file->log, PAGELOG_SECONDARY, &status);
    if (outcome == PAGELOG_DENIED && pagelog_refused(file->log)->section == SECTION_B)
        return pagelog_file_fail(file, outcome, "the principal has to be allowed to read as a secondary");
    if (outcome == PAGELOG_DENIED && pagelog_is_unknown_principal(file)) return refuse_principal(file);
    if (outcome == PAGELOG_DONE && is_behind(file, hard_of(file, &status))) return PAGELOG_LOST;
    if (outcome == PAGELOG_DONE) pagelog_hear(file, LISTED);
    if (outcome == PAGELOG_DONE) outcome = pagelog_learn_end(file);
    if (outcome == PAGELOG_DONE) outcome = pagelog_settle_tail(file, &status);
    if (outcome != PAGELOG_DONE) return outcome;
    named->settled = named->place;
    note_epoch(named, &status);
    outcome = pagelog_find_transaction(file, end_of(file));
    if (outcome == PAGELOG_DONE) pagelog_go(file, HERE);
    return outcome;
}

/* Whether another try may help: the service has gone, or is closed by its keeper. */
static bool is_passing(const struct pagelog_file *file, enum pagelog_outcome outcome) {
    if (file->reading == OVER || file->reason) return false; /* decided */
    return outcome == PAGELOG_LOST || pagelog_may_move(file, outcome);
}

/* ---- The move ---- */

/* Another run has the number of the generation that the file is in: PostgreSQL went back. LOST: it is not
 * known with which of the two it has gone on. */
static enum pagelog_outcome ask_own_fate(struct pagelog_file *file) {
    struct named *named = file->source.named;
    const struct pagelog_position any = {0};
    struct pagelog_fate fate = {0};
    enum pagelog_outcome outcome = pagelog_fate_of(named->keepers, NULL, &named->place, any, &fate);
    if (outcome == PAGELOG_DONE && fate.loss) return pagelog_lose_run(file, &named->place, fate.loss);
    return PAGELOG_LOST;
}

/* Goes to one of the page servers. LOST where none can be used. */
static enum pagelog_outcome go_to_page_server(struct pagelog_file *file,
                                              const struct pagelog_place *service) {
    struct pagelog_place found[PAGELOG_MOST_PAGE_SERVERS];
    size_t count = pagelog_page_server_places(file, service, found);
    enum pagelog_outcome outcome = PAGELOG_LOST;
    for (size_t i = 0; i < count && outcome != PAGELOG_DONE; i++) {
        outcome = enter(file, &found[i]);
        if (outcome == PAGELOG_DONE) outcome = go_on(file);
        bool is_decided = file->reason && file->options.pages == PAGELOG_PAGES_ONLY;
        if (outcome == PAGELOG_NO_MEMORY || is_decided) return outcome;
        if (outcome != PAGELOG_DONE) file->reason = NULL; /* the service decides */
    }
    return outcome == PAGELOG_DONE ? outcome : PAGELOG_LOST;
}

/* One try: to the place that the keepers say, if it is another one, and on from there. */
static enum pagelog_outcome try_to_move(struct pagelog_file *file, bool is_over) {
    struct named *named = file->source.named;
    struct pagelog_place place;
    uint64_t least = named->place.generation; /* 0: NOWHERE */
    pagelog_wait_again(file);
    bool is_later = is_over && !is_superseded(named);
    enum pagelog_outcome outcome = pagelog_where_later(named->keepers, least, least + is_later, &place);
    if (outcome == PAGELOG_DENIED) return pagelog_take_denial(file);
    if (outcome != PAGELOG_DONE) return outcome;
    if (pagelog_wants_page_server(file, &place)) {
        bool is_alone = file->options.pages == PAGELOG_PAGES_ONLY;
        outcome = go_to_page_server(file, &place);
        if (outcome != PAGELOG_LOST || is_alone) return outcome;
    }
    bool is_same = strcmp(place.run, named->place.run) == 0;
    bool is_other = named->where == NOWHERE || place.generation > least || (is_superseded(named) && !is_same);
    is_other |= named->place.is_page_server;
    if (!is_other && !is_same) return ask_own_fate(file);
    is_over |= is_superseded(named);
    if (!is_other && (is_over || pagelog_is_restarted(file->log))) return PAGELOG_LOST;
    if (is_other) outcome = enter(file, &place);
    return outcome == PAGELOG_DONE ? go_on(file) : outcome;
}

/* Whether a commit that is not acknowledged may have come into a log by this move, which did not get to its
 * end. */
static bool may_be_there(const struct named *named) {
    return named->is_sent_again && !pagelog_tail_is_empty(&named->tail) &&
           is_before(next_of(named->told), named->tail.next);
}

/* The generation that the file has left, or is to leave, and for what. */
struct leaving {
    bool is_over; /* so the next one is waited for */
    bool is_full; /* its service had no memory */
    uint64_t generation;
    enum pagelog_outcome cause;
};

/* Where the service has no memory its keeper is told so, and begins the next generation. */
static void leave_if_full(struct pagelog_file *file, struct leaving *leaving) {
    uint64_t generation = file->source.named->place.generation;
    bool is_left = leaving->is_over && leaving->generation == generation;
    if (file->source.named->where == NOWHERE || is_left || !is_service_full(file)) return;
    leaving->is_over = leaving->is_full = true;
    leaving->generation = generation;
    if (leaving->cause == PAGELOG_LOST) leaving->cause = PAGELOG_NO_MEMORY;
    pagelog_keepers_tell_full(file->source.named->keepers, &file->source.named->place);
}

static enum pagelog_outcome give_up_move(struct pagelog_file *file, const struct leaving *leaving) {
    static const struct pagelog_reply no_memory = {.kind = PAGELOG_REPLY_NO_MEMORY};
    const char *why = pagelog_explain_wait(file, "no generation could be used in time", "");
    file->source.named->shown.number = 0; /* it was told once: PostgreSQL may have gone back */
    if (leaving->is_full) why = "the service has no memory left, and no other has followed it in time";
    if (leaving->cause == PAGELOG_NO_MEMORY) pagelog_restore(file->log, leaving->cause, &no_memory);
    return pagelog_file_fail(file, may_be_there(file->source.named) ? PAGELOG_IN_DOUBT : leaving->cause, why);
}

/* An open that no keeper listens to is not waited for: their addresses may be wrong. Who was there before
 * waits for them, as they may be started again. */
static bool are_keepers_gone(const struct pagelog_file *file, uint64_t *since) {
    bool are_gone =
        file->source.named->where == NOWHERE && pagelog_keepers_are_gone(file->source.named->keepers);
    uint64_t now = pagelog_now();
    if (!are_gone || *since == 0) *since = are_gone ? now : 0;
    return are_gone && now - *since >= GONE_MS;
}

static enum pagelog_outcome move(struct pagelog_file *file, struct leaving leaving) {
    struct pagelog_file_patience patience = pagelog_file_patience(file);
    static const char gone_why[] = ": all connections are refused";
    uint64_t gone = 0;
    leave_if_full(file, &leaving);
    file->reason = NULL;
    file->source.named->is_sent_again = false;
    for (;;) {
        bool is_over = leaving.is_over && file->source.named->place.generation == leaving.generation;
        enum pagelog_outcome outcome = try_to_move(file, is_over);
        if (outcome == PAGELOG_DONE || !is_passing(file, outcome)) return outcome;
        leave_if_full(file, &leaving);
        if (are_keepers_gone(file, &gone))
            return pagelog_file_fail(file, outcome,
                                     pagelog_explain_wait(file, "no keeper answers", gone_why));
        pagelog_disconnect(file->log);
        if (!pagelog_file_may_wait(file, &patience)) return give_up_move(file, &leaving);
    }
}

enum pagelog_outcome pagelog_move(struct pagelog_file *file, enum pagelog_outcome cause) {
    bool is_kept = cause == PAGELOG_IN_DOUBT || cause == PAGELOG_AUDIT_FULL || cause == PAGELOG_NO_MEMORY;
    return move(file, (struct leaving){.cause = is_kept ? cause : PAGELOG_LOST});
}

enum pagelog_outcome pagelog_arrive(struct pagelog_file *file) {
    if (file->source.named->dropped)
        return pagelog_file_fail(file, PAGELOG_DENIED, file->source.named->dropped);
    return is_between(file->source.named) ? pagelog_move(file, PAGELOG_LOST) : PAGELOG_DONE;
}

/* Commits on their way are settled before, while it is known to whom they were sent. That may move the file
 * already. */
enum pagelog_outcome pagelog_move_on(struct pagelog_file *file) {
    uint64_t left = file->source.named->place.generation;
    enum pagelog_outcome outcome = file->on_their_way > 0 ? pagelog_file_settle(file) : PAGELOG_DONE;
    bool is_left = outcome == PAGELOG_DONE && file->source.named->place.generation == left;
    struct leaving leaving = {.is_over = true, .generation = left, .cause = PAGELOG_LOST};
    return is_left ? move(file, leaving) : outcome;
}
