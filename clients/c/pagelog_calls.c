/* The calls that are repeated after a lost connection, and the epochs of a writer. */
#include "pagelog_inside.h"
#include "pagelog_place.h"

#include <string.h>

enum { GETS_IN_FLIGHT = 64, MOST_EPOCHS = 64, FEW_EPOCHS = 2, QUICKEST_MS = 2, SLOWEST_MS = 64 };

/* ---- Calls that are repeated ---- */

/* Whether a denial reports an epoch that this role takes over, so that the request may be asked again. */
static bool takes_over_epoch(const struct pagelog *log, uint8_t role, uint32_t asked_epoch) {
    const struct pagelog_reply *reply = &log->refused;
    bool tells = reply->kind == PAGELOG_REPLY_DENIED && reply->section == SECTION_A &&
                 (reply->row == 2 || reply->row == 3);
    return tells && !log->is_restarted && role != PAGELOG_PRIMARY && log->epoch != asked_epoch;
}

struct pagelog_patience pagelog_patience_of(struct pagelog *log) {
    struct pagelog_patience patience = {.log = log, .ms = log->options.patience_ms};
    pagelog_progress(&patience);
    return patience;
}

void pagelog_progress(struct pagelog_patience *patience) {
    patience->wait_ms = 0;
    patience->until = pagelog_after(patience->ms);
}

bool pagelog_may_try_again(struct pagelog_patience *patience) {
    if (pagelog_now() >= patience->until || !pagelog_waits_on(&patience->log->waiter)) return false;
    if (patience->wait_ms == 0)
        patience->wait_ms = QUICKEST_MS;
    else
        pagelog_back_off(&patience->wait_ms, SLOWEST_MS);
    return true;
}

bool pagelog_may_change_epoch(struct pagelog_patience *patience) {
    unsigned most = pagelog_now() < patience->until ? MOST_EPOCHS : FEW_EPOCHS;
    return patience->epochs++ < most;
}

/* One request, asked again with the epoch that a denial reports, and after a lost connection. */
static enum pagelog_outcome ask(struct pagelog *log, const struct pagelog_request *request,
                                struct pagelog_reply *reply) {
    if (log->asked_count > 0) return pagelog_fail(log, PAGELOG_MALFORMED);
    struct pagelog_patience patience = pagelog_patience_of(log);
    for (;;) {
        uint32_t epoch = log->epoch;
        enum pagelog_outcome outcome = pagelog_send(log, request);
        if (outcome != PAGELOG_DONE) return outcome;
        outcome = pagelog_receive(log, reply);
        if (outcome == PAGELOG_LOST && pagelog_may_try_again(&patience)) continue;
        if (outcome != PAGELOG_FENCED || !takes_over_epoch(log, request->role, epoch) ||
            !pagelog_may_change_epoch(&patience))
            return outcome;
    }
}

enum pagelog_outcome pagelog_status(struct pagelog *log, enum pagelog_role role,
                                    struct pagelog_reply *status) {
    struct pagelog_request request = {.role = (uint8_t)role, .operation = PAGELOG_STATUS};
    return ask(log, &request, status);
}

/* Asks for up to 64 pages in one round trip. Each reply is read, whatever those before it were. */
static enum pagelog_outcome get_group(struct pagelog *log, enum pagelog_role role, uint64_t lsn,
                                      const uint32_t *pages, size_t count, uint8_t *out) {
    struct pagelog_request request = {
        .role = (uint8_t)role, .operation = PAGELOG_GET, .lsn = lsn, .exact = 1};
    enum pagelog_outcome first = PAGELOG_DONE;
    struct pagelog_reply reply, refused = {0};
    for (size_t i = 0; i < count; i++) {
        request.page = pages[i];
        enum pagelog_outcome outcome = pagelog_send(log, &request);
        if (outcome != PAGELOG_DONE) {
            pagelog_disconnect(log);
            return outcome;
        }
    }
    for (size_t i = 0; i < count; i++) {
        enum pagelog_outcome outcome = pagelog_receive(log, &reply);
        if (outcome != PAGELOG_DONE && (outcome == PAGELOG_MALFORMED || log->socket < 0)) {
            pagelog_disconnect(log); /* of what is in flight no reply is read any more */
            return outcome;
        }
        if (outcome == PAGELOG_DONE) memcpy(out + i * PAGELOG_PAGE_BYTES, reply.bytes, PAGELOG_PAGE_BYTES);
        if (outcome == PAGELOG_DONE || first != PAGELOG_DONE) continue;
        first = outcome;
        refused = log->refused;
    }
    return first == PAGELOG_DONE ? first : pagelog_restore(log, first, &refused);
}

enum pagelog_outcome pagelog_get(struct pagelog *log, enum pagelog_role role, uint64_t lsn,
                                 const uint32_t *pages, size_t count, uint8_t *out) {
    struct pagelog_patience patience = pagelog_patience_of(log);
    size_t most = GETS_IN_FLIGHT;
    if (log->asked_count > 0) return pagelog_fail(log, PAGELOG_MALFORMED);
    for (size_t done = 0; done < count;) {
        uint32_t epoch = log->epoch;
        size_t group = count - done < most ? count - done : most;
        enum pagelog_outcome outcome =
            get_group(log, role, lsn, pages + done, group, out + done * PAGELOG_PAGE_BYTES);
        if (outcome == PAGELOG_DONE) {
            done += group;
            pagelog_progress(&patience);
        } else if (outcome == PAGELOG_LOST && pagelog_may_try_again(&patience)) {
            most = group > 1 ? group / 2 : 1;
        } else if (outcome != PAGELOG_FENCED || !takes_over_epoch(log, role, epoch) ||
                   !pagelog_may_change_epoch(&patience)) {
            return outcome;
        }
    }
    return PAGELOG_DONE;
}

/* Asks for the first page, if it is not in flight, and for the others, and waits for the first one. */
static enum pagelog_outcome get_with_others(struct pagelog *log, enum pagelog_role role, uint64_t lsn,
                                            const uint32_t *pages, size_t count, uint8_t *out) {
    struct pagelog_request request = {
        .role = (uint8_t)role, .operation = PAGELOG_GET, .lsn = lsn, .exact = 1};
    struct pagelog_reply reply;
    size_t sent = pagelog_await_ahead(log, lsn, pages[0]) ? 1 : 0;
    for (size_t i = sent; i < count; i++) {
        request.page = pages[i];
        enum pagelog_outcome outcome =
            i == 0 ? pagelog_send(log, &request) : pagelog_send_ahead(log, &request);
        if (outcome == PAGELOG_DONE) continue;
        pagelog_disconnect(log);
        return outcome;
    }
    enum pagelog_outcome outcome = pagelog_receive(log, &reply);
    if (outcome == PAGELOG_DONE) memcpy(out, reply.bytes, PAGELOG_PAGE_BYTES);
    if (outcome == PAGELOG_DONE) pagelog_take_ahead(log);
    return outcome;
}

enum pagelog_outcome pagelog_get_ahead(struct pagelog *log, enum pagelog_role role, uint64_t lsn,
                                       const uint32_t *pages, size_t count, uint8_t *out) {
    struct pagelog_patience patience = pagelog_patience_of(log);
    if (log->asked_count > 0) return pagelog_fail(log, PAGELOG_MALFORMED);
    for (;;) {
        uint32_t epoch = log->epoch;
        bool was_ahead = pagelog_is_ahead(log, lsn, pages[0]);
        enum pagelog_outcome outcome = get_with_others(log, role, lsn, pages, count, out);
        if (outcome == PAGELOG_DONE) return outcome;
        bool is_refused_ahead = was_ahead && log->socket >= 0; /* as of an epoch that was over by then */
        bool is_lost = outcome == PAGELOG_LOST && pagelog_may_try_again(&patience);
        bool is_fenced = outcome == PAGELOG_FENCED && takes_over_epoch(log, role, epoch);
        if (!is_refused_ahead && !is_lost && !(is_fenced && pagelog_may_change_epoch(&patience)))
            return outcome;
        count = 1; /* the others are in flight, or were refused too, or went with their connection */
    }
}

/* Whether the last denial says that the log ends just before `from`. */
static bool is_at_the_end(const struct pagelog *log, uint64_t from) {
    const struct pagelog_reply *reply = &log->refused;
    return !log->is_restarted && reply->kind == PAGELOG_REPLY_DENIED && reply->section == SECTION_C &&
           reply->row == 1 && reply->value + 1 == from;
}

/* Notes the last block that was pulled. */
static void note_pulled(struct pagelog *log, const struct pagelog_reply *blocks) {
    size_t at = 0, length;
    const uint8_t *block, *last = NULL;
    while ((block = pagelog_next_block(blocks, &at, &length)))
        last = block;
    if (last) pagelog_note_block(log, last);
}

enum pagelog_outcome pagelog_pull(struct pagelog *log, uint64_t from, unsigned max,
                                  struct pagelog_reply *blocks) {
    struct pagelog_request request = {.role = PAGELOG_SECONDARY,
                                      .operation = PAGELOG_PULL,
                                      .hi = UINT16_MAX,
                                      .lsn = from,
                                      .max = (uint16_t)max};
    if (log->asked_count > 0) return pagelog_fail(log, PAGELOG_MALFORMED);
    struct pagelog_patience patience = pagelog_patience_of(log);
    for (;;) {
        uint32_t epoch = log->epoch;
        enum pagelog_outcome outcome = pagelog_send(log, &request);
        if (outcome == PAGELOG_DONE) outcome = pagelog_receive(log, blocks);
        if (outcome == PAGELOG_DONE && blocks->count < request.max) blocks->hard = blocks->next - 1;
        if (outcome == PAGELOG_DONE) note_pulled(log, blocks);
        if (outcome == PAGELOG_DONE) return outcome;
        if (outcome == PAGELOG_DENIED && is_at_the_end(log, from)) {
            *blocks = (struct pagelog_reply){.kind = PAGELOG_REPLY_BLOCKS, .next = from, .hard = from - 1};
            return PAGELOG_DONE;
        }
        if (outcome == PAGELOG_LOST && pagelog_may_try_again(&patience)) {
            request.max = request.max > 1 ? request.max / 2 : 1;
        } else if (outcome != PAGELOG_FENCED || !takes_over_epoch(log, PAGELOG_SECONDARY, epoch) ||
                   !pagelog_may_change_epoch(&patience)) {
            return outcome;
        }
    }
}

/* ---- Epochs of a writer ---- */

/* What is known of an epoch that begins. */
static void enter_epoch(struct pagelog *log, uint32_t epoch, bool owns) {
    log->writing_epoch = epoch;
    log->owns_epoch = owns;
    log->zone.is_seen = false;
    log->is_tidying_refused = false;
    if (epoch > log->epoch) log->epoch = epoch;
}

/* Learns where the log ends, from the status that a writer of the epoch is given; then nothing of it is in
 * the window. */
static enum pagelog_outcome begin_epoch(struct pagelog *log, uint32_t epoch, bool owns) {
    struct pagelog_reply status;
    enter_epoch(log, epoch, owns);
    log->stuck = true;
    enum pagelog_outcome outcome = pagelog_status(log, PAGELOG_PRIMARY, &status);
    if (outcome == PAGELOG_DONE) log->stuck = false;
    return outcome;
}

/* Asks for a failover in this epoch, and in no other. */
static enum pagelog_outcome fail_over(struct pagelog *log, uint32_t principal, const uint8_t *token,
                                      uint32_t epoch) {
    struct pagelog_reply reply;
    struct pagelog_request request = {.principal = principal,
                                      .role = PAGELOG_OPERATOR,
                                      .database = log->options.database,
                                      .epoch = epoch,
                                      .operation = PAGELOG_FAILOVER,
                                      .to = log->options.principal};
    memcpy(request.token, token, PAGELOG_TOKEN_BYTES);
    uint64_t sent = log->counts.bytes_sent;
    enum pagelog_outcome outcome = pagelog_send_as(log, &request);
    if (outcome == PAGELOG_DONE) outcome = pagelog_receive(log, &reply);
    if (outcome == PAGELOG_LOST && log->counts.bytes_sent > sent) log->lost_failovers++;
    return outcome;
}

/* Asks for the status as the primary of the newest epoch: FENCED where that is another principal. */
static enum pagelog_outcome ask_as_primary(struct pagelog *log) {
    struct pagelog_reply status;
    struct pagelog_request request = {.principal = log->options.principal,
                                      .role = PAGELOG_PRIMARY,
                                      .database = log->options.database,
                                      .epoch = log->epoch,
                                      .operation = PAGELOG_STATUS};
    memcpy(request.token, log->options.token, PAGELOG_TOKEN_BYTES);
    enum pagelog_outcome outcome = pagelog_send_as(log, &request);
    return outcome == PAGELOG_DONE ? pagelog_receive(log, &status) : outcome;
}

/* Whether the last denial reports which epoch is the current one. */
static bool is_epoch_told(const struct pagelog *log) {
    const struct pagelog_reply *reply = &log->refused;
    return !log->is_restarted && reply->kind == PAGELOG_REPLY_DENIED && reply->section == SECTION_A &&
           (reply->row == 2 || reply->row == 3);
}

/* A failover whose reply was lost may have begun the epoch that was reported, if this object's principal is
 * its primary. */
static bool may_be_ours(const struct pagelog *log, uint32_t expected) {
    return log->epoch > expected && log->epoch - expected <= log->lost_failovers;
}

bool pagelog_may_have_begun(const struct pagelog *log, const struct pagelog_reply *status) {
    /* However often it was asked for: in one epoch one failover begins the next. */
    return status->primary == log->options.principal && status->epoch == log->writing_epoch + 1 &&
           log->lost_failovers > 0;
}

enum pagelog_outcome pagelog_take_over(struct pagelog *log, uint32_t operator_principal,
                                       const uint8_t operator_token[PAGELOG_TOKEN_BYTES], uint32_t expected) {
    struct pagelog_patience patience = pagelog_patience_of(log);
    uint32_t epoch = expected ? expected : log->epoch ? log->epoch : 1;
    if (log->asked_count > 0) return pagelog_fail(log, PAGELOG_MALFORMED);
    for (;;) {
        enum pagelog_outcome outcome = fail_over(log, operator_principal, operator_token, epoch);
        if (outcome == PAGELOG_DONE) break;
        if (outcome == PAGELOG_LOST && pagelog_may_try_again(&patience)) continue;
        if (outcome != PAGELOG_FENCED || !is_epoch_told(log) || !pagelog_may_change_epoch(&patience))
            return outcome;
        if (expected) {
            if (!may_be_ours(log, expected)) return outcome;
            outcome = ask_as_primary(log);
            if (outcome == PAGELOG_LOST && pagelog_may_try_again(&patience)) continue;
            if (outcome == PAGELOG_FENCED && is_epoch_told(log)) continue;
            if (outcome != PAGELOG_DONE) return outcome;
        }
        epoch = log->epoch;
    }
    log->lost_failovers = 0;
    return begin_epoch(log, epoch + 1, true);
}

/* Of a hand-over: the failover, the status of who is the primary then, and a pull in that epoch. */
enum { HAND_OVER = 3 };

static void write_hand_over(const struct pagelog *log, uint32_t operator_principal,
                            const uint8_t *operator_token, uint32_t epoch, uint64_t from,
                            struct pagelog_request requests[HAND_OVER]) {
    const struct pagelog_options *own = &log->options;
    requests[0] = (struct pagelog_request){.principal = operator_principal,
                                           .role = PAGELOG_OPERATOR,
                                           .epoch = epoch,
                                           .operation = PAGELOG_FAILOVER,
                                           .to = own->principal};
    requests[1] = (struct pagelog_request){.principal = own->principal,
                                           .role = PAGELOG_PRIMARY,
                                           .epoch = epoch + 1,
                                           .operation = PAGELOG_STATUS};
    requests[2] = (struct pagelog_request){.principal = own->principal,
                                           .role = PAGELOG_SECONDARY,
                                           .epoch = epoch + 1,
                                           .operation = PAGELOG_PULL,
                                           .hi = UINT16_MAX,
                                           .lsn = from,
                                           .max = PAGELOG_PULL_BLOCKS};
    for (size_t i = 0; i < HAND_OVER; i++) {
        requests[i].database = own->database;
        memcpy(requests[i].token, i == 0 ? operator_token : own->token, PAGELOG_TOKEN_BYTES);
    }
}

/* The blocks of a pull that was answered, also where there was none to be had. */
static enum pagelog_outcome take_pulled(struct pagelog *log, enum pagelog_outcome outcome, uint64_t from,
                                        struct pagelog_reply *blocks) {
    if (outcome == PAGELOG_DENIED && is_at_the_end(log, from)) {
        *blocks = (struct pagelog_reply){.kind = PAGELOG_REPLY_BLOCKS, .next = from, .hard = from - 1};
        return PAGELOG_DONE;
    }
    if (outcome == PAGELOG_DONE) note_pulled(log, blocks);
    return outcome;
}

enum pagelog_outcome pagelog_hand_over(struct pagelog *log, uint32_t operator_principal,
                                       const uint8_t operator_token[PAGELOG_TOKEN_BYTES], uint32_t expected,
                                       uint64_t from, struct pagelog_reply *blocks) {
    struct pagelog_request requests[HAND_OVER];
    struct pagelog_reply status;
    enum pagelog_outcome outcomes[HAND_OVER] = {PAGELOG_LOST, PAGELOG_LOST, PAGELOG_LOST};
    uint64_t sent = log->counts.bytes_sent;
    if (log->asked_count > 0) return pagelog_fail(log, PAGELOG_MALFORMED);
    write_hand_over(log, operator_principal, operator_token, expected, from, requests);
    for (size_t i = 0; i < HAND_OVER; i++) {
        enum pagelog_outcome outcome = pagelog_send_as(log, &requests[i]);
        if (outcome == PAGELOG_DONE) continue;
        pagelog_disconnect(log); /* nothing has left this process */
        return outcome;
    }
    for (size_t i = 0; i < HAND_OVER && log->asked_count > 0; i++)
        outcomes[i] = pagelog_receive(log, i == HAND_OVER - 1 ? blocks : &status);
    if (outcomes[0] == PAGELOG_LOST && log->counts.bytes_sent > sent) log->lost_failovers++;
    if (outcomes[2] != PAGELOG_LOST) outcomes[2] = take_pulled(log, outcomes[2], from, blocks);
    for (size_t i = 0; i < HAND_OVER; i++)
        if (outcomes[i] != PAGELOG_DONE) return outcomes[i];
    log->lost_failovers = 0;
    enter_epoch(log, expected + 1, true);
    log->stuck = false;
    return PAGELOG_DONE;
}

enum pagelog_outcome pagelog_join(struct pagelog *log) {
    struct pagelog_patience patience = pagelog_patience_of(log);
    if (log->asked_count > 0) return pagelog_fail(log, PAGELOG_MALFORMED);
    for (;;) {
        uint32_t epoch = log->epoch ? log->epoch : 1;
        enum pagelog_outcome outcome = begin_epoch(log, epoch, false);
        if (outcome == PAGELOG_DONE) return outcome;
        log->writing_epoch = 0;
        if (outcome != PAGELOG_FENCED || !is_epoch_told(log) || !pagelog_may_change_epoch(&patience))
            return outcome;
    }
}

/* ---- What nobody waits for ---- */

void pagelog_tidy_up(struct pagelog *log, uint32_t operator_principal, const uint8_t *operator_token) {
    struct pagelog_request report = {.role = PAGELOG_PRIMARY, .operation = PAGELOG_REPORT, .lsn = log->end};
    struct pagelog_request tidy = {.principal = operator_principal,
                                   .role = PAGELOG_OPERATOR,
                                   .database = log->options.database,
                                   .epoch = log->writing_epoch,
                                   .operation = PAGELOG_TIDY};
    bool is_busy = log->socket < 0 || log->asked_count > 0 || log->unheard > 0;
    if (is_busy || log->writing_epoch == 0 || log->stuck || log->is_restarted || log->is_tidying_refused)
        return;
    pagelog_send(log, &report);
    if (operator_token) {
        memcpy(tidy.token, operator_token, PAGELOG_TOKEN_BYTES);
        pagelog_send_as(log, &tidy);
    }
    pagelog_pass_over(log);
    pagelog_push(log);
}
