/* How full the audit list of the database is. No reply says it: an operator looks which entries are there. */
#include "pagelog_inside.h"

#include <string.h>

/* Entries that a list may have, at most. */
enum { MOST_ENTRIES = 1 << 24 };

/* Asks for one entry, in the newest epoch, over whatever connection there is. */
static enum pagelog_outcome ask(struct pagelog *log, const struct pagelog_operator *operator, uint64_t number,
                                struct pagelog_reply *reply) {
    struct pagelog_patience patience = pagelog_patience_of(log);
    for (;;) {
        struct pagelog_request request = {.principal = operator->principal,
                                          .role = PAGELOG_OPERATOR,
                                          .database = log->options.database,
                                          .epoch = log->epoch,
                                          .operation = PAGELOG_AUDIT,
                                          .lsn = number,
                                          .max = 1};
        memcpy(request.token, operator->token, PAGELOG_TOKEN_BYTES);
        enum pagelog_outcome outcome = pagelog_send_as(log, &request);
        if (outcome == PAGELOG_DONE) outcome = pagelog_receive(log, reply);
        if (outcome == PAGELOG_LOST && pagelog_may_try_again(&patience)) continue;
        bool is_epoch_told = outcome == PAGELOG_FENCED && !log->is_restarted && log->epoch != request.epoch;
        if (!is_epoch_told || !pagelog_may_change_epoch(&patience)) return outcome;
    }
}

enum pagelog_outcome pagelog_has_entry(struct pagelog *log, const struct pagelog_operator *operator,
                                       uint64_t number, bool *has) {
    struct pagelog_reply reply;
    *has = false;
    if (log->asked_count > 0) return pagelog_fail(log, PAGELOG_MALFORMED);
    enum pagelog_outcome outcome = ask(log, operator, number, &reply);
    *has = outcome == PAGELOG_DONE && reply.count > 0;
    return outcome;
}

enum pagelog_outcome pagelog_count_entries(struct pagelog *log, const struct pagelog_operator *operator,
                                           uint64_t * count) {
    uint64_t least = 0, most = MOST_ENTRIES;
    while (least < most) {
        bool has;
        uint64_t middle = least + (most - least + 1) / 2;
        enum pagelog_outcome outcome = pagelog_has_entry(log, operator, middle, &has);
        if (outcome != PAGELOG_DONE) return outcome;
        if (has)
            least = middle;
        else
            most = middle - 1;
    }
    *count = least;
    return PAGELOG_DONE;
}
