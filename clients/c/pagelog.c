/* The object, and what it learns from replies. pagelog_connection.c has its connection, pagelog_calls.c the
 * calls that are repeated, pagelog_append.c the append. */
#include "pagelog_inside.h"
#include "pagelog_place.h"

#include <sched.h>
#include <stdio.h>
#include <stdlib.h>
#include <string.h>
#include <unistd.h>

enum { DEFAULT_SPIN_US = 50 };

/* ---- The object ---- */

/* Splits "HOST:PORT" or "[HOST]:PORT" into two strings of its own. */
static bool split_address(struct pagelog *log, const char *address) {
    const char *colon = strrchr(address, ':');
    const char *host = address;
    size_t length = colon ? (size_t)(colon - address) : strlen(address);
    if (length >= 2 && host[0] == '[' && host[length - 1] == ']') {
        host++;
        length -= 2;
    }
    log->host = strndup(host, length);
    log->port = strdup(colon ? colon + 1 : "");
    return log->host && log->port;
}

/* The landing zone of the options; false where no table can have it. */
static bool read_zone(const struct pagelog_options *options, struct pagelog_zone *zone) {
    zone->copies = options->copies ? options->copies : 3;
    zone->quorum = options->quorum ? options->quorum : zone->copies == 6 ? 4 : 2;
    return (zone->copies == 3 && zone->quorum == 2) || (zone->copies == 6 && zone->quorum == 4);
}

/* Whether this thread may run on two processors at least: on one, who looks for a reply keeps the service
 * from it. */
static bool has_processors(void) {
    cpu_set_t set;
    return sched_getaffinity(0, sizeof set, &set) == 0 && CPU_COUNT(&set) > 1;
}

void pagelog_set_spin(struct pagelog *log, unsigned spin_us) {
    log->options.spin_us = spin_us;
    if (spin_us == PAGELOG_NO_SPIN || !has_processors())
        log->spin_ns = 0;
    else
        log->spin_ns = 1000 * (uint64_t)(spin_us ? spin_us : DEFAULT_SPIN_US);
    log->usual_ns = 0;
}

unsigned pagelog_spin(const struct pagelog *log) {
    return (unsigned)(log->spin_ns / 1000);
}

struct pagelog *pagelog_new(const struct pagelog_options *options) {
    struct pagelog_zone zone = {0};
    struct pagelog *log = read_zone(options, &zone) ? calloc(1, sizeof *log) : NULL;
    if (!log) return NULL;
    log->zone = zone;
    log->options = *options;
    log->options.address = NULL;
    log->socket = -1;
    log->process = getpid();
    if (log->options.connect_ms == 0) log->options.connect_ms = 5000;
    if (log->options.reply_ms == 0) log->options.reply_ms = 10000;
    if (log->options.patience_ms == 0) log->options.patience_ms = 10000;
    pagelog_set_spin(log, options->spin_us);
    if (!options->address || split_address(log, options->address)) return log;
    pagelog_free(log);
    return NULL;
}

enum pagelog_outcome pagelog_enter(struct pagelog *log, const char *address,
                                   const uint8_t token[PAGELOG_TOKEN_BYTES]) {
    char *host = log->host, *port = log->port;
    struct pagelog_zone zone;
    if (!split_address(log, address)) {
        free(log->host);
        free(log->port);
        log->host = host;
        log->port = port;
        return pagelog_fail(log, PAGELOG_NO_MEMORY);
    }
    free(host);
    free(port);
    pagelog_disconnect(log);
    memcpy(log->options.token, token, PAGELOG_TOKEN_BYTES);
    read_zone(&log->options, &zone);
    log->zone = zone;
    log->zone.is_seen = false;
    log->epoch = log->writing_epoch = log->lost_failovers = 0;
    log->end = log->witness.lsn = 0;
    log->is_tidying_refused = log->owns_epoch = log->is_restarted = log->stuck = false;
    return PAGELOG_DONE;
}

void pagelog_free(struct pagelog *log) {
    if (!log) return;
    pagelog_disconnect(log);
    free(log->output.bytes);
    free(log->input.bytes);
    free(log->host);
    free(log->port);
    free(log);
}

bool pagelog_is_own(const struct pagelog *log) {
    return log->process == getpid();
}

const struct pagelog_reply *pagelog_refused(const struct pagelog *log) {
    return &log->refused;
}

bool pagelog_is_stuck(const struct pagelog *log) {
    return log->stuck;
}

bool pagelog_is_restarted(const struct pagelog *log) {
    return log->is_restarted;
}

struct pagelog_counts pagelog_counts_of(const struct pagelog *log) {
    return log->counts;
}

uint32_t pagelog_epoch(const struct pagelog *log) {
    return log->epoch;
}

uint32_t pagelog_writing_epoch(const struct pagelog *log) {
    return log->writing_epoch;
}

uint64_t pagelog_end(const struct pagelog *log) {
    return log->end;
}

struct pagelog_zone pagelog_zone_of(const struct pagelog *log) {
    return log->zone;
}

/* ---- Outcomes ---- */

enum pagelog_outcome pagelog_fail(struct pagelog *log, enum pagelog_outcome outcome) {
    log->last = outcome;
    memset(&log->refused, 0, sizeof log->refused);
    return outcome;
}

enum pagelog_outcome pagelog_restore(struct pagelog *log, enum pagelog_outcome outcome,
                                     const struct pagelog_reply *refused) {
    log->last = outcome;
    log->refused = *refused;
    log->refused.bytes = NULL;
    return outcome;
}

const char *pagelog_tls_why(const struct pagelog *log) {
    return log->why;
}

void pagelog_explain(const struct pagelog *log, char *text, size_t room) {
    const struct pagelog_reply *reply = &log->refused;
    const char *name = pagelog_outcome_name(log->last);
    if (!pagelog_is_own(log))
        snprintf(text, room, "%s: made before a fork, by another process", name);
    else if (log->is_restarted)
        snprintf(text, room, "%s: the service was restarted, and what was in the log may be gone", name);
    else if (reply->kind == PAGELOG_REPLY_DENIED)
        snprintf(text, room, "%s: denied %c%u, value %llu", name, "?ABC"[reply->section], reply -> row,
                 (unsigned long long)reply -> value);
    else if (reply->kind == PAGELOG_REPLY_SPENT)
        snprintf(text, room, "%s: spent", name);
    else if (reply->kind == PAGELOG_REPLY_NO_DATABASE)
        snprintf(text, room, "%s: no database", name);
    else if (reply->kind == PAGELOG_REPLY_NO_MEMORY && log->last != PAGELOG_NO_MEMORY)
        snprintf(text, room, "%s: no memory", name);
    else if (reply->kind == PAGELOG_REPLY_AUDIT_FULL && log->last != PAGELOG_AUDIT_FULL)
        snprintf(text, room, "%s: audit list full", name);
    else if (reply->kind == PAGELOG_REPLY_MALFORMED)
        snprintf(text, room, "%s: fault %u of the request", name, reply->code);
    else if (log->last == PAGELOG_LOST && *log->why)
        snprintf(text, room, "%s: %s", name, log->why);
    else
        snprintf(text, room, "%s", name);
}

/* Learns from a reply where the log ends now. An end that has fallen is that of another run of the service.
 */
static void notice_end(struct pagelog *log, uint64_t end) {
    if (end < log->end) log->is_restarted = true;
    if (end > log->end) log->end = end;
}

static void notice_epoch(struct pagelog *log, uint32_t epoch) {
    if (epoch < log->epoch) log->is_restarted = true;
    if (epoch > log->epoch) log->epoch = epoch;
}

static void notice_denial(struct pagelog *log, const struct pagelog_reply *reply) {
    bool tells_epoch = reply->section == SECTION_A && (reply->row == 2 || reply->row == 3);
    bool tells_end = reply->section == SECTION_C && reply->row >= 1 && reply->row <= 6 && reply->row != 4 &&
                     reply->row != 5;
    if (tells_epoch) notice_epoch(log, (uint32_t)reply->value);
    if (tells_end) notice_end(log, reply->value);
}

enum pagelog_outcome pagelog_notice(struct pagelog *log, const struct pagelog_reply *reply) {
    if (reply->kind == PAGELOG_REPLY_STATUS) {
        notice_epoch(log, reply->epoch);
        notice_end(log, reply->hard);
    } else if (reply->kind == PAGELOG_REPLY_BLOCKS && reply->next > log->end + 1) {
        log->end = reply->next - 1;
    } else if (reply->kind == PAGELOG_REPLY_PAGE && reply->at > log->end) {
        log->end = reply->at;
    } else if (reply->kind == PAGELOG_REPLY_DENIED) {
        notice_denial(log, reply);
    }
    enum pagelog_outcome outcome = log->is_restarted ? PAGELOG_FENCED : pagelog_outcome_of(reply);
    return outcome == PAGELOG_DONE ? outcome : pagelog_restore(log, outcome, reply);
}
