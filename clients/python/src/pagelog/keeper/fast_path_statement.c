#include "fast_path_parts.h"

#include <inttypes.h>
#include <stdio.h>
#include <string.h>

/* The values of a statement: of one block by themselves, else column by column, an array each, and bytes one behind the other. */

/* The values, as offsets into the session's text: what has no length is a text. */
struct values {
    size_t count, at[SESSION_VALUES];
    int len[SESSION_VALUES];
};

static bool put(struct session *session, const void *bytes, size_t len) {
    if (!grow(&session->text, &session->room, session->len + len)) {
        return false;
    }
    memcpy(session->text + session->len, bytes, len);
    session->len += len;
    return true;
}

static bool put_text(struct session *session, const char *text) {
    return put(session, text, strlen(text));
}

static bool put_decimal(struct session *session, uint64_t number) {
    char text[NUMBER];
    int len = snprintf(text, sizeof text, "%" PRIu64, number);
    return put(session, text, (size_t)len);
}

/* An element of an array of texts. */
static bool put_quoted(struct session *session, const char *text) {
    bool is_put = put_text(session, "\"");
    for (; is_put && *text != 0; text++) {
        is_put = (*text != '"' && *text != '\\') || put_text(session, "\\");
        is_put = is_put && put(session, text, 1);
    }
    return is_put && put_text(session, "\"");
}

/* Puts what an array has of a way: of a batch, or of its blocks, or of its lines. What starts behind what came before counts `start`. */
typedef bool put_one(struct session *session, const struct way *way, uint64_t *start);

static bool put_log(struct session *session, const struct way *way, uint64_t *start) {
    (void)start;
    return put_text(session, way->log);
}

static bool put_run(struct session *session, const struct way *way, uint64_t *start) {
    (void)start;
    return put_quoted(session, way->run);
}

static bool put_generation(struct session *session, const struct way *way, uint64_t *start) {
    (void)start;
    return put_decimal(session, way->start.generation);
}

static bool put_old(struct session *session, const struct way *way, uint64_t *start) {
    (void)start;
    return put_decimal(session, way->reached);
}

static bool put_new(struct session *session, const struct way *way, uint64_t *start) {
    (void)start;
    return put_decimal(session, way->batch.reached);
}

/* A number of each block of a batch. */
enum column { CRC, LSN, OWNER, START, LENGTH };

static bool put_blocks(struct session *session, const struct way *way, enum column column, uint64_t *start) {
    const struct batch *batch = &way->batch;
    bool is_put = true;
    for (size_t at = 0; is_put && at < batch->blocks; at++) {
        const uint64_t numbers[] = {[CRC] = batch->crcs[at], [LSN] = way->reached + 1 + at, [START] = *start, [LENGTH] = batch->lengths[at]};
        is_put = at == 0 || put_text(session, ",");
        is_put = is_put && (column == OWNER ? put_text(session, way->log) : put_decimal(session, numbers[column]));
        *start += batch->lengths[at];
    }
    return is_put;
}

static bool put_owners(struct session *session, const struct way *way, uint64_t *start) {
    return put_blocks(session, way, OWNER, start);
}

static bool put_lsns(struct session *session, const struct way *way, uint64_t *start) {
    return put_blocks(session, way, LSN, start);
}

static bool put_crcs(struct session *session, const struct way *way, uint64_t *start) {
    return put_blocks(session, way, CRC, start);
}

static bool put_starts(struct session *session, const struct way *way, uint64_t *start) {
    return put_blocks(session, way, START, start);
}

static bool put_lengths(struct session *session, const struct way *way, uint64_t *start) {
    return put_blocks(session, way, LENGTH, start);
}

static bool put_chain(struct session *session, const struct way *way, uint64_t *start) {
    (void)start;
    return put(session, way->batch.chain, WAY_DIGEST);
}

static bool put_data(struct session *session, const struct way *way, uint64_t *start) {
    (void)start;
    return put(session, way->batch.bytes, way->batch.len);
}

/* Of lines. */

static bool put_list(struct session *session, const struct way *way, uint64_t *start) {
    (void)start;
    return put_text(session, way->list);
}

static bool put_first_line(struct session *session, const struct way *way, uint64_t *start) {
    (void)start;
    return put_decimal(session, way->trail.kept + 1);
}

static bool put_count_of_lines(struct session *session, const struct way *way, uint64_t *start) {
    (void)start;
    return put_decimal(session, way->trail.count);
}

static bool put_seen(struct session *session, const struct way *way, uint64_t *start) {
    (void)start;
    return put_decimal(session, way->trail.next_seen);
}

static bool put_day(struct session *session, const struct way *way, uint64_t *start) {
    (void)start;
    return put_quoted(session, way->trail.day);
}

static bool put_of(struct session *session, const struct way *way, uint64_t *start) {
    (void)start;
    return put_quoted(session, way->list_of);
}

static bool put_start_of_lines(struct session *session, const struct way *way, uint64_t *start) {
    bool is_put = put_decimal(session, *start);
    *start += way->trail.data_len;
    return is_put;
}

static bool put_length_of_lines(struct session *session, const struct way *way, uint64_t *start) {
    (void)start;
    return put_decimal(session, way->trail.data_len);
}

static bool put_before(struct session *session, const struct way *way, uint64_t *start) {
    (void)start;
    return put(session, way->trail.digest, WAY_SHA);
}

static bool put_digest(struct session *session, const struct way *way, uint64_t *start) {
    (void)start;
    return put(session, way->trail.next_digest, WAY_SHA);
}

static bool put_lines(struct session *session, const struct way *way, uint64_t *start) {
    (void)start;
    return put(session, way->trail.data, way->trail.data_len);
}

/* A value of a statement: an array, bytes one behind the other, or one of the only way by itself. */
enum form { ARRAY, BYTES, ALONE };

struct value {
    enum form form;
    put_one *one;
};

/* The values in the order of the statements in statements.py. */
static const struct value of_block[] = {{ALONE, put_new}, {BYTES, put_chain}, {ALONE, put_log}, {ALONE, NULL /* the run */},
                                        {ALONE, put_generation}, {ALONE, put_old}, {ALONE, put_crcs}, {BYTES, put_data}};
static const struct value of_each[] = {{BYTES, put_chain}, {ARRAY, put_log}, {ARRAY, put_run}, {ARRAY, put_generation}, {ARRAY, put_old},
                                       {ARRAY, put_new}, {ARRAY, put_crcs}, {ARRAY, put_starts}, {ARRAY, put_lengths}, {BYTES, put_data}};
static const struct value of_many[] = {{BYTES, put_chain}, {ARRAY, put_log}, {ARRAY, put_run}, {ARRAY, put_generation}, {ARRAY, put_old},
                                       {ARRAY, put_new}, {BYTES, put_data}, {ARRAY, put_owners}, {ARRAY, put_lsns}, {ARRAY, put_crcs},
                                       {ARRAY, put_starts}, {ARRAY, put_lengths}};
static const struct value of_lines[] = {{BYTES, put_digest}, {ARRAY, put_log}, {ARRAY, put_list}, {ARRAY, put_first_line},
                                        {ARRAY, put_count_of_lines}, {ARRAY, put_seen}, {ARRAY, put_day}, {ARRAY, put_of},
                                        {ARRAY, put_start_of_lines}, {ARRAY, put_length_of_lines}, {BYTES, put_before}, {BYTES, put_lines}};

/* What a value has of each way, or of each that has lines. */
static bool put_all(struct session *session, const struct value *value, bool is_of_lines) {
    uint64_t start = 1;
    bool is_put = true, is_first = true;
    for (size_t at = 0; is_put && at < session->count; at++) {
        const struct way *way = session->ways[at];
        if (is_of_lines && way->trail.count == 0) {
            continue;
        }
        is_put = value->form != ARRAY || is_first || put_text(session, ",");
        is_put = is_put && (value->one == NULL ? put_text(session, way->run) : value->one(session, way, &start));
        is_first = false;
    }
    return is_put;
}

static bool put_values(struct session *session, struct values *values, const struct value *some, size_t count, bool is_of_lines) {
    bool is_put = true;
    for (size_t at = 0; is_put && at < count; at++) {
        const struct value *value = &some[at];
        size_t from = values->at[values->count] = session->len;
        is_put = (value->form != ARRAY || put_text(session, "{")) && put_all(session, value, is_of_lines);
        values->len[values->count++] = value->form == BYTES ? (int)(session->len - from) : 0;
        is_put = is_put && (value->form == BYTES || put(session, value->form == ARRAY ? "}" : "", value->form == ARRAY ? 2 : 1));
    }
    return is_put;
}

#define COUNT(values) (sizeof(values) / sizeof *(values))

/* Puts the values of the statement that keeps what is due. Returns its name; NULL without memory. */
static const char *statement_of(struct session *session, struct values *values) {
    bool has_lines = false, is_one_each = true;
    for (size_t at = 0; at < session->count; at++) {
        has_lines |= session->ways[at]->trail.count > 0;
        is_one_each &= session->ways[at]->batch.blocks == 1;
    }
    if (!has_lines && is_one_each && session->count == 1) {
        return put_values(session, values, of_block, COUNT(of_block), false) ? session->keep_block : NULL;
    }
    if (!has_lines && is_one_each) {
        return put_values(session, values, of_each, COUNT(of_each), false) ? session->keep_each : NULL;
    }
    bool is_put = put_values(session, values, of_many, COUNT(of_many), false) &&
                  (!has_lines || put_values(session, values, of_lines, COUNT(of_lines), true));
    return !is_put ? NULL : has_lines ? session->keep_lines : session->keep;
}

bool send_batches(struct session *session, bool *is_asked) {
    struct values values = {0};
    const char *given[SESSION_VALUES];
    int formats[SESSION_VALUES];
    session->len = 0;
    const char *statement = statement_of(session, &values);
    *is_asked = statement != NULL;
    if (statement == NULL) {
        return false;
    }
    for (size_t at = 0; at < values.count; at++) {
        given[at] = (const char *)session->text + values.at[at];
        formats[at] = values.len[at] > 0;
    }
    return PQsendQueryPrepared(session->connection, statement, (int)values.count, given, values.len, formats, 0) == 1;
}
