/* The bytes of requests, replies and blocks, by docs/FORMATS.md. Nothing here knows a connection. */
#include "pagelog_inside.h"

#include <string.h>

enum { FAULT_OF_BLOCK = 6 };

/* ---- Blocks ---- */

/* Bytes that are read from the front; `cut` once a field was asked for that is not there as a whole. */
struct reader {
    const uint8_t *at;
    size_t left;
    bool cut;
};

static uint64_t take(struct reader *reader, size_t size) {
    if (reader->cut || reader->left < size) {
        reader->cut = true;
        return 0;
    }
    uint64_t value = pagelog_read_number(reader->at, size);
    reader->at += size;
    reader->left -= size;
    return value;
}

static const uint8_t *take_bytes(struct reader *reader, size_t size) {
    if (reader->cut || reader->left < size) {
        reader->cut = true;
        return NULL;
    }
    const uint8_t *bytes = reader->at;
    reader->at += size;
    reader->left -= size;
    return bytes;
}

/* A set of partitions, as bits. */
struct partitions {
    uint8_t bits[8192];
};

static bool has(const struct partitions *set, uint16_t partition) {
    return set->bits[partition >> 3] >> (partition & 7) & 1;
}

static void change(struct partitions *set, uint16_t partition) {
    set->bits[partition >> 3] ^= (uint8_t)(1u << (partition & 7));
}

/* Reads a record; its fault, or 0. */
static unsigned record_fault(struct reader *reader, uint32_t *page) {
    unsigned kind = (unsigned)take(reader, 1);
    if (reader->cut) return BLOCK_CUT;
    if (kind != RECORD_PUT && kind != RECORD_ZERO) return BLOCK_KIND;
    *page = (uint32_t)take(reader, 4);
    if (kind == RECORD_ZERO) return reader->cut ? BLOCK_CUT : 0;
    unsigned offset = (unsigned)take(reader, 2), length = (unsigned)take(reader, 2);
    if (reader->cut) return BLOCK_CUT;
    if (length == 0) return BLOCK_EMPTY_PUT;
    if (offset + length > PAGELOG_PAGE_BYTES) return BLOCK_PUT_RANGE;
    return take_bytes(reader, length) ? 0 : BLOCK_CUT;
}

/* Reads all records, after the annotations that were read into `noted`. */
static unsigned records_fault(struct reader *reader, const struct partitions *noted, size_t noted_count) {
    struct partitions touched = {{0}};
    size_t touched_count = 0;
    bool others = false;
    unsigned count = (unsigned)take(reader, 2);
    if (reader->cut) return BLOCK_CUT;
    for (unsigned i = 0; i < count; i++) {
        uint32_t page = 0;
        unsigned fault = record_fault(reader, &page);
        if (fault) return fault;
        uint16_t partition = (uint16_t)(page >> 16);
        if (!has(noted, partition)) others = true;
        if (has(&touched, partition)) continue;
        change(&touched, partition);
        touched_count++;
    }
    if (reader->left > 0) return BLOCK_TRAILING;
    return others || touched_count != noted_count ? BLOCK_ANNOTATIONS : 0;
}

unsigned pagelog_block_fault(const uint8_t *block, size_t length) {
    struct reader reader = {block, length, false};
    struct partitions noted = {{0}};
    if (length > PAGELOG_BLOCK_BYTES) return BLOCK_LENGTH;
    uint64_t lsn = take(&reader, 8);
    if (reader.cut) return BLOCK_CUT;
    if (lsn == 0 || lsn > PAGELOG_LAST_LSN) return BLOCK_LSN;
    unsigned count = (unsigned)take(&reader, 2);
    if (reader.cut) return BLOCK_CUT;
    for (unsigned i = 0, last = 0; i < count; i++) {
        unsigned partition = (unsigned)take(&reader, 2);
        if (reader.cut) return BLOCK_CUT;
        if (i > 0 && partition <= last) return BLOCK_ORDER;
        last = partition;
        change(&noted, (uint16_t)partition);
    }
    return records_fault(&reader, &noted, count);
}

void pagelog_records_begin(struct pagelog_records *records, const uint8_t *block) {
    size_t annotations = (size_t)pagelog_read_number(block + 8, 2);
    records->lsn = pagelog_read_number(block, 8);
    records->at = block + 10 + 2 * annotations + 2;
    records->left = (uint16_t)pagelog_read_number(records->at - 2, 2);
}

bool pagelog_records_next(struct pagelog_records *records, struct pagelog_record *record) {
    if (records->left == 0) return false;
    const uint8_t *at = records->at;
    records->left--;
    *record = (struct pagelog_record){.page = (uint32_t)pagelog_read_number(at + 1, 4)};
    if (at[0] == RECORD_ZERO) {
        records->at = at + PAGELOG_ZERO_BYTES;
        return true;
    }
    record->offset = (uint16_t)pagelog_read_number(at + 5, 2);
    record->length = (uint16_t)pagelog_read_number(at + 7, 2);
    record->bytes = at + PUT_HEAD_BYTES;
    records->at = record->bytes + record->length;
    return true;
}

/* ---- Requests ---- */

/* Whether the arguments of a request are in their ranges. */
static bool in_range(const struct pagelog_request *r) {
    if (r->role < PAGELOG_PRIMARY || r->role > PAGELOG_OPERATOR) return false;
    switch (r->operation) {
    case PAGELOG_WRITE:
    case PAGELOG_OFFER:
        return r->bytes && r->length <= PAGELOG_BLOCK_BYTES;
    case PAGELOG_SET_TABLE:
        return (r->bytes || r->length == 0) && r->length <= PAGELOG_REQUEST_BYTES - HEAD_BYTES;
    case PAGELOG_REPORT:
        return r->lsn <= PAGELOG_LAST_LSN;
    case PAGELOG_GET:
        return r->lsn <= PAGELOG_LAST_LSN && r->exact <= 1;
    case PAGELOG_PULL:
        return r->lo <= r->hi && r->lsn >= 1 && r->lsn <= PAGELOG_LAST_LSN && r->max >= 1 &&
               r->max <= PAGELOG_PULL_BLOCKS;
    case PAGELOG_ADVANCE:
        return r->steps >= 1 && r->steps <= 1024;
    case PAGELOG_AUDIT:
        return r->lsn >= 1 && r->max >= 1 && r->max <= PAGELOG_AUDIT_LINES;
    case PAGELOG_STATUS:
    case PAGELOG_FAILOVER:
    case PAGELOG_TIDY:
        return true;
    }
    return false;
}

/* Writes the arguments, but for the bytes at their end. */
static uint8_t *write_arguments(uint8_t *to, const struct pagelog_request *r) {
    switch (r->operation) {
    case PAGELOG_WRITE:
        return pagelog_write_number(to, r->copy, 1);
    case PAGELOG_REPORT:
        return pagelog_write_number(to, r->lsn, 8);
    case PAGELOG_GET:
        to = pagelog_write_number(to, r->page, 4);
        to = pagelog_write_number(to, r->lsn, 8);
        return pagelog_write_number(to, r->exact, 1);
    case PAGELOG_PULL:
        to = pagelog_write_number(to, r->lo, 2);
        to = pagelog_write_number(to, r->hi, 2);
        to = pagelog_write_number(to, r->lsn, 8);
        return pagelog_write_number(to, r->max, 2);
    case PAGELOG_ADVANCE:
        to = pagelog_write_number(to, r->partition, 2);
        return pagelog_write_number(to, r->steps, 2);
    case PAGELOG_FAILOVER:
        return pagelog_write_number(to, r->to, 4);
    case PAGELOG_AUDIT:
        to = pagelog_write_number(to, r->lsn, 8);
        return pagelog_write_number(to, r->max, 2);
    }
    return to;
}

size_t pagelog_encode_front(const struct pagelog_request *request, uint8_t front[FRONT_BYTES],
                            size_t *length) {
    if (!in_range(request)) return 0;
    uint8_t *at = pagelog_write_number(front, request->principal, 4);
    memcpy(at, request->token, PAGELOG_TOKEN_BYTES);
    at = pagelog_write_number(at + PAGELOG_TOKEN_BYTES, request->role, 1);
    at = pagelog_write_number(at, request->database, 4);
    at = pagelog_write_number(at, request->epoch, 4);
    at = pagelog_write_number(at, request->operation, 1);
    at = write_arguments(at, request);
    bool has_bytes = request->operation == PAGELOG_WRITE || request->operation == PAGELOG_OFFER ||
                     request->operation == PAGELOG_SET_TABLE;
    *length = has_bytes ? request->length : 0;
    return (size_t)(at - front);
}

size_t pagelog_encode_request(const struct pagelog_request *request, uint8_t *body, size_t room) {
    uint8_t front[FRONT_BYTES];
    size_t length = 0, front_length = pagelog_encode_front(request, front, &length);
    if (front_length == 0 || front_length + length > room) return 0;
    memcpy(body, front, front_length);
    if (length > 0) memcpy(body + front_length, request->bytes, length);
    return front_length + length;
}

/* ---- Replies ---- */

static unsigned blocks_fault(struct reader *reader, struct pagelog_reply *reply) {
    reply->next = take(reader, 8);
    reply->count = (uint16_t)take(reader, 2);
    if (reader->cut) return REPLY_CUT;
    if (reply->count > PAGELOG_PULL_BLOCKS) return REPLY_RANGE;
    reply->bytes = reader->at;
    for (unsigned i = 0; i < reply->count; i++) {
        size_t length = (size_t)take(reader, 4);
        if (reader->cut) return REPLY_CUT;
        if (length > PAGELOG_BLOCK_BYTES) return FAULT_OF_BLOCK + BLOCK_LENGTH;
        const uint8_t *block = take_bytes(reader, length);
        if (!block) return REPLY_CUT;
        unsigned fault = pagelog_block_fault(block, length);
        if (fault) return FAULT_OF_BLOCK + fault;
    }
    reply->length = (size_t)(reader->at - reply->bytes);
    return 0;
}

/* The offsets of a line's fields that have a range. */
enum { LINE_ROLE = 20, LINE_OPERATION = 25, LINE_SECTION = 42, LINE_ROW = 43, LINE_VALUE = 45 };

/* The first fault of a line, of which `length` bytes are there. */
static unsigned line_fault(const uint8_t *line, size_t length) {
    if (length <= LINE_ROLE) return REPLY_CUT;
    if (line[LINE_ROLE] < PAGELOG_PRIMARY || line[LINE_ROLE] > PAGELOG_OPERATOR) return REPLY_ROLE;
    if (length <= LINE_OPERATION) return REPLY_CUT;
    if (line[LINE_OPERATION] < PAGELOG_WRITE || line[LINE_OPERATION] > PAGELOG_TIDY) return REPLY_KIND;
    if (length <= LINE_SECTION) return REPLY_CUT;
    if (line[LINE_SECTION] > 3) return REPLY_RANGE;
    if (length < PAGELOG_AUDIT_LINE_BYTES) return REPLY_CUT;
    bool has_row = pagelog_read_number(line + LINE_ROW, 2) || pagelog_read_number(line + LINE_VALUE, 8);
    return line[LINE_SECTION] == 0 && has_row ? REPLY_RANGE : 0;
}

static unsigned entries_fault(struct reader *reader, struct pagelog_reply *reply) {
    reply->count = (uint16_t)take(reader, 2);
    if (reader->cut) return REPLY_CUT;
    if (reply->count > PAGELOG_AUDIT_LINES) return REPLY_RANGE;
    reply->bytes = reader->at;
    reply->length = (size_t)reply->count * PAGELOG_AUDIT_LINE_BYTES;
    for (unsigned i = 0; i < reply->count; i++) {
        unsigned fault = line_fault(reader->at, reader->left);
        if (fault) return fault;
        take_bytes(reader, PAGELOG_AUDIT_LINE_BYTES);
    }
    return 0;
}

void pagelog_read_audit_line(const uint8_t *bytes, struct pagelog_audit_line *line) {
    line->number = pagelog_read_number(bytes, 8);
    line->pass = pagelog_read_number(bytes + 8, 8);
    line->principal = (uint32_t)pagelog_read_number(bytes + 16, 4);
    line->role = bytes[LINE_ROLE];
    line->epoch = (uint32_t)pagelog_read_number(bytes + 21, 4);
    line->operation = bytes[LINE_OPERATION];
    line->a = pagelog_read_number(bytes + 26, 8);
    line->b = pagelog_read_number(bytes + 34, 8);
    line->section = bytes[LINE_SECTION];
    line->row = (uint16_t)pagelog_read_number(bytes + LINE_ROW, 2);
    line->value = pagelog_read_number(bytes + LINE_VALUE, 8);
}

/* Reads the fields after the kind; the first fault, but for bytes that are left over. */
static unsigned fields_fault(struct reader *reader, struct pagelog_reply *reply) {
    switch (reply->kind) {
    case PAGELOG_REPLY_BLOCKS:
        return blocks_fault(reader, reply);
    case PAGELOG_REPLY_PAGE:
        reply->at = take(reader, 8);
        reply->bytes = take_bytes(reader, PAGELOG_PAGE_BYTES);
        reply->length = PAGELOG_PAGE_BYTES;
        return 0;
    case PAGELOG_REPLY_ENTRIES:
        return entries_fault(reader, reply);
    case PAGELOG_REPLY_STATUS:
        reply->epoch = (uint32_t)take(reader, 4);
        reply->primary = (uint32_t)take(reader, 4);
        reply->hard = take(reader, 8);
        reply->pending = take(reader, 8);
        reply->landing = take(reader, 8);
        return 0;
    case PAGELOG_REPLY_DENIED:
        reply->section = (uint8_t)take(reader, 1);
        if (!reader->cut && (reply->section < 1 || reply->section > 3)) return REPLY_RANGE;
        reply->row = (uint16_t)take(reader, 2);
        reply->value = take(reader, 8);
        return 0;
    case PAGELOG_REPLY_MALFORMED:
        reply->code = (uint8_t)take(reader, 1);
        return !reader->cut && (reply->code < 1 || reply->code > 15) ? REPLY_RANGE : 0;
    }
    return 0;
}

unsigned pagelog_decode_reply(const uint8_t *body, size_t length, struct pagelog_reply *reply) {
    struct reader reader = {body, length, false};
    memset(reply, 0, sizeof *reply);
    if (length == 0) return REPLY_EMPTY;
    reply->kind = (uint8_t)take(&reader, 1);
    if (reply->kind > PAGELOG_REPLY_MALFORMED) return REPLY_KIND;
    unsigned fault = fields_fault(&reader, reply);
    if (fault) return fault;
    if (reader.cut) return REPLY_CUT;
    return reader.left > 0 ? REPLY_TRAILING : 0;
}

const uint8_t *pagelog_next_block(const struct pagelog_reply *blocks, size_t *at, size_t *length) {
    if (*at + 4 > blocks->length) return NULL;
    const uint8_t *block = blocks->bytes + *at + 4;
    *length = (size_t)pagelog_read_number(blocks->bytes + *at, 4);
    *at += 4 + *length;
    return block;
}

/* ---- Outcomes ---- */

static enum pagelog_outcome outcome_of_denial(const struct pagelog_reply *reply) {
    if (reply->section == SECTION_A && reply->row >= 2 && reply->row <= 4) return PAGELOG_FENCED;
    bool window = (reply->row >= 2 && reply->row <= 4) || reply->row == 6;
    return reply->section == SECTION_C && window ? PAGELOG_CONFLICT : PAGELOG_DENIED;
}

enum pagelog_outcome pagelog_outcome_of(const struct pagelog_reply *reply) {
    switch (reply->kind) {
    case PAGELOG_REPLY_DENIED:
        return outcome_of_denial(reply);
    case PAGELOG_REPLY_NO_MEMORY:
        return PAGELOG_NO_MEMORY;
    case PAGELOG_REPLY_AUDIT_FULL:
        return PAGELOG_AUDIT_FULL;
    case PAGELOG_REPLY_SPENT:
    case PAGELOG_REPLY_NO_DATABASE:
        return PAGELOG_DENIED;
    case PAGELOG_REPLY_MALFORMED:
        return PAGELOG_MALFORMED;
    }
    return PAGELOG_DONE;
}

const char *pagelog_outcome_name(enum pagelog_outcome outcome) {
    static const char *const names[] = {"done",   "lost",      "fenced",          "in doubt", "conflict",
                                        "denied", "no memory", "audit list full", "malformed"};
    return (unsigned)outcome < sizeof names / sizeof *names ? names[outcome] : "unknown";
}
