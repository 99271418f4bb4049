#include "answer.h"

#include "bytes.h"

#include <string.h>

enum reply { BLOCKS = 1, PAGE = 2, STATUS_REPLY = 4, DENIED = 5, MALFORMED = 10 };
enum { GET_BYTES = 43, PULL_BYTES = 44, LAST_OP = TIDY, LAST_ROLE = OPERATOR };
static const uint64_t LAST_LSN = 1ull << 48;

/* A request, read from its body. Of those that no page server serves only the head is. */
struct request {
    struct question question;
    uint32_t page;
    uint64_t position;
    bool is_exact;
    unsigned low, high, max;
};

static void put_frame(uint8_t **out, const uint8_t *body, size_t length) {
    uint8_t *at = put_number(*out, length, FRAME_HEAD);
    memcpy(at, body, length);
    *out = at + length;
}

static void put_malformed(uint8_t **out, unsigned code) {
    uint8_t body[] = {MALFORMED, (uint8_t)code};
    put_frame(out, body, sizeof body);
}

static void put_denial(uint8_t **out, struct denial denial) {
    uint8_t body[12] = {DENIED, (uint8_t)denial.section};
    put_number(put_number(body + 2, denial.row, 2), denial.value, 8);
    put_frame(out, body, sizeof body);
}

/* Operations whose bodies have one size; 0: others, of which a page server reads no more than the head. */
static size_t size_of(unsigned op) {
    return op == GET ? GET_BYTES : op == PULL ? PULL_BYTES : op == STATUS ? HEAD_BYTES : 0;
}

static bool read_get(const uint8_t *body, struct request *request) {
    request->page = (uint32_t)number_at(body + 30, 4);
    request->position = number_at(body + 34, 8);
    request->is_exact = body[42] == 1;
    request->low = request->high = request->page / PAGES_OF_PARTITION;
    return request->position <= LAST_LSN && body[42] <= 1;
}

static bool read_pull(const uint8_t *body, struct request *request) {
    request->low = (unsigned)number_at(body + 30, 2);
    request->high = (unsigned)number_at(body + 32, 2);
    request->position = number_at(body + 34, 8);
    request->max = (unsigned)number_at(body + 42, 2);
    bool is_within = request->low <= request->high && request->position >= 1 && request->position <= LAST_LSN;
    return is_within && request->max >= 1 && request->max <= MOST_PULL;
}

/* The code of the body's fault; 0: it has none that a page server looks for. */
static unsigned read_request(const uint8_t *body, size_t length, struct request *request) {
    if (length < HEAD_BYTES) return 1;
    struct question *question = &request->question;
    *request = (struct request){0};
    question->principal = (uint32_t)number_at(body, 4);
    memcpy(question->token, body + 4, TOKEN_BYTES);
    question->role = body[20];
    question->epoch = (uint32_t)number_at(body + 25, 4);
    question->op = body[29];
    if (question->role < 1 || question->role > LAST_ROLE) return 2;
    if (question->op < 1 || question->op > LAST_OP) return 3;
    size_t size = size_of(question->op);
    if (size && length != size) return length < size ? 4 : 5;
    if (question->op == GET && !read_get(body, request)) return 6;
    if (question->op == PULL && !read_pull(body, request)) return 6;
    question->has_partitions = question->has_position = question->op != STATUS;
    question->low = request->low, question->high = request->high, question->position = request->position;
    return 0;
}

static void put_status(uint8_t **out, uint64_t position) {
    uint8_t body[33] = {STATUS_REPLY};
    uint8_t *at = put_number(put_number(body + 1, 1, 4), 0, 4);
    put_number(put_number(put_number(at, position, 8), 0, 8), position, 8);
    put_frame(out, body, sizeof body);
}

/* Which position a get is answered at: the newest one, if it may be newer and the rows allow that. */
static uint64_t position_of(const struct table *table, const struct request *request, uint64_t confirmed) {
    struct question newest = request->question;
    newest.position = confirmed;
    bool is_newest = !request->is_exact && table_decide(table, &newest).section == 0;
    return is_newest ? confirmed : request->position;
}

static enum answered put_page(struct store_view *view, uint32_t page, uint64_t position, uint8_t **out) {
    uint8_t *at = put_number(*out, 9 + PAGE_BYTES, FRAME_HEAD);
    *at++ = PAGE;
    at = put_number(at, position, 8);
    if (!store_page(view, page, position, at)) return ANSWER_BROKEN;
    *out = at + PAGE_BYTES;
    return ANSWERED;
}

static enum answered put_blocks(struct store_view *view, const struct request *request, uint64_t last,
                                uint8_t **out) {
    uint8_t *start = *out, *at = start + FRAME_HEAD + 11;
    uint64_t position = request->position, next = last + 1;
    unsigned count = 0;
    while (count < request->max) {
        const uint8_t *block;
        size_t length;
        if (!store_block(view, &position, last, request->low, request->high, &block, &length))
            return ANSWER_BROKEN;
        if (position == 0) break;
        at = put_number(at, length, 4);
        memcpy(at, block, length);
        at += length;
        position++;
        if (++count == request->max) next = position;
    }
    start = put_number(start, (uint64_t)(at - *out) - FRAME_HEAD, FRAME_HEAD);
    *start++ = BLOCKS;
    put_number(put_number(start, next, 8), count, 2);
    *out = at;
    return ANSWERED;
}

/* As a service's table decides, and then by what there is. */
static struct denial decide(const struct table *table, struct store *store, const struct request *request,
                            uint64_t confirmed) {
    struct denial denial = table_decide(table, &request->question);
    uint64_t oldest = store_oldest(store);
    if (denial.section != 0 || request->question.op == STATUS) return denial;
    if (request->position > confirmed) return (struct denial){3, 1, confirmed};
    if (request->position < oldest) return (struct denial){3, 10, oldest};
    return denial;
}

bool answer_reads(const struct table *table, struct store *store, const uint8_t *body, size_t length,
                  struct place *place) {
    struct request request;
    uint64_t confirmed = store_confirmed(store);
    if (read_request(body, length, &request) != 0 || request.question.op != GET) return false;
    if (decide(table, store, &request, confirmed).section != 0) return false;
    *place = (struct place){request.page, position_of(table, &request, confirmed)};
    return true;
}

enum answered answer_body(const struct table *table, struct store *store, struct store_view *view,
                          const uint8_t *body, size_t length, bool may_wait, uint64_t *wanted,
                          uint8_t **out) {
    struct request request;
    unsigned fault = read_request(body, length, &request), op = request.question.op;
    if (fault) {
        put_malformed(out, fault);
        return ANSWERED;
    }
    uint64_t confirmed = store_confirmed(store);
    struct denial denial = decide(table, store, &request, confirmed);
    if (denial.section == 3 && denial.row == 1 && op == GET && may_wait) {
        *wanted = request.position;
        return ANSWER_WAITS;
    }
    if (denial.section != 0) {
        put_denial(out, denial);
        return ANSWERED;
    }
    if (op == GET) return put_page(view, request.page, position_of(table, &request, confirmed), out);
    if (op == PULL) return put_blocks(view, &request, table_reach(table, &request.question, confirmed), out);
    put_status(out, confirmed);
    return ANSWERED;
}
