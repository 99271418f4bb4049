/* Requests in flight, and the waits for their replies. */
#include "pagelog_connection.h"

#include <poll.h>
#include <string.h>
#include <sys/socket.h>

enum {
    LEAST_LENT = 4096, /* bytes; fewer are sooner copied */
    LEAST_REPLY = 5,   /* bytes of a frame of a reply, at least */
    FEW_REPLIES = 3,   /* this many come at once, mostly */
    LAST_REPLIES = 8,  /* of a group: those that a wait may look for */
};

/* ---- Waiting for replies ---- */

/* How many bytes the wait is for: all replies to what is in flight, where nothing is done before they are
 * there. */
static size_t bytes_awaited(const struct pagelog *log) {
    size_t has = held(&log->input), least = (log->unheard + log->asked_count) * LEAST_REPLY;
    bool is_group = log->is_in_group && log->asked_count > FEW_REPLIES;
    return is_group && least > has ? least - has : 1;
}

/* Notes how long a wait took for its last bytes. A long one counts as a few short ones, so that it is soon
 * forgotten. */
static void note_wait(struct pagelog *log, uint64_t ns) {
    uint64_t most = 4 * log->spin_ns;
    log->usual_ns = (7 * log->usual_ns + (ns < most ? ns : most)) / 8;
}

/* Looks for `wanted` bytes without sleeping, for `spin_ns` after the last that came at most: a thread that
 * sleeps is woken some ten microseconds after its reply has come, or more. Only where the waits before took
 * no longer, so that it mostly finds them. `*since` becomes the time at which the last bytes but those came.
 * False where the connection has ended. */
static bool look_awake(struct pagelog *log, size_t wanted, uint64_t *since) {
    uint64_t now = *since;
    while (held(&log->input) < wanted && now - *since < log->spin_ns) {
        size_t before = held(&log->input);
        if (!pagelog_read_some(log, MSG_DONTWAIT)) return false;
        now = pagelog_now_ns();
        if (held(&log->input) > before && held(&log->input) < wanted) *since = now;
    }
    return true;
}

/* From how many bytes on a poll says that the socket can be read. */
static void set_least(struct pagelog *log, size_t least) {
    int value = (int)least;
    setsockopt(log->socket, SOL_SOCKET, SO_RCVLOWAT, &value, sizeof value);
}

/* Waits for `least` bytes, asleep, and reads them. A receive cannot wait for more than one by itself: it
 * counts what has come since it began to wait. */
static bool sleep_for(struct pagelog *log, size_t least, uint64_t deadline) {
    short ready;
    if (least == 1 || log->secure)
        return pagelog_read_some(log, 0); /* of TLS they are not what a socket counts */
    set_least(log, least);
    pagelog_wait_for(log, log->socket, POLLIN, deadline, &ready);
    set_least(log, 1);
    return pagelog_read_some(log, MSG_DONTWAIT);
}

/* Sleeps until all but the last replies of a group are there, as far as they are waited for, so that the wait
 * is awake when the last ones come. */
static bool sleep_before_last(struct pagelog *log, size_t wanted, uint64_t deadline) {
    size_t last = LAST_REPLIES * LEAST_REPLY, until = wanted > last ? wanted - last : 0;
    if (held(&log->input) < until && !pagelog_read_some(log, MSG_DONTWAIT)) return false;
    return held(&log->input) >= until || sleep_for(log, until - held(&log->input), deadline);
}

/* The first wait for a reply: for `reply_ms`. */
static bool wait_first(struct pagelog *log, uint64_t *deadline) {
    uint64_t since = pagelog_now_ns();
    size_t before = held(&log->input), wanted = before + bytes_awaited(log);
    *deadline = pagelog_end_of_wait(since, log->options.reply_ms);
    if (log->spin_ns > 0 && !sleep_before_last(log, wanted, *deadline)) return false;
    if (held(&log->input) > before) since = pagelog_now_ns();
    if (log->usual_ns < log->spin_ns && !look_awake(log, wanted, &since)) return false;
    if (held(&log->input) < wanted && !sleep_for(log, wanted - held(&log->input), *deadline)) return false;
    if (log->spin_ns > 0) note_wait(log, pagelog_now_ns() - since);
    return true;
}

/* Waits for bytes of a reply and reads them: first for `reply_ms`, and again until the `*deadline` that the
 * first wait had. */
static bool read_more(struct pagelog *log, uint64_t *deadline) {
    short ready;
    if (log->waits) log->counts.round_trips++;
    log->waits = false;
    if (*deadline == 0) return wait_first(log, deadline);
    return pagelog_wait_for(log, log->socket, POLLIN, *deadline, &ready) &&
           pagelog_read_some(log, MSG_DONTWAIT);
}

/* The body of the next frame, once all of it is there. */
static enum pagelog_outcome read_frame(struct pagelog *log, const uint8_t **body, size_t *length) {
    uint64_t deadline = 0;
    struct buffer *input = &log->input;
    for (;;) {
        if (held(input) >= 4) {
            *length = (size_t)pagelog_read_number(input->bytes + input->start, 4);
            if (*length > PAGELOG_REPLY_BYTES) return pagelog_distrust(log);
            if (held(input) >= 4 + *length) break;
        }
        if (!read_more(log, &deadline)) return pagelog_lose(log);
    }
    *body = input->bytes + input->start + 4;
    input->start += 4 + *length;
    return PAGELOG_DONE;
}

/* ---- Requests in flight ---- */

static size_t in_flight(const struct pagelog *log) {
    return log->asked_count + log->unheard;
}

/* The request that was asked so many after the oldest in flight. */
static struct asked *asked_at(struct pagelog *log, size_t index) {
    return &log->asked[(log->asked_first + index) % PAGELOG_IN_FLIGHT];
}

/* Whether nobody waits for the next reply. */
static bool is_next_unheard(struct pagelog *log) {
    return in_flight(log) > 0 && asked_at(log, 0)->is_unheard;
}

/* Notes whether somebody waits for the reply to a request. */
static void set_unheard(struct pagelog *log, struct asked *asked, bool is_unheard) {
    int one = is_unheard ? 1 : -1;
    if (asked->is_unheard == is_unheard) return;
    asked->is_unheard = is_unheard;
    log->unheard += (size_t)one;
    log->asked_count -= (size_t)one;
    if (asked->operation == PAGELOG_GET) log->coming[asked->page % AHEAD_SLOTS] += (uint16_t)one;
}

/* The oldest request in flight, which is answered. */
static struct asked take_asked(struct pagelog *log) {
    struct asked asked = *asked_at(log, 0);
    set_unheard(log, &asked, false);
    log->asked_first = (log->asked_first + 1) % PAGELOG_IN_FLIGHT;
    log->asked_count--;
    return asked;
}

/* Queues a request. The bytes at its end stay where they are if they may be lent; even then the output has
 * room for them. */
static enum pagelog_outcome queue(struct pagelog *log, const struct pagelog_request *request, bool may_lend) {
    struct buffer *output = &log->output;
    uint8_t front[FRONT_BYTES];
    size_t length = 0, front_length = pagelog_encode_front(request, front, &length);
    if (in_flight(log) == PAGELOG_IN_FLIGHT || front_length == 0) return pagelog_fail(log, PAGELOG_MALFORMED);
    if (!pagelog_reserve(output, pagelog_lent_bytes(log) + 4 + front_length + length))
        return pagelog_fail(log, PAGELOG_NO_MEMORY);
    uint8_t *at = pagelog_write_number(output->bytes + output->end, front_length + length, 4);
    memcpy(at, front, front_length);
    output->end += 4 + front_length;
    if (may_lend && length >= LEAST_LENT && log->lent_count < MOST_LENT) {
        log->lent[log->lent_count++] = (struct lent){held(output), length, request->bytes};
    } else {
        if (length > 0) memcpy(at + front_length, request->bytes, length);
        output->end += length;
    }
    *asked_at(log, in_flight(log)) = pagelog_asked_of(request);
    log->asked_count++;
    log->counts.requests++;
    return PAGELOG_DONE;
}

enum pagelog_outcome pagelog_send_as(struct pagelog *log, const struct pagelog_request *request) {
    return queue(log, request, false);
}

/* The request as this object's principal asks it. */
static struct pagelog_request own(const struct pagelog *log, const struct pagelog_request *request) {
    struct pagelog_request whole = *request;
    whole.principal = log->options.principal;
    memcpy(whole.token, log->options.token, PAGELOG_TOKEN_BYTES);
    whole.database = log->options.database;
    whole.epoch = request->role == PAGELOG_PRIMARY ? log->writing_epoch : log->epoch;
    return whole;
}

enum pagelog_outcome pagelog_send(struct pagelog *log, const struct pagelog_request *request) {
    struct pagelog_request whole = own(log, request);
    return queue(log, &whole, false);
}

enum pagelog_outcome pagelog_lend(struct pagelog *log, const struct pagelog_request *request) {
    struct pagelog_request whole = own(log, request);
    return queue(log, &whole, true);
}

void pagelog_pass_over(struct pagelog *log) {
    for (size_t i = 0; i < in_flight(log); i++)
        set_unheard(log, asked_at(log, i), true);
}

enum pagelog_outcome pagelog_send_ahead(struct pagelog *log, const struct pagelog_request *get) {
    enum pagelog_outcome outcome = pagelog_send(log, get);
    if (outcome != PAGELOG_DONE) return outcome;
    set_unheard(log, asked_at(log, in_flight(log) - 1), true);
    return PAGELOG_DONE;
}

/* The place of a get of a page at an LSN whose reply nobody waits for; behind the last where there is none.
 */
static size_t find_ahead(const struct pagelog *log, uint64_t lsn, uint32_t page) {
    size_t count = log->coming[page % AHEAD_SLOTS] > 0 ? in_flight(log) : 0;
    for (size_t i = 0; i < count; i++) {
        const struct asked *asked = &log->asked[(log->asked_first + i) % PAGELOG_IN_FLIGHT];
        bool is_get = asked->is_unheard && asked->operation == PAGELOG_GET;
        if (is_get && asked->page == page && asked->lsn == lsn) return i;
    }
    return in_flight(log);
}

bool pagelog_is_ahead(const struct pagelog *log, uint64_t lsn, uint32_t page) {
    return find_ahead(log, lsn, page) < in_flight(log);
}

bool pagelog_await_ahead(struct pagelog *log, uint64_t lsn, uint32_t page) {
    size_t place = find_ahead(log, lsn, page);
    if (place == in_flight(log)) return false;
    set_unheard(log, asked_at(log, place), false);
    return true;
}

size_t pagelog_count_ahead(const struct pagelog *log) {
    return log->unheard;
}

void pagelog_set_taker(struct pagelog *log, pagelog_take *take, void *argument) {
    log->take = take;
    log->taker = argument;
}

/* Reads the next reply, which nobody waits for. A page goes to who takes it. */
static enum pagelog_outcome pass_over_one(struct pagelog *log) {
    const uint8_t *body = NULL;
    size_t length = 0;
    struct pagelog_reply reply;
    enum pagelog_outcome outcome = read_frame(log, &body, &length);
    if (outcome != PAGELOG_DONE) return outcome;
    struct asked asked = take_asked(log);
    if (pagelog_decode_reply(body, length, &reply) != 0 || !pagelog_answers(asked, &reply))
        return pagelog_distrust(log);
    log->counts.replies++;
    if (asked.operation != PAGELOG_GET)
        log->is_tidying_refused |= reply.kind != PAGELOG_REPLY_DONE;
    else if (reply.kind == PAGELOG_REPLY_PAGE && log->take && !log->is_restarted)
        log->take(log->taker, asked.lsn, asked.page, reply.bytes);
    return PAGELOG_DONE;
}

/* Whether the next frame is all there, and a reply that is Done. */
static bool is_done_next(const struct pagelog *log) {
    static const uint8_t frame[] = {0, 0, 0, 1, PAGELOG_REPLY_DONE};
    return held(&log->input) >= sizeof frame &&
           memcmp(log->input.bytes + log->input.start, frame, sizeof frame) == 0;
}

/* Whether the next frame is all there. */
static bool is_whole_next(const struct pagelog *log) {
    const struct buffer *input = &log->input;
    return held(input) >= 4 && held(input) - 4 >= pagelog_read_number(input->bytes + input->start, 4);
}

/* Whether the next reply is to a get that nobody waits for. */
static bool is_next_ahead(struct pagelog *log) {
    return is_next_unheard(log) && asked_at(log, 0)->operation == PAGELOG_GET;
}

void pagelog_take_ahead(struct pagelog *log) {
    while (is_next_ahead(log) ? is_whole_next(log) : is_next_unheard(log) && is_done_next(log))
        pass_over_one(log);
}

enum pagelog_outcome pagelog_receive(struct pagelog *log, struct pagelog_reply *reply) {
    const uint8_t *body = NULL;
    size_t length = 0;
    memset(reply, 0, sizeof *reply);
    if (log->asked_count == 0) return pagelog_fail(log, PAGELOG_MALFORMED);
    enum pagelog_outcome outcome = pagelog_flush(log);
    while (outcome == PAGELOG_DONE && is_next_unheard(log))
        outcome = pass_over_one(log);
    if (outcome == PAGELOG_DONE) outcome = read_frame(log, &body, &length);
    if (outcome != PAGELOG_DONE) return outcome;
    struct asked asked = take_asked(log);
    if (pagelog_decode_reply(body, length, reply) != 0 || !pagelog_answers(asked, reply)) {
        memset(reply, 0, sizeof *reply);
        return pagelog_distrust(log);
    }
    log->counts.replies++;
    return pagelog_notice(log, reply);
}

/* Sends a few bytes, which have room in a connection that nothing was sent over. */
static bool send_alone(struct pagelog *log, const uint8_t *bytes, size_t length) {
    ssize_t count = pagelog_put(log, bytes, length);
    log->counts.bytes_sent += count > 0 ? (uint64_t)count : 0;
    log->waits = true;
    return count == (ssize_t)length;
}

enum pagelog_outcome pagelog_exchange(struct pagelog *log, const struct pagelog_request *request,
                                      struct pagelog_reply *reply) {
    uint8_t frame[4 + FRONT_BYTES];
    const uint8_t *body = NULL;
    size_t length = pagelog_encode_request(request, frame + 4, FRONT_BYTES);
    pagelog_write_number(frame, length, 4);
    log->counts.requests++;
    if (!send_alone(log, frame, 4 + length)) return pagelog_fail(log, PAGELOG_LOST);
    enum pagelog_outcome outcome = read_frame(log, &body, &length);
    if (outcome != PAGELOG_DONE) return outcome;
    log->counts.replies++;
    if (pagelog_decode_reply(body, length, reply) != 0 || !pagelog_answers(pagelog_asked_of(request), reply))
        return pagelog_distrust(log);
    return PAGELOG_DONE;
}

size_t pagelog_in_flight(const struct pagelog *log) {
    return log->asked_count;
}

size_t pagelog_take_done(struct pagelog *log, bool *is_over) {
    struct pagelog_reply reply;
    size_t count = 0;
    bool is_full = held(&log->input) >= MOST_INPUT; /* of what was not asked for, mostly */
    *is_over = !pagelog_is_pushed(log) || (!is_full && !pagelog_read_some(log, MSG_DONTWAIT));
    if (*is_over) return 0;
    pagelog_take_ahead(log);
    if (is_next_ahead(log)) return 0; /* the replies that are waited for come after it */
    while (log->asked_count > 0 && is_done_next(log) && pagelog_receive(log, &reply) == PAGELOG_DONE)
        count++;
    *is_over = log->socket < 0 || held(&log->input) >= LEAST_REPLY;
    return count;
}
