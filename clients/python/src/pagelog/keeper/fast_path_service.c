#include "fast_path_parts.h"

#include <blake2.h>
#include <errno.h>
#include <string.h>
#include <sys/socket.h>
#include <zlib.h>

enum {
    BLOCKS = 1,      /* the kind of such a reply */
    DENIED = 5,      /* that of a denial: its section, its row, and a value of 8 bytes */
    DENIED_LEN = 12,
    EMPTY_LEN = 12,  /* bytes of a block without records: its LSN, and zeros */
    EPOCH_AT = 29,   /* where a frame has the epoch, 4 bytes */
    REPLY_HEAD = 11, /* its kind, the next LSN, and how many blocks */
    REPLY_MOST = 524363,
    READ_MANY = 1 << 16, /* bytes that are read at once of many replies */
};

/* Pulling. */

/* What the blocks come into that are being pulled. */
static struct batch *pulled_of(struct way *way) {
    return way->phase == KEEPING ? &way->ahead : &way->batch;
}

/* Sends questions, and waits for the replies. False where the service does not take them. */
static bool send_questions(struct way *way, const uint8_t *from, size_t len) {
    way->is_ahead = way->phase == KEEPING;
    way->phase = way->is_ahead ? KEEPING : PULLING;
    way->due = now_ms() + way->start.service_ms;
    wake_by(way->plane, way->due);
    return send(way->start.service, from, len, MSG_NOSIGNAL) == (ssize_t)len;
}

/* Puts the question for the lines behind those that are there. */
static size_t put_audit(const struct way *way, uint8_t *to) {
    memcpy(to, way->asks + way->start.pull_len, way->start.audit_len);
    put_number(to + way->start.audit_len - 10, way->trail.kept + way->trail.count + 1);
    return way->start.audit_len;
}

static void set_epoch(struct way *way, uint64_t epoch) {
    size_t at[] = {EPOCH_AT, way->start.pull_len + EPOCH_AT};
    for (size_t frame = 0; frame < (way->trail.is_kept ? 2 : 1); frame++) {
        for (size_t byte = 0; byte < 4; byte++) {
            way->asks[at[frame] + byte] = (uint8_t)(epoch >> (24 - 8 * byte));
        }
    }
}

/* Asks in the epoch in which the writer writes, as far as that is known: each other one is denied, and asked again. */
static void expect_epoch(struct way *way) {
    int64_t epoch = way->writers == NULL ? -1 : turns_epoch(way->writers->turns, way->start.generation);
    way->expects_epoch = epoch > (int64_t)number_in(way->asks + EPOCH_AT, 4) && epoch <= UINT32_MAX;
    if (way->expects_epoch) {
        set_epoch(way, (uint64_t)epoch);
    }
}

/* Asks for the blocks behind those of the batch, by several pulls where there may be many; and for the lines that speak of them in the same
 * message: most batches are of one pull. False where the service takes no request. */
static bool ask(struct way *way) {
    uint8_t questions[(PULLS + 1) * FRAME_MOST];
    const struct batch *batch = pulled_of(way);
    size_t len = 0, room = (WAY_BLOCKS - batch->blocks) / PULL_MOST;
    way->pulls = way->depth < room ? way->depth : room;
    way->first = batch->reached + 1;
    for (size_t pull = 0; pull < way->pulls; pull++) {
        memcpy(questions + len, way->asks, way->start.pull_len);
        len += way->start.pull_len;
        put_number(questions + len - 10, way->first + pull * PULL_MOST - way->start.shift);
        questions[len - 1] = (uint8_t)way->most; /* of two bytes */
    }
    forget_lines(&way->trail);
    way->awaits_lines = way->trail.is_kept;
    if (way->awaits_lines) {
        len += put_audit(way, questions + len);
    }
    way->pulled = way->most;
    return send_questions(way, questions, len);
}

/* Asks for more lines. */
static bool ask_lines(struct way *way) {
    uint8_t question[FRAME_MOST];
    way->awaits_lines = true;
    return send_questions(way, question, put_audit(way, question));
}

/* Its service is gone, or has said what nobody asked. What is on its way is kept before the way ends. */
static void leave_service(struct way *way, enum way_end end) {
    way->is_gone = true;
    way->gone_for = end;
    watch_no_more(way->plane, way->start.service);
    set_active(way);
}

/* Ends it for what has become of a pull. A statement that is on its way is waited for. */
static void give_up(struct way *way, enum way_end end) {
    if (way->phase != KEEPING) {
        end_way(way, end);
        return;
    }
    way->is_ahead = false;
    way->ahead.blocks = 0;
    leave_service(way, end);
}

/* Where the batch begins that is pulled now. */
static void begin_batch(struct way *way) {
    struct batch *batch = pulled_of(way);
    bool is_ahead = way->phase == KEEPING;
    batch->blocks = batch->len = 0;
    batch->pulls_for = way->kicked;
    batch->reached = is_ahead ? way->batch.reached : way->reached;
    batch->chain_len = is_ahead ? way->batch.chain_len : way->chain_len;
    memcpy(batch->chain, is_ahead ? way->batch.chain : way->chain, batch->chain_len);
}

void begin_pull(struct way *way) {
    for (struct line *line = way->lines; line != NULL; line = line->next) {
        line->asked = line->position != 0;
    }
    way->rung = false;
    way->most = way->start.is_careful ? 1 : PULL_MOST;
    way->news_due |= way->news_wanted;
    way->news_wanted = false;
    begin_batch(way);
    expect_epoch(way);
    way->in_len = 0;
    way->depth = 1;
    if (!ask(way)) {
        give_up(way, WAY_SERVICE);
    }
}

/* Takes a block, whose LSN is the next one, under its position. */
static bool take_block(struct way *way, const uint8_t *block, size_t len) {
    struct batch *batch = pulled_of(way);
    if (len < 8 || number_in(block, 8) != batch->reached + 1 - way->start.shift) {
        return false;
    }
    uint8_t *bytes = batch->bytes + batch->len;
    memcpy(bytes, block, len);
    put_number(bytes, batch->reached + 1);
    blake2b_state state;
    blake2b_init(&state, WAY_DIGEST);
    blake2b_update(&state, batch->chain, batch->chain_len);
    blake2b_update(&state, bytes, len);
    blake2b_final(&state, batch->chain, WAY_DIGEST);
    batch->chain_len = WAY_DIGEST;
    batch->lengths[batch->blocks] = (uint32_t)len;
    batch->crcs[batch->blocks++] = (uint32_t)crc32(0, bytes, (unsigned)len);
    batch->len += len;
    batch->reached++;
    return true;
}

/* Takes blocks without records, which no pull serves, up to before this position, if the batch has room for them. `rest`: bytes that come
 * behind them. False without memory. */
static bool fill_up(struct way *way, uint64_t position, size_t rest) {
    struct batch *batch = pulled_of(way);
    uint8_t empty[EMPTY_LEN] = {0};
    while (batch->reached + 1 < position && batch->blocks < WAY_BLOCKS) {
        if (!grow(&batch->bytes, &batch->room, batch->len + EMPTY_LEN + rest)) {
            return false;
        }
        put_number(empty, batch->reached + 1 - way->start.shift);
        take_block(way, empty, EMPTY_LEN);
    }
    return true;
}

/* Takes the blocks of a reply that are behind the batch, and fills up what is between them. `count` is how many it has. */
static enum way_end take_blocks(struct way *way, const uint8_t *body, size_t len, size_t *count) {
    if (len < REPLY_HEAD || body[0] != BLOCKS) {
        return WAY_SERVICE;
    }
    struct batch *batch = pulled_of(way);
    uint64_t least = way->first, next = number_in(body + 1, 8) + way->start.shift;
    *count = (size_t)number_in(body + 9, 2);
    if (*count > way->most || next <= least || least > batch->reached + 1) {
        return WAY_SERVICE;
    }
    size_t at = REPLY_HEAD;
    for (size_t block = 0; block < *count; block++) {
        size_t size = len - at < 4 ? 0 : (size_t)number_in(body + at, 4);
        at += 4;
        if (size < EMPTY_LEN || len - at < size) {
            return WAY_SERVICE;
        }
        uint64_t position = number_in(body + at, 8) + way->start.shift;
        if (position < least || position >= next) {
            return WAY_SERVICE;
        }
        if (!fill_up(way, position, len - at)) {
            return WAY_NO_MEMORY;
        }
        if (position == batch->reached + 1 && batch->blocks < WAY_BLOCKS && !take_block(way, body + at, size)) {
            return WAY_SERVICE;
        }
        least = position + 1;
        at += size;
    }
    return at != len ? WAY_SERVICE : fill_up(way, next, 0) ? WAY_STOPPED : WAY_NO_MEMORY;
}

/* Whether a reply denies what was asked for the sake of the epoch: all is asked for again, in the one that it says. That is below what was
 * asked in only where this was expected, and not known. */
static bool is_outdated(struct way *way, const uint8_t *body, size_t len) {
    uint64_t epoch = len == DENIED_LEN ? number_in(body + 4, 8) : 0, asked = number_in(way->asks + EPOCH_AT, 4);
    bool is_other = epoch > asked || (epoch > 0 && epoch < asked && way->expects_epoch);
    if (!is_other || body[0] != DENIED || body[1] != 1 || body[2] != 0 || body[3] < 2 || body[3] > 3 || epoch > UINT32_MAX) {
        return false;
    }
    way->expects_epoch = false;
    set_epoch(way, epoch);
    return true;
}

/* Whether a reply denies the pull because the log ends with the blocks of the batch. */
static bool is_the_end(struct way *way, const uint8_t *body, size_t len) {
    static const uint8_t no_such_block[] = {DENIED, 3, 0, 1};
    return len == DENIED_LEN && memcmp(body, no_such_block, sizeof no_such_block) == 0 &&
           number_in(body + sizeof no_such_block, 8) == pulled_of(way)->reached - way->start.shift;
}

/* Reads what has come. False where the service is of no use, or `lacks_memory`. */
static bool receive(struct way *way, bool *lacks_memory) {
    size_t wanted = way->in_len < 4 ? 4096 : 4 + (size_t)number_in(way->in, 4);
    wanted = way->depth > 1 && wanted < READ_MANY ? READ_MANY : wanted;
    if (!grow(&way->in, &way->in_room, wanted > way->in_len ? wanted : way->in_len + 1)) {
        *lacks_memory = true;
        return false;
    }
    ssize_t got = recv(way->start.service, way->in + way->in_len, way->in_room - way->in_len, MSG_DONTWAIT);
    if (got < 0 && (errno == EAGAIN || errno == EINTR)) {
        return true;
    }
    if (got <= 0) {
        return false;
    }
    way->in_len += (size_t)got;
    return true;
}

/* Takes a reply with blocks, or that of the end of the log. What was asked behind the end is passed over: it is asked for again. */
static enum way_end take_pulled(struct way *way, const uint8_t *body, size_t len) {
    struct batch *batch = pulled_of(way);
    way->pulls--;
    way->is_outdated |= is_outdated(way, body, len);
    if (way->pulled < way->most || batch->blocks == WAY_BLOCKS || way->is_outdated) {
        return WAY_STOPPED;
    }
    if (!grow(&batch->bytes, &batch->room, batch->len + len)) {
        return WAY_NO_MEMORY;
    }
    size_t fits = len < WAY_BYTES / PULLS ? PULLS : WAY_BYTES / len;
    way->depth = 4 * way->depth < fits ? 4 * way->depth : fits > 0 ? fits : 1;
    way->pulled = 0;
    enum way_end end = is_the_end(way, body, len) ? WAY_STOPPED : take_blocks(way, body, len, &way->pulled);
    if (batch->blocks == WAY_BLOCKS) {
        way->pulled = way->most; /* there may be more than it has room for */
    }
    way->first += PULL_MOST;
    return end;
}

/* Nothing was there. */
static void rest(struct way *way) {
    way->phase = READY;
    pthread_mutex_lock(&way->plane->lock);
    way->done = way->found_nothing = way->batch.pulls_for;
    pthread_mutex_unlock(&way->plane->lock);
    wake_by(way->plane, until(way));
    tell_above(way);
    tell_news(way);
    set_active(way);
}

/* Whether there may be more blocks, and room for them. */
static bool pulls_on(struct way *way) {
    const struct batch *batch = pulled_of(way);
    return way->pulled == way->most && !way->start.is_careful && batch->blocks + PULL_MOST <= WAY_BLOCKS && batch->len < WAY_BYTES;
}

/* Goes on once all has come that was asked for. Returns WAY_STOPPED where nothing stands against it. */
static enum way_end go_on(struct way *way) {
    if (way->in_len > 0) {
        return WAY_SERVICE; /* more than was asked for */
    }
    if (way->is_outdated || pulls_on(way)) {
        way->is_outdated = false;
        return ask(way) ? WAY_STOPPED : WAY_SERVICE;
    }
    size_t blocks = pulled_of(way)->blocks;
    way->rung |= blocks > 0 && way->pulled == way->most; /* there may be more */
    if (way->is_ahead) {
        way->is_ahead = false; /* it waits for the statement that is on its way; of nothing nobody is told before that ends */
    } else if (blocks == 0) {
        rest(way);
    } else if (way->trail.is_kept && !pack_lines(&way->trail)) {
        return WAY_NO_MEMORY;
    } else {
        set_due(way);
    }
    return WAY_STOPPED;
}

static enum way_end take_listed(struct way *way, const uint8_t *body, size_t len) {
    bool is_more = false;
    way->awaits_lines = false;
    way->is_outdated |= is_outdated(way, body, len);
    if (way->is_outdated) {
        return WAY_STOPPED;
    }
    if (!take_lines(way, body, len, &is_more)) {
        return WAY_LINES;
    }
    bool is_needed = pulled_of(way)->blocks > 0 && !pulls_on(way);
    return !is_more || !is_needed || ask_lines(way) ? WAY_STOPPED : WAY_SERVICE;
}

/* Takes the replies that are whole. */
static enum way_end take_replies(struct way *way) {
    enum way_end end = WAY_STOPPED;
    size_t at = 0;
    while (end == WAY_STOPPED && (way->pulls > 0 || way->awaits_lines) && way->in_len - at >= 4) {
        const uint8_t *body = way->in + at + 4;
        size_t len = (size_t)number_in(way->in + at, 4);
        if (len > REPLY_MOST) {
            return WAY_SERVICE;
        }
        if (way->in_len - at - 4 < len) {
            break; /* there is room for the rest of it the next time */
        }
        end = way->pulls > 0 ? take_pulled(way, body, len) : take_listed(way, body, len);
        at += 4 + len;
    }
    way->in_len -= at;
    memmove(way->in, way->in + at, way->in_len);
    bool is_all = way->pulls == 0 && !way->awaits_lines;
    return end == WAY_STOPPED && is_all ? go_on(way) : end;
}

void go_on_pulling(struct way *way) {
    bool lacks_memory = false;
    if (way->has_ended) {
        return;
    }
    if (way->phase != PULLING && !way->is_ahead) {
        leave_service(way, WAY_SERVICE);
        return;
    }
    enum way_end end = receive(way, &lacks_memory) ? take_replies(way) : lacks_memory ? WAY_NO_MEMORY : WAY_SERVICE;
    if (end != WAY_STOPPED) {
        give_up(way, end);
    }
}
