#include "connection.h"

#include "bytes.h"

#include <errno.h>
#include <stdlib.h>
#include <string.h>
#include <sys/socket.h>
#include <unistd.h>

enum { MOST_AHEAD = REPLIES_AT_ONCE / PAGE_BYTES, ROUNDS = 4 };

enum step { GOES_ON, RESTS, IS_OVER };

void connection_close(struct connection *connection) {
    pagelog_secure_end(connection->secure);
    close(connection->socket);
    free(connection->in);
    free(connection->out);
    free(connection);
}

static ssize_t put(const struct connection *connection, const uint8_t *bytes, size_t length) {
    if (connection->secure) return pagelog_secure_send(connection->secure, bytes, length, 0);
    return send(connection->socket, bytes, length, MSG_NOSIGNAL | MSG_DONTWAIT);
}

/* Sends what there is room for; RESTS: not all of it. */
static enum step send_some(const struct connection *connection, const uint8_t *bytes, size_t length,
                           size_t *sent) {
    while (*sent < length) {
        ssize_t now = put(connection, bytes + *sent, length - *sent);
        if (now > 0) {
            *sent += (size_t)now;
        } else if (errno == EAGAIN || errno == EWOULDBLOCK) {
            return RESTS;
        } else if (errno != EINTR) {
            return IS_OVER;
        }
    }
    return GOES_ON;
}

static enum step send_left(struct connection *connection) {
    if (!connection->out) return GOES_ON;
    enum step step = send_some(connection, connection->out, connection->out_length, &connection->out_at);
    if (step != GOES_ON) return step;
    free(connection->out);
    connection->out = NULL;
    return GOES_ON;
}

static enum step send_replies(struct connection *connection, const uint8_t *replies, size_t length) {
    size_t sent = 0;
    enum step step = send_some(connection, replies, length, &sent);
    if (step != RESTS) return step;
    if (!(connection->out = malloc(length - sent))) return IS_OVER;
    memcpy(connection->out, replies + sent, length - sent);
    connection->out_at = 0;
    connection->out_length = length - sent;
    return RESTS;
}

/* The length of the first frame's body, if it is there as a whole. `*is_too_long` says that it never will be.
 */
static bool first_frame(const uint8_t *in, size_t length, size_t *body, bool *is_too_long) {
    *is_too_long = false;
    if (length < FRAME_HEAD) return false;
    *body = (size_t)number_at(in, FRAME_HEAD);
    *is_too_long = *body > MOST_REQUEST;
    return !*is_too_long && length - FRAME_HEAD >= *body;
}

/* Whether the request that is next may go on waiting; one that waited in vain is answered. */
static bool may_wait(struct connection *connection, const struct room *room) {
    if (connection->wanted == 0) return true;
    return store_confirmed(room->store) < connection->wanted && room->now < connection->deadline;
}

static void wait_for(struct connection *connection, const struct room *room, uint64_t wanted) {
    if (connection->wanted == 0) connection->deadline = room->now + room->wait_ms;
    connection->wanted = wanted;
}

bool room_look(struct room *room) {
    room->looks++;
    room->table = *room->newest;
    return room->table != NULL;
}

/* Reads together what the next whole frames ask for, as far as they are answered at once. Returns how many
 * reads of the disk it took. */
static uint64_t read_ahead(const struct connection *connection, struct room *room) {
    struct place places[MOST_AHEAD];
    unsigned frames = 0, count = 0;
    size_t at = 0, body;
    bool is_too_long;
    if (!room_look(room)) return 0;
    for (; frames < MOST_AHEAD; frames++, at += FRAME_HEAD + body) {
        const uint8_t *frame = connection->in + at;
        if (!first_frame(frame, connection->in_length - at, &body, &is_too_long)) break;
        struct place *place = &places[count];
        if (answer_reads(room->table, room->store, frame + FRAME_HEAD, body, place))
            count += !store_has_page(room->store, place->page, place->position);
    }
    return frames > 1 ? ahead_read(room->ahead, room->view, places, count) : 0;
}

/* Answers the whole frames that there are, up to some 256 KiB of replies, each by the table that decides
 * then. RESTS: no whole frame is left, or the next one waits. Where nobody is answered any more nor is what
 * was not sent yet. */
static enum step answer_frames(struct connection *connection, struct room *room, uint8_t **end) {
    size_t at = 0, body;
    bool is_too_long = false;
    enum step step = GOES_ON;
    uint64_t before = store_reads(room->view), ahead = connection->is_cold ? read_ahead(connection, room) : 0;
    while (step == GOES_ON && *end - room->out < REPLIES_AT_ONCE) {
        const uint8_t *frame = connection->in + at;
        if (!first_frame(frame, connection->in_length - at, &body, &is_too_long)) {
            step = RESTS;
            break;
        }
        if (!room_look(room)) {
            *end = room->out;
            return IS_OVER;
        }
        uint64_t wanted;
        enum answered answered = answer_body(room->table, room->store, room->view, frame + FRAME_HEAD, body,
                                             may_wait(connection, room), &wanted, end);
        if (answered == ANSWER_WAITS) {
            wait_for(connection, room, wanted);
            step = RESTS;
        } else if (answered == ANSWER_BROKEN) {
            step = IS_OVER;
        } else {
            connection->wanted = 0;
            at += FRAME_HEAD + body;
        }
    }
    if (at > 0) connection->is_cold = ahead > 0 || store_reads(room->view) > before;
    memmove(connection->in, connection->in + at, connection->in_length - at);
    connection->in_length -= at;
    return is_too_long ? IS_OVER : step;
}

static ssize_t take(const struct connection *connection, uint8_t *bytes, size_t room) {
    if (connection->secure) return pagelog_secure_receive(connection->secure, bytes, room, MSG_DONTWAIT);
    return recv(connection->socket, bytes, room, MSG_DONTWAIT);
}

/* `*is_drained` says that there was no more: what comes later is told. By TLS that is not known. */
static enum step read_once(struct connection *connection, struct room *common, bool *is_drained) {
    if (!connection->in) {
        connection->in = common->spare ? common->spare : malloc(MOST_FRAME);
        common->spare = NULL;
    }
    if (!connection->in) return IS_OVER;
    size_t room = MOST_FRAME - connection->in_length;
    ssize_t got;
    do {
        got = take(connection, connection->in + connection->in_length, room);
    } while (got < 0 && errno == EINTR);
    *is_drained = !connection->secure && got > 0 && (size_t)got < room;
    if (got < 0) return errno == EAGAIN || errno == EWOULDBLOCK ? RESTS : IS_OVER;
    connection->in_length += (size_t)got;
    return got == 0 ? IS_OVER : GOES_ON;
}

/* A silent connection has no buffer: the next one that reads takes it. */
static void give_back(struct connection *connection, struct room *room) {
    if (connection->in_length != 0) return;
    if (room->spare)
        free(connection->in);
    else
        room->spare = connection->in;
    connection->in = NULL;
}

/* Goes on with the handshake. RESTS: it waits for the client. */
static enum step shake(struct connection *connection, const struct room *room) {
    if (!connection->shakes) return GOES_ON;
    enum pagelog_shake shake = pagelog_secure_shake(connection->secure);
    connection->shakes_out = shake == SHAKE_WRITES;
    if (shake == SHAKE_READS || shake == SHAKE_WRITES) return RESTS;
    if (shake == SHAKE_FAILED || !shown_lets_in(room->shown, connection->secure)) return IS_OVER;
    connection->shakes = false;
    return GOES_ON;
}

bool connection_turn(struct connection *connection, struct room *room) {
    enum step shaken = shake(connection, room);
    if (shaken != GOES_ON) return shaken == RESTS;
    bool is_drained = false;
    enum step step = send_left(connection), read = GOES_ON;
    connection->is_cut = false;
    for (int round = 0; step == GOES_ON && read == GOES_ON && !connection->is_over; round++) {
        if ((connection->is_cut = round == ROUNDS)) break;
        uint8_t *end = room->out;
        enum step answered = connection->in ? answer_frames(connection, room, &end) : RESTS;
        connection->is_over = answered == IS_OVER;
        step = send_replies(connection, room->out, (size_t)(end - room->out));
        if (connection->wanted) break;
        if (step == GOES_ON && answered == RESTS)
            read = is_drained ? RESTS : read_once(connection, room, &is_drained);
        if (read == IS_OVER) connection->is_over = true;
    }
    give_back(connection, room);
    return step == RESTS || (step == GOES_ON && !connection->is_over);
}
