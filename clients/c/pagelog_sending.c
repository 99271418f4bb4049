/* Bytes over a connection: what is queued and lent is sent, and what comes is read. */
#include "pagelog_connection.h"

#include <errno.h>
#include <poll.h>
#include <stdlib.h>
#include <string.h>
#include <sys/socket.h>
#include <sys/uio.h>

enum { READ_AT_ONCE = 65536, MOST_PIECES = 2 * MOST_LENT + 1 };

bool pagelog_reserve(struct buffer *buffer, size_t wanted) {
    if (buffer->start == buffer->end) buffer->start = buffer->end = 0;
    if (buffer->room - buffer->end >= wanted) return true;
    if (buffer->start > 0 && buffer->start >= held(buffer)) {
        memmove(buffer->bytes, buffer->bytes + buffer->start, held(buffer));
        buffer->end -= buffer->start;
        buffer->start = 0;
        if (buffer->room - buffer->end >= wanted) return true;
    }
    size_t room = buffer->end + wanted > 2 * buffer->room ? buffer->end + wanted : 2 * buffer->room;
    uint8_t *bytes = realloc(buffer->bytes, room);
    if (!bytes) return false;
    buffer->bytes = bytes;
    buffer->room = room;
    return true;
}

/* ---- What is lent ---- */

size_t pagelog_lent_bytes(const struct pagelog *log) {
    size_t bytes = 0;
    for (size_t i = 0; i < log->lent_count; i++)
        bytes += log->lent[i].length;
    return bytes;
}

/* The pieces of what is to be sent, in order; how many. */
static size_t pieces_of(const struct pagelog *log, struct iovec pieces[MOST_PIECES]) {
    const struct buffer *output = &log->output;
    size_t count = 0, done = 0;
    for (size_t i = 0; i <= log->lent_count; i++) {
        const struct lent *lent = i < log->lent_count ? &log->lent[i] : NULL;
        size_t until = lent ? lent->at : held(output);
        if (until > done)
            pieces[count++] = (struct iovec){output->bytes + output->start + done, until - done};
        if (lent) pieces[count++] = (struct iovec){(void *)lent->bytes, lent->length};
        done = until;
    }
    return count;
}

/* Copies what is lent to its place in the output, which has room for it. */
static void take_over_lent(struct pagelog *log) {
    struct buffer *output = &log->output;
    size_t from = output->end, to = from + pagelog_lent_bytes(log);
    output->end = to;
    while (log->lent_count > 0) {
        const struct lent *lent = &log->lent[--log->lent_count];
        size_t start = output->start + lent->at, behind = from - start;
        memmove(output->bytes + to - behind, output->bytes + start, behind);
        to -= behind + lent->length;
        memcpy(output->bytes + to, lent->bytes, lent->length);
        from = start;
    }
}

/* ---- Sending and reading ---- */

bool pagelog_read_some(struct pagelog *log, int flags) {
    struct buffer *input = &log->input;
    if (!pagelog_reserve(input, READ_AT_ONCE)) return false;
    uint8_t *to = input->bytes + input->end;
    size_t room = input->room - input->end;
    ssize_t count = log->secure ? pagelog_secure_receive(log->secure, to, room, flags)
                                : recv(log->socket, to, room, flags);
    if (count < 0) return errno == EAGAIN || errno == EWOULDBLOCK || errno == EINTR;
    input->end += (size_t)count;
    log->counts.bytes_received += (uint64_t)count;
    return count > 0;
}

ssize_t pagelog_put(struct pagelog *log, const void *bytes, size_t length) {
    if (log->secure) return pagelog_secure_send(log->secure, bytes, length, 0);
    return send(log->socket, bytes, length, MSG_NOSIGNAL | MSG_DONTWAIT);
}

/* Sends what it can of the output, and of what is lent. */
static ssize_t send_pieces(struct pagelog *log) {
    const struct buffer *output = &log->output;
    const int flags = MSG_NOSIGNAL | MSG_DONTWAIT;
    if (log->lent_count == 0) return pagelog_put(log, output->bytes + output->start, held(output));
    struct iovec pieces[MOST_PIECES];
    struct msghdr message = {.msg_iov = pieces, .msg_iovlen = pieces_of(log, pieces)};
    return sendmsg(log->socket, &message, flags);
}

/* Nothing is lent afterwards: what could not be sent is copied. */
static bool send_some(struct pagelog *log) {
    struct buffer *output = &log->output;
    if (log->secure) take_over_lent(log); /* what is encrypted is copied in any case */
    size_t lent = pagelog_lent_bytes(log), all = held(output) + lent;
    ssize_t count = send_pieces(log);
    bool goes_on = count >= 0 || errno == EAGAIN || errno == EWOULDBLOCK || errno == EINTR;
    size_t sent = count > 0 ? (size_t)count : 0;
    if (sent < all)
        take_over_lent(log);
    else
        log->lent_count = 0;
    output->start += sent < all ? sent : all - lent;
    log->counts.bytes_sent += sent;
    if (count >= 0) log->waits = true;
    return goes_on;
}

void pagelog_push(struct pagelog *log) {
    if (log->socket >= 0 && held(&log->output) > 0 && pagelog_is_own(log)) send_some(log);
    take_over_lent(log);
}

bool pagelog_is_pushed(const struct pagelog *log) {
    return log->socket >= 0 && held(&log->output) == 0;
}

enum pagelog_outcome pagelog_flush(struct pagelog *log) {
    if (!pagelog_is_own(log)) return pagelog_distrust(log);
    enum pagelog_outcome outcome = pagelog_ensure_connected(log);
    if (outcome != PAGELOG_DONE) pagelog_disconnect(log);
    if (outcome != PAGELOG_DONE) return outcome;
    if (held(&log->output) == 0) return PAGELOG_DONE;
    if (!send_some(log)) return pagelog_lose(log);
    if (held(&log->output) == 0) return PAGELOG_DONE;
    uint64_t deadline = pagelog_after(log->options.reply_ms);
    while (held(&log->output) > 0) {
        short ready, events = POLLOUT;
        if (held(&log->input) < MOST_INPUT) events |= POLLIN;
        if (!pagelog_wait_for(log, log->socket, events, deadline, &ready)) return pagelog_lose(log);
        if ((ready & (POLLIN | POLLHUP | POLLERR)) && !pagelog_read_some(log, MSG_DONTWAIT))
            return pagelog_lose(log);
        if (!send_some(log)) return pagelog_lose(log);
    }
    return PAGELOG_DONE;
}
