/* The connection to a page server: requests go out in one piece, and replies are counted as they come. */
#include "pagelog_copy.h"

#include "pagelog_common.h"

#include <errno.h>
#include <poll.h>
#include <stdlib.h>
#include <string.h>
#include <sys/socket.h>

enum {
    FRAME_HEAD = 4,
    MOST_REPLY = 9 + PAGELOG_PAGE_BYTES, /* the body of a page, which is the longest one */
    MOST_REQUEST = FRAME_HEAD + 64,      /* of a get, or a status */
    READ_AT_ONCE = 65536,
};

bool pagelog_copy_begin(struct pagelog_copy *copy, const struct pagelog_page_server *server,
                        const uint8_t token[PAGELOG_TOKEN_BYTES], struct pagelog_tls *tls) {
    *copy = (struct pagelog_copy){.server = *server};
    copy->line = (struct pagelog_line){.socket = -1, .tls = tls, .is_bare = true};
    memcpy(copy->token, token, PAGELOG_TOKEN_BYTES);
    return pagelog_line_set_address(&copy->line, server->address, strlen(server->address));
}

void pagelog_copy_end(struct pagelog_copy *copy) {
    pagelog_line_leave(&copy->line);
    free(copy->frames);
    free(copy->input);
    copy->frames = copy->input = NULL;
    copy->room = copy->input_room = copy->come = 0;
}

/* Makes room for so many bytes in all; what is there stays. */
static bool reserve(uint8_t **bytes, size_t *room, size_t wanted) {
    if (*room >= wanted) return true;
    uint8_t *more = realloc(*bytes, wanted);
    if (!more) return false;
    *bytes = more;
    *room = wanted;
    return true;
}

/* ---- Asking ---- */

static void add_request(struct pagelog_copy *copy, const struct pagelog_request *request) {
    uint8_t *frame = copy->frames + copy->length;
    size_t length = pagelog_encode_request(request, frame + FRAME_HEAD, MOST_REQUEST - FRAME_HEAD);
    pagelog_write_number(frame, length, FRAME_HEAD);
    copy->length += FRAME_HEAD + length;
    copy->replies++;
}

/* Opens a connection where there is none. What was proved over another one is so no more. */
static bool connect_anew(struct pagelog_copy *copy) {
    pagelog_line_ask(&copy->line);
    copy->was_open = copy->connects == copy->line.connects;
    if (!copy->was_open) copy->proved.number = 0;
    copy->connects = copy->line.connects;
    return copy->line.is_asked;
}

bool pagelog_copy_ask(struct pagelog_copy *copy, const struct pagelog_options *reader,
                      struct pagelog_position base, const uint32_t *pages, size_t count) {
    struct pagelog_request request = {.principal = reader->principal,
                                      .role = PAGELOG_SECONDARY,
                                      .database = reader->database,
                                      .epoch = 1,
                                      .operation = PAGELOG_STATUS};
    memcpy(request.token, copy->token, PAGELOG_TOKEN_BYTES);
    if (!reserve(&copy->frames, &copy->room, (count + 2) * MOST_REQUEST) || !connect_anew(copy)) return false;
    copy->length = copy->replies = copy->come = 0;
    copy->base = base;
    copy->has_proof = is_before(copy->proved, base);
    copy->is_heard = false;
    add_request(copy, &request);
    request.operation = PAGELOG_GET;
    request.lsn = base.number; /* a page server has no shift */
    request.exact = 1;
    if (copy->has_proof) add_request(copy, &request);
    for (size_t i = 0; i < count && !is_none(base); i++) {
        request.page = pages[i];
        add_request(copy, &request);
    }
    copy->asked_ns = pagelog_now_ns();
    return true;
}

/* ---- Replies ---- */

/* How many replies are whole; `*is_good` says whether what has come may be replies. */
static size_t count_whole(const struct pagelog_copy *copy, bool *is_good) {
    size_t at = 0, count = 0;
    *is_good = true;
    while (copy->come - at >= FRAME_HEAD) {
        size_t length = (size_t)pagelog_read_number(copy->input + at, FRAME_HEAD);
        *is_good = length > 0 && length <= MOST_REPLY && count < copy->replies;
        if (!*is_good || copy->come - at < FRAME_HEAD + length) break;
        at += FRAME_HEAD + length;
        count++;
    }
    if (count == copy->replies && at < copy->come) *is_good = false; /* nobody has asked for more */
    return count;
}

bool pagelog_copy_is_answered(const struct pagelog_copy *copy) {
    bool is_good;
    return count_whole(copy, &is_good) == copy->replies && is_good;
}

bool pagelog_copy_next(const struct pagelog_copy *copy, size_t *at, struct pagelog_reply *reply) {
    size_t length = (size_t)pagelog_read_number(copy->input + *at, FRAME_HEAD);
    const uint8_t *body = copy->input + *at + FRAME_HEAD;
    *at += FRAME_HEAD + length;
    return pagelog_decode_reply(body, length, reply) == 0;
}

/* Notes how long the first bytes took: of an open connection, so that it says how near the server is. */
static void note_time(struct pagelog_copy *copy) {
    uint64_t took = pagelog_now_ns() - copy->asked_ns + 1;
    if (copy->is_heard || !copy->was_open) return;
    copy->usual_ns = copy->usual_ns == 0 ? took : (3 * copy->usual_ns + took) / 4;
}

static bool read_some(struct pagelog_copy *copy) {
    struct pagelog_line *line = &copy->line;
    bool is_good;
    if (!reserve(&copy->input, &copy->input_room, copy->come + READ_AT_ONCE)) return false;
    uint8_t *to = copy->input + copy->come;
    size_t room = copy->input_room - copy->come;
    ssize_t count = line->secure ? pagelog_secure_receive(line->secure, to, room, MSG_DONTWAIT)
                                 : recv(line->socket, to, room, MSG_DONTWAIT);
    if (count < 0) return errno == EAGAIN || errno == EWOULDBLOCK || errno == EINTR;
    if (count > 0) note_time(copy);
    copy->is_heard = true;
    copy->come += (size_t)count;
    count_whole(copy, &is_good);
    return count > 0 && is_good;
}

bool pagelog_copy_go_on(struct pagelog_copy *copy, short ready) {
    struct pagelog_line *line = &copy->line;
    if (ready && pagelog_line_has_more(line, copy->length))
        return pagelog_line_send(line, (const char *)copy->frames, copy->length);
    if ((ready || pagelog_line_holds(line)) && !line->is_connecting) return read_some(copy);
    return true;
}

void pagelog_copy_leave(struct pagelog_copy *copy) {
    bool is_whole = copy->line.is_asked && pagelog_copy_is_answered(copy);
    copy->line.is_asked = false;
    if (!is_whole) pagelog_line_leave(&copy->line);
}
