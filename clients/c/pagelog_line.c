/* One connection to a keeper: how it is opened, asked and read. */
#include "pagelog_line.h"

#include "pagelog_common.h"

#include <errno.h>
#include <netdb.h>
#include <netinet/tcp.h>
#include <poll.h>
#include <stdio.h>
#include <string.h>
#include <sys/socket.h>
#include <unistd.h>

enum {
    CONNECT_MS = 1000, /* for all addresses of a host together */
    LOOK_MS = 10,      /* after what has come last, no look whether the connection has ended */
};

static const char greeting[] = "hello 2\n";

/* Splits "HOST:PORT" or "[HOST]:PORT". */
bool pagelog_line_set_address(struct pagelog_line *line, const char *text, size_t length) {
    const char *colon = memrchr(text, ':', length);
    size_t host = colon ? (size_t)(colon - text) : 0, port = colon ? length - host - 1 : 0;
    if (host > 2 && text[0] == '[' && text[host - 1] == ']') {
        text++;
        host -= 2;
    }
    if (host == 0 || host >= sizeof line->host || port == 0 || port >= sizeof line->port) return false;
    snprintf(line->host, sizeof line->host, "%.*s", (int)host, text);
    snprintf(line->port, sizeof line->port, "%.*s", (int)port, colon + 1);
    return true;
}

/* Closes a connection; what it has not answered is answered by nobody. */
void pagelog_line_leave(struct pagelog_line *line) {
    int socket = line->socket;
    line->socket = -1; /* first: a fork() between the two must not leave the child a number that is free */
    if (socket >= 0) close(socket);
    struct pagelog_secure *secure = line->secure;
    line->secure = NULL;
    if (secure && *pagelog_secure_why(secure))
        snprintf(line->why, sizeof line->why, "%s", pagelog_secure_why(secure));
    pagelog_secure_end(secure);
    line->is_asked = line->is_connecting = line->is_shaking = line->awaits_shake = line->is_believed = false;
    line->unheard = line->version = 0;
    line->length = line->greeted = line->proving_length = line->proving_sent = 0;
    line->nonce[0] = line->proved[0] = 0;
}

static void connect_to(struct pagelog_line *line, const struct addrinfo *at) {
    int one = 1;
    line->socket = socket(at->ai_family, at->ai_socktype | SOCK_NONBLOCK | SOCK_CLOEXEC, at->ai_protocol);
    if (line->socket < 0) return;
    line->connects++;
    setsockopt(line->socket, IPPROTO_TCP, TCP_NODELAY, &one, sizeof one);
    bool is_open = connect(line->socket, at->ai_addr, at->ai_addrlen) == 0;
    if (!is_open && errno != EINPROGRESS) return pagelog_line_leave(line);
    line->is_shaking = line->tls != NULL;
    line->is_connecting = !is_open || line->is_shaking;
}

/* Begins to connect, to the first address of its host that has not refused yet. */
static void begin_connect(struct pagelog_line *line) {
    struct addrinfo hints = {.ai_family = AF_UNSPEC, .ai_socktype = SOCK_STREAM}, *found = NULL;
    unsigned number = 0;
    if (getaddrinfo(line->host, line->port, &hints, &found) != 0) return;
    for (struct addrinfo *at = found; at; at = at->ai_next, number++) {
        if (number < line->refused || line->socket >= 0) continue;
        connect_to(line, at);
        line->refused = number;
    }
    line->until = pagelog_after(CONNECT_MS / number);
    freeaddrinfo(found);
}

uint64_t pagelog_line_ends(const struct pagelog_line *line, uint64_t deadline) {
    return line->is_connecting && line->until < deadline ? line->until : deadline;
}

void pagelog_line_lose(struct pagelog_line *line) {
    bool was_refused = line->is_connecting, was_believed = line->is_believed;
    pagelog_line_leave(line);
    if (!was_refused && !was_believed) return;
    line->refused += was_refused;
    line->sent = 0;
    begin_connect(line);
    line->is_asked = line->socket >= 0;
}

/* Whether an open connection was ended by the keeper, which a question would find out too late. */
static bool has_ended(const struct pagelog_line *line) {
    char byte;
    if (line->secure) return pagelog_secure_has_ended(line->secure);
    ssize_t count = recv(line->socket, &byte, 1, MSG_PEEK | MSG_DONTWAIT);
    return count == 0 || (count < 0 && errno != EAGAIN && errno != EWOULDBLOCK && errno != EINTR);
}

static void ask(struct pagelog_line *line, bool is_believed) {
    if (line->socket >= 0 && !is_believed && has_ended(line)) pagelog_line_leave(line);
    line->is_believed = is_believed;
    line->refused = 0;
    line->is_silent = false;
    *line->why = 0;
    if (line->socket < 0) begin_connect(line);
    line->is_asked = line->socket >= 0;
    line->sent = 0;
}

void pagelog_line_ask(struct pagelog_line *line) {
    ask(line, false);
}

void pagelog_line_ask_on(struct pagelog_line *line) {
    bool is_open = line->socket >= 0 && !line->is_connecting;
    ask(line, is_open && pagelog_now() - line->heard < LOOK_MS);
}

/* Sends what has not left of a text, after `*sent` bytes of it. False where the connection is gone. */
static bool send_rest(const struct pagelog_line *line, const char *text, size_t length, size_t *sent,
                      int flags) {
    ssize_t count =
        line->secure ? pagelog_secure_send(line->secure, text + *sent, length - *sent, flags)
                     : send(line->socket, text + *sent, length - *sent, MSG_NOSIGNAL | MSG_DONTWAIT | flags);
    if (count < 0) return errno == EAGAIN || errno == EWOULDBLOCK || errno == EINTR;
    *sent += (size_t)count;
    return true;
}

/* Whether the answer to the greeting is waited for, which says what a proof is made of. */
static bool awaits_nonce(const struct pagelog_line *line) {
    return line->proof && line->version == 0;
}

/* Whether bytes of the greeting are still to leave. */
static bool has_to_greet(const struct pagelog_line *line) {
    return !line->is_bare && line->greeted < sizeof greeting - 1;
}

bool pagelog_line_has_more(const struct pagelog_line *line, size_t length) {
    if (line->is_connecting || has_to_greet(line)) return true;
    return line->sent < length && !awaits_nonce(line);
}

short pagelog_line_events(const struct pagelog_line *line, size_t length) {
    if (line->awaits_shake) return POLLIN;
    return pagelog_line_has_more(line, length) ? POLLOUT : POLLIN;
}

bool pagelog_line_holds(const struct pagelog_line *line) {
    return line->secure && !line->is_shaking && pagelog_secure_holds(line->secure);
}

/* Goes on with the handshake. False where it has failed. */
static bool shake_hands(struct pagelog_line *line) {
    if (!line->secure) line->secure = pagelog_secure_begin(line->tls, line->socket, line->host, line->port);
    enum pagelog_shake shake = line->secure ? pagelog_secure_shake(line->secure) : SHAKE_FAILED;
    line->is_shaking = shake != SHAKE_DONE;
    line->awaits_shake = shake == SHAKE_READS;
    return shake != SHAKE_FAILED;
}

/* Sends what has not left of the proof, which is made where there is something to be proved. */
static bool send_proof(struct pagelog_line *line) {
    if (line->proof && *line->nonce && !pagelog_was_proved(line->proof, line->proved)) {
        line->proving_length = pagelog_write_proof(line->proof, line->nonce, line->proving);
        line->proving_sent = 0;
        snprintf(line->proved, sizeof line->proved, "%s", line->proof->of);
    }
    if (line->proving_sent == line->proving_length) return true;
    return send_rest(line, line->proving, line->proving_length, &line->proving_sent, MSG_MORE);
}

/* Sends what has not left of the line. False where the connection is gone. */
bool pagelog_line_send(struct pagelog_line *line, const char *text, size_t length) {
    int error = 0;
    socklen_t size = sizeof error;
    if (line->is_connecting && !line->secure &&
        (getsockopt(line->socket, SOL_SOCKET, SO_ERROR, &error, &size) != 0 || error != 0))
        return false;
    if (line->is_shaking && !shake_hands(line)) return false;
    line->is_connecting = line->is_shaking;
    if (line->is_shaking) return true;
    size_t whole = sizeof greeting - 1;
    int more = awaits_nonce(line) ? 0 : MSG_MORE;
    if (has_to_greet(line) && !send_rest(line, greeting, whole, &line->greeted, more)) return false;
    if (has_to_greet(line) || awaits_nonce(line)) return true;
    if (!send_proof(line)) return false;
    return line->proving_sent < line->proving_length || send_rest(line, text, length, &line->sent, 0);
}

/* Reads what has come. False where the connection is gone, or what came is no line. */
bool pagelog_line_read(struct pagelog_line *line) {
    char *to = line->input + line->length;
    size_t room = sizeof line->input - line->length;
    if (line->is_shaking) return true;
    ssize_t count = line->secure ? pagelog_secure_receive(line->secure, to, room, MSG_DONTWAIT)
                                 : recv(line->socket, to, room, MSG_DONTWAIT);
    if (count < 0) return errno == EAGAIN || errno == EWOULDBLOCK || errno == EINTR;
    line->length += (size_t)count;
    line->heard = pagelog_now();
    return count > 0 && (line->length < sizeof line->input || memchr(line->input, '\n', line->length));
}

/* The version of a keeper by its answer to the greeting; one that knows none is of the first. */
static unsigned version_of(const char *answer) {
    unsigned version = 0;
    return sscanf(answer, "hello %6u", &version) == 1 && version > 0 ? version : 1;
}

/* Takes the next answer, without its end; false where it has not come. */
bool pagelog_line_take(struct pagelog_line *line, char text[PAGELOG_LINE_BYTES]) {
    char *end;
    while ((end = memchr(line->input, '\n', line->length))) {
        size_t length = (size_t)(end - line->input);
        memcpy(text, line->input, length);
        text[length] = 0;
        line->length -= length + 1;
        memmove(line->input, end + 1, line->length);
        if (line->version == 0) {
            line->version = version_of(text);
            pagelog_read_nonce(text, line->nonce);
            continue;
        }
        if (line->unheard == 0) return true;
        line->unheard--;
    }
    return false;
}
