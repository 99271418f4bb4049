/* The connection: how it is opened, ended, and waited for. */
#include "pagelog_connection.h"

#include <errno.h>
#include <fcntl.h>
#include <netdb.h>
#include <netinet/tcp.h>
#include <poll.h>
#include <stdio.h>
#include <string.h>
#include <sys/socket.h>
#include <unistd.h>

/* For so long a wait asks nobody whether it may go on, and from then on so often. */
enum { FREE_MS = 1000, SLICE_MS = 10 };

void pagelog_abandon(struct pagelog *log) {
    int socket = log->socket;
    log->socket = -1; /* first: a fork() between the two must not leave the child a number that is free */
    if (socket >= 0) close(socket);
    struct pagelog_secure *secure = log->secure;
    log->secure = NULL;
    if (secure && *pagelog_secure_why(secure))
        snprintf(log->why, sizeof log->why, "%s", pagelog_secure_why(secure));
    pagelog_secure_end(secure);
}

void pagelog_disconnect(struct pagelog *log) {
    pagelog_abandon(log);
    log->asked_count = log->unheard = 0;
    memset(log->coming, 0, sizeof log->coming);
    log->ahead = (struct ahead){0};
    log->waits = false;
    log->lent_count = 0;
    empty(&log->output);
    empty(&log->input);
}

enum pagelog_outcome pagelog_distrust(struct pagelog *log) {
    pagelog_disconnect(log);
    return pagelog_fail(log, PAGELOG_MALFORMED);
}

enum pagelog_outcome pagelog_lose(struct pagelog *log) {
    pagelog_disconnect(log);
    return pagelog_fail(log, PAGELOG_LOST);
}

/* ---- Waiting ---- */

void pagelog_set_waiting(struct pagelog *log, bool (*goes_on)(void *argument), void *argument) {
    log->waiter = (struct pagelog_waiter){.goes_on = goes_on, .argument = argument};
}

bool pagelog_waits_on(struct pagelog_waiter *waiter) {
    if (!waiter->goes_on || waiter->is_given_up) return !waiter->is_given_up;
    if (waiter->free == 0) waiter->free = pagelog_after(FREE_MS);
    if (pagelog_now() >= waiter->free) waiter->is_given_up = !waiter->goes_on(waiter->argument);
    return !waiter->is_given_up;
}

bool pagelog_goes_on(struct pagelog *log) {
    return pagelog_waits_on(&log->waiter);
}

bool pagelog_wait_for(struct pagelog *log, int socket, short events, uint64_t deadline, short *ready) {
    if ((events & POLLIN) && log->secure && pagelog_secure_holds(log->secure)) {
        *ready = POLLIN;
        return true;
    }
    for (;;) {
        uint64_t now = pagelog_now(), most = log->waiter.goes_on ? SLICE_MS : 1000000;
        struct pollfd fd = {.fd = socket, .events = events};
        if (now >= deadline || log->waiter.is_given_up) return false;
        uint64_t left = deadline - now;
        int count = poll(&fd, 1, (int)(left < most ? left : most));
        if (count < 0 && errno != EINTR) return false;
        if (count > 0) {
            *ready = fd.revents;
            return true;
        }
        if (!pagelog_waits_on(&log->waiter)) return false;
    }
}

/* ---- Connecting ---- */

static bool finish_connect(struct pagelog *log, int fd, uint64_t deadline) {
    short ready;
    int error = 0;
    socklen_t size = sizeof error;
    if (!pagelog_wait_for(log, fd, POLLOUT, deadline, &ready)) return false;
    return getsockopt(fd, SOL_SOCKET, SO_ERROR, &error, &size) == 0 && error == 0;
}

/* Lets a receive wait by itself for `ms`, or as long as nobody is asked: one call of the system for each
 * wait. */
static bool may_wait(int fd, unsigned ms) {
    if (ms > FREE_MS) ms = FREE_MS;
    struct timeval most = {.tv_sec = ms / 1000, .tv_usec = ms % 1000 * 1000};
    return setsockopt(fd, SOL_SOCKET, SO_RCVTIMEO, &most, sizeof most) == 0 && fcntl(fd, F_SETFL, 0) == 0;
}

/* The handshake over a connected socket. */
static bool shake_hands(struct pagelog *log, int fd, uint64_t deadline) {
    enum pagelog_shake shake = SHAKE_FAILED;
    short ready;
    log->secure = pagelog_secure_begin(log->options.tls, fd, log->host, log->port);
    if (!log->secure) snprintf(log->why, sizeof log->why, "TLS with %s cannot be begun", log->host);
    while (log->secure && (shake = pagelog_secure_shake(log->secure)) != SHAKE_DONE) {
        short events = shake == SHAKE_READS ? POLLIN : POLLOUT;
        if (shake == SHAKE_FAILED || !pagelog_wait_for(log, fd, events, deadline, &ready)) break;
    }
    if (shake == SHAKE_READS || shake == SHAKE_WRITES)
        snprintf(log->why, sizeof log->why, "TLS with %s: its handshake did not come in time", log->host);
    return shake == SHAKE_DONE;
}

/* A connected socket to one of the addresses, or -1. */
static int connect_to(struct pagelog *log, const struct addrinfo *address, uint64_t deadline) {
    int one = 1;
    int fd =
        socket(address->ai_family, address->ai_socktype | SOCK_NONBLOCK | SOCK_CLOEXEC, address->ai_protocol);
    if (fd < 0) return -1;
    setsockopt(fd, IPPROTO_TCP, TCP_NODELAY, &one, sizeof one);
    bool is_open = connect(fd, address->ai_addr, address->ai_addrlen) == 0;
    if (!is_open) is_open = errno == EINPROGRESS && finish_connect(log, fd, deadline);
    if (is_open && (!log->options.tls || shake_hands(log, fd, deadline))) return fd;
    close(fd);
    pagelog_abandon(log); /* of a handshake that has failed */
    return -1;
}

static unsigned count_of(const struct addrinfo *found) {
    unsigned count = 0;
    for (; found; found = found->ai_next)
        count++;
    return count;
}

/* A connected socket to the first of the addresses that can be had, or -1. One that is silent leaves the
 * others their share of the time. */
static int connect_to_any(struct pagelog *log, const struct addrinfo *found, uint64_t deadline) {
    int fd = -1;
    for (; found && fd < 0; found = found->ai_next) {
        uint64_t now = pagelog_now(), left = now < deadline ? deadline - now : 0;
        fd = connect_to(log, found, now + left / count_of(found));
    }
    return fd;
}

enum pagelog_outcome pagelog_ensure_connected(struct pagelog *log) {
    struct addrinfo hints = {.ai_family = AF_UNSPEC, .ai_socktype = SOCK_STREAM}, *found = NULL;
    if (log->waiter.is_given_up || !log->host) return pagelog_fail(log, PAGELOG_LOST);
    if (log->socket >= 0) return PAGELOG_DONE;
    uint64_t deadline = pagelog_after(log->options.connect_ms);
    *log->why = 0;
    if (getaddrinfo(log->host, log->port, &hints, &found) != 0) return pagelog_fail(log, PAGELOG_LOST);
    log->socket = connect_to_any(log, found, deadline);
    freeaddrinfo(found);
    if (log->socket < 0 || !may_wait(log->socket, log->options.reply_ms))
        return pagelog_fail(log, PAGELOG_LOST);
    *log->why = 0;
    log->counts.connects++;
    return log->witness.lsn > 0 ? pagelog_confirm(log) : PAGELOG_DONE;
}

enum pagelog_outcome pagelog_connect(struct pagelog *log) {
    struct pagelog_patience patience = pagelog_patience_of(log);
    for (;;) {
        enum pagelog_outcome outcome =
            pagelog_is_own(log) ? pagelog_ensure_connected(log) : PAGELOG_MALFORMED;
        if (outcome == PAGELOG_DONE) return outcome;
        pagelog_disconnect(log);
        if (outcome != PAGELOG_LOST || !pagelog_may_try_again(&patience)) return outcome;
    }
}

void pagelog_peer(const struct pagelog *log, char *text, size_t room) {
    struct sockaddr_storage address;
    socklen_t length = sizeof address;
    char host[NI_MAXHOST], port[NI_MAXSERV];
    *text = 0;
    if (log->socket < 0 || getpeername(log->socket, (struct sockaddr *)&address, &length) != 0) return;
    if (getnameinfo((struct sockaddr *)&address, length, host, sizeof host, port, sizeof port,
                    NI_NUMERICHOST | NI_NUMERICSERV) == 0)
        snprintf(text, room, strchr(host, ':') ? "[%s]:%s" : "%s:%s", host, port);
}
