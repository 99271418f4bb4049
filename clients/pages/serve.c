#include "serve.h"

#include "connection.h"

#include <errno.h>
#include <fcntl.h>
#include <netinet/in.h>
#include <netinet/tcp.h>
#include <pthread.h>
#include <stdatomic.h>
#include <stdlib.h>
#include <string.h>
#include <sys/epoll.h>
#include <sys/eventfd.h>
#include <sys/socket.h>
#include <time.h>
#include <unistd.h>

enum { EVENTS = 64, OLD_TABLES = 16, LOOK_WAIT_US = 100, REST_MS = 1000 };

/* A connection on its way to the worker that keeps it; where there are as many as may be one of those ends
 * for it. */
struct arrival {
    int socket;
    bool is_secure, needs_room;
};

struct worker {
    struct server *server;
    pthread_t thread;
    int poll, bell;
    int inbox, its_inbox;  /* the two ends of a pipe of arrivals */
    _Atomic unsigned held; /* connections that are its own, or on their way */
    struct room room;
    struct connection connections; /* a ring, of which this is no member: who was silent longest is first */
    struct connection *next;       /* of a walk: what is closed is no member any more */
    _Atomic int64_t first_heard;   /* when its first one was heard */
    unsigned era;
    _Atomic unsigned waiting;
    atomic_bool is_busy; /* it may read a table */
};

struct server {
    struct server_settings settings;
    struct table *_Atomic table;
    _Atomic unsigned era; /* rises where all connections end */
    _Atomic unsigned open;
    atomic_bool ends;
    struct table *old[OLD_TABLES]; /* that a thread may still read */
    unsigned olds, workers;
    struct worker *worker;
    struct ahead *ahead;
};

static int64_t now_ms(void) {
    struct timespec now;
    clock_gettime(CLOCK_MONOTONIC, &now);
    return now.tv_sec * 1000LL + now.tv_nsec / 1000000;
}

static void ring(struct worker *worker) {
    uint64_t one = 1;
    ssize_t written = write(worker->bell, &one, sizeof one);
    (void)written; /* a full counter rings too */
}

/* Which events a connection is polled for: none of its requests while one waits, nor while it does not take
 * its replies. */
static void watch(struct worker *worker, struct connection *connection, int how) {
    bool sends = connection->out || connection->shakes_out || connection->is_cut;
    uint32_t events = sends ? EPOLLOUT : connection->wanted ? 0 : EPOLLIN;
    if (how == EPOLL_CTL_MOD && events == connection->watched) return;
    connection->watched = events;
    struct epoll_event event = {.events = events, .data.ptr = connection};
    epoll_ctl(worker->poll, how, connection->socket, &event);
}

/* One connection less. */
static void let_go(struct worker *worker) {
    worker->held--;
    worker->server->open--;
}

static void forget(struct worker *worker, struct connection *connection) {
    if (connection->wanted) worker->waiting--;
    if (worker->next == connection) worker->next = connection->after;
    connection->before->after = connection->after;
    connection->after->before = connection->before;
    connection_close(connection);
    let_go(worker);
}

static void link_last(struct worker *worker, struct connection *connection) {
    connection->before = worker->connections.before;
    connection->after = &worker->connections;
    connection->before->after = connection;
    worker->connections.before = connection;
}

/* It has sent something, or taken something. */
static void note_heard(struct worker *worker, struct connection *connection) {
    connection->heard = worker->room.now;
    connection->before->after = connection->after;
    connection->after->before = connection->before;
    link_last(worker, connection);
}

/* The connection that was silent longest of those that wait for nothing; NULL: there is none. */
static struct connection *first_silent(struct worker *worker) {
    struct connection *one = worker->connections.after;
    while (one != &worker->connections && one->wanted)
        one = one->after;
    return one == &worker->connections ? NULL : one;
}

static void tell_first(struct worker *worker) {
    const struct connection *first = first_silent(worker);
    worker->first_heard = first ? first->heard : INT64_MAX;
}

/* False: none was silent for long enough. */
static bool end_silent(struct worker *worker) {
    struct connection *first = first_silent(worker);
    if (!first || worker->room.now - first->heard < worker->server->settings.silent_ms) return false;
    forget(worker, first);
    tell_first(worker);
    return true;
}

static void turn(struct worker *worker, struct connection *connection) {
    bool did_wait = connection->wanted != 0;
    if (!worker->room.table || !connection_turn(connection, &worker->room)) {
        if (!did_wait && connection->wanted) worker->waiting++;
        if (did_wait && !connection->wanted) worker->waiting--;
        forget(worker, connection);
        return;
    }
    if (!did_wait && connection->wanted) worker->waiting++;
    if (did_wait && !connection->wanted) worker->waiting--;
    if (did_wait) note_heard(worker, connection);
    watch(worker, connection, EPOLL_CTL_MOD);
}

/* A connection of the socket, or NULL without memory; `shown` NULL: without TLS. */
static struct connection *made_of(int socket, struct shown *shown) {
    struct connection *connection = calloc(1, sizeof *connection);
    if (!connection) return NULL;
    connection->socket = socket;
    connection->secure = shown ? shown_begin(shown, socket) : NULL;
    connection->shakes = shown != NULL;
    if (!shown || connection->secure) return connection;
    free(connection);
    return NULL;
}

/* Before there is a table a connection ends as it comes, and where there is no room for it. */
static void keep(struct worker *worker, struct arrival arrival) {
    struct shown *shown = arrival.is_secure ? worker->server->settings.shown : NULL;
    bool is_full = arrival.needs_room && worker->server->open > worker->server->settings.connections;
    bool has_room = worker->room.table && (!is_full || end_silent(worker));
    struct connection *connection = has_room ? made_of(arrival.socket, shown) : NULL;
    int one = 1;
    if (!connection) {
        close(arrival.socket);
        let_go(worker);
        return;
    }
    setsockopt(arrival.socket, IPPROTO_TCP, TCP_NODELAY, &one, sizeof one);
    connection->heard = worker->room.now;
    link_last(worker, connection);
    watch(worker, connection, EPOLL_CTL_ADD);
}

/* The one with the fewest connections: one that reads of the disk holds up its others. */
static struct worker *least_busy(struct worker *worker) {
    struct server *server = worker->server;
    struct worker *least = worker;
    for (unsigned n = 0; n < server->workers; n++) {
        if (server->worker[n].held < least->held) least = &server->worker[n];
    }
    return least;
}

/* The one that has the connection that was silent longest. */
static struct worker *most_silent(struct worker *worker) {
    struct server *server = worker->server;
    struct worker *most = worker;
    for (unsigned n = 0; n < server->workers; n++) {
        if (server->worker[n].first_heard < most->first_heard) most = &server->worker[n];
    }
    return most;
}

static void accept_one(struct worker *worker, int listener, bool is_secure) {
    struct server *server = worker->server;
    struct arrival arrival = {accept4(listener, NULL, NULL, SOCK_NONBLOCK | SOCK_CLOEXEC), is_secure, false};
    if (arrival.socket < 0) return;
    arrival.needs_room = server->open++ >= server->settings.connections;
    struct worker *taker = arrival.needs_room ? most_silent(worker) : least_busy(worker);
    taker->held++;
    if (taker == worker) {
        keep(worker, arrival);
    } else if (write(taker->its_inbox, &arrival, sizeof arrival) != sizeof arrival) {
        close(arrival.socket);
        let_go(taker);
    }
}

static void take_in(struct worker *worker) {
    struct arrival arrival;
    while (read(worker->inbox, &arrival, sizeof arrival) == sizeof arrival)
        keep(worker, arrival);
}

/* Those that wait, and have it or have waited long enough: after that one may wait for the next. */
static void turn_waiting(struct worker *worker) {
    uint64_t confirmed = store_confirmed(worker->room.store);
    struct connection *end = &worker->connections;
    for (struct connection *one = end->after; one != end; one = worker->next) {
        worker->next = one->after;
        if (one->wanted && (one->wanted <= confirmed || one->deadline <= worker->room.now)) turn(worker, one);
    }
}

/* When the first of those that wait has waited long enough; -1: none waits. */
static int64_t first_deadline(const struct worker *worker) {
    int64_t first = -1;
    const struct connection *end = &worker->connections;
    for (const struct connection *one = end->after; one != end; one = one->after) {
        if (one->wanted && (first < 0 || one->deadline < first)) first = one->deadline;
    }
    return first;
}

static void end_all(struct worker *worker) {
    while (worker->connections.after != &worker->connections)
        forget(worker, worker->connections.after);
}

/* True: all connections have ended, and events that were told are of none. */
static bool look_around(struct worker *worker) {
    unsigned era = worker->server->era;
    bool is_another = era != worker->era;
    if (is_another) end_all(worker);
    worker->era = era;
    room_look(&worker->room);
    worker->room.now = now_ms();
    return is_another;
}

static void hear(struct worker *worker, const struct epoll_event *event) {
    struct server_settings *settings = &worker->server->settings;
    uint64_t rung;
    if (event->data.ptr == worker) {
        ssize_t got = read(worker->bell, &rung, sizeof rung);
        (void)got;
    } else if (event->data.ptr == &worker->inbox) {
        take_in(worker);
    } else if (event->data.ptr == &settings->listener) {
        accept_one(worker, settings->listener, false);
    } else if (event->data.ptr == &settings->secure_listener) {
        accept_one(worker, settings->secure_listener, true);
    } else if (event->events & (EPOLLERR | EPOLLHUP)) {
        forget(worker, event->data.ptr);
    } else {
        note_heard(worker, event->data.ptr);
        turn(worker, event->data.ptr);
    }
}

/* Whether a connection comes by it, for which another one may end: what was told of that is heard before. */
static bool is_door(const struct worker *worker, const struct epoll_event *event) {
    const struct server_settings *settings = &worker->server->settings;
    const void *of = event->data.ptr;
    return of == &worker->inbox || of == &settings->listener || of == &settings->secure_listener;
}

/* How long a worker may sleep, in milliseconds; -1: for ever. Where its view holds something that is a
 * second. */
static int most_sleep(int64_t deadline, bool holds) {
    int64_t left = deadline < 0 ? REST_MS : deadline - now_ms();
    if (deadline < 0 && !holds) return -1;
    return left < 0 ? 0 : (int)left;
}

static void *work(void *given) {
    struct worker *worker = given;
    struct epoll_event events[EVENTS];
    int64_t deadline = -1;
    bool holds = false;
    pthread_setname_np(pthread_self(), "worker");
    while (!worker->server->ends) {
        int count = epoll_wait(worker->poll, events, EVENTS, most_sleep(deadline, holds));
        worker->is_busy = true;
        if (look_around(worker)) count = 0; /* those that are left come again */
        for (int n = 0; n < count; n++)
            if (!is_door(worker, &events[n])) hear(worker, &events[n]);
        for (int n = 0; n < count; n++)
            if (is_door(worker, &events[n])) hear(worker, &events[n]);
        if (worker->waiting) turn_waiting(worker);
        deadline = worker->waiting ? first_deadline(worker) : -1;
        holds = store_view_rest(worker->room.view);
        tell_first(worker);
        worker->is_busy = false;
    }
    end_all(worker);
    return NULL;
}

/* Of a worker whose thread has ended, and no other's goes on. */
static void free_worker(struct worker *worker) {
    struct arrival arrival;
    while (worker->inbox >= 0 && read(worker->inbox, &arrival, sizeof arrival) == sizeof arrival)
        close(arrival.socket);
    if (worker->inbox >= 0) close(worker->inbox);
    if (worker->its_inbox >= 0) close(worker->its_inbox);
    if (worker->poll >= 0) close(worker->poll);
    if (worker->bell >= 0) close(worker->bell);
    store_view_free(worker->room.view);
    free(worker->room.out);
    free(worker->room.spare);
}

/* Hears of who comes to a listener, if there is one. */
static bool hear_at(const struct worker *worker, int *listener) {
    struct epoll_event door = {.events = EPOLLIN | EPOLLEXCLUSIVE, .data.ptr = listener};
    return *listener < 0 || epoll_ctl(worker->poll, EPOLL_CTL_ADD, *listener, &door) == 0;
}

static bool start_worker(struct server *server, struct worker *worker) {
    int pipe[2] = {-1, -1};
    *worker = (struct worker){.server = server, .bell = eventfd(0, EFD_NONBLOCK | EFD_CLOEXEC)};
    worker->first_heard = INT64_MAX;
    if (pipe2(pipe, O_NONBLOCK | O_CLOEXEC) != 0) pipe[0] = pipe[1] = -1;
    worker->inbox = pipe[0];
    worker->its_inbox = pipe[1];
    worker->poll = epoll_create1(EPOLL_CLOEXEC);
    worker->connections.before = worker->connections.after = &worker->connections;
    worker->room = (struct room){.store = server->settings.store, .wait_ms = server->settings.wait_ms};
    worker->room.shown = server->settings.shown;
    worker->room.ahead = server->ahead;
    worker->room.newest = &server->table;
    worker->room.view = store_view_new(server->settings.store);
    worker->room.out = malloc(OUT_ROOM);
    struct epoll_event bell = {.events = EPOLLIN, .data.ptr = worker};
    struct epoll_event inbox = {.events = EPOLLIN, .data.ptr = &worker->inbox};
    bool is_ready = worker->bell >= 0 && worker->poll >= 0 && worker->room.view && worker->room.out;
    is_ready = is_ready && epoll_ctl(worker->poll, EPOLL_CTL_ADD, worker->bell, &bell) == 0;
    is_ready =
        is_ready && worker->inbox >= 0 && epoll_ctl(worker->poll, EPOLL_CTL_ADD, worker->inbox, &inbox) == 0;
    is_ready = is_ready && hear_at(worker, &server->settings.listener) &&
               hear_at(worker, &server->settings.secure_listener);
    if (is_ready && pthread_create(&worker->thread, NULL, work, worker) == 0) return true;
    free_worker(worker);
    return false;
}

struct server *server_start(const struct server_settings *settings) {
    struct server *server = calloc(1, sizeof *server);
    if (!server) return NULL;
    server->settings = *settings;
    server->ahead = ahead_start(settings->store, settings->readers);
    server->worker = calloc(settings->workers, sizeof *server->worker);
    while (server->ahead && server->worker && server->workers < settings->workers &&
           start_worker(server, &server->worker[server->workers])) {
        server->workers++;
    }
    if (server->workers == settings->workers) return server;
    server_stop(server);
    return NULL;
}

/* Waits until no request is under way there that the table before decides. */
static void wait_for_look(struct worker *worker) {
    unsigned looks = worker->room.looks;
    while (worker->is_busy && worker->room.looks == looks)
        usleep(LOOK_WAIT_US);
}

/* Of what was set before nothing is read any more; by the time that so many others have come, nor by a thread
 * that has just looked. */
void server_set_table(struct server *server, struct table *table) {
    struct table *before = atomic_exchange(&server->table, table);
    free(server->old[server->olds]);
    server->old[server->olds] = before;
    server->olds = (server->olds + 1) % OLD_TABLES;
    if (!table) server->era++;
    server_tell(server);
    for (unsigned n = 0; n < server->workers; n++)
        wait_for_look(&server->worker[n]);
}

void server_tell(struct server *server) {
    for (unsigned n = 0; n < server->workers; n++) {
        if (server->worker[n].waiting || !server->table) ring(&server->worker[n]);
    }
}

unsigned server_connections(const struct server *server) {
    return server->open;
}

void server_stop(struct server *server) {
    server->ends = true;
    for (unsigned n = 0; n < server->workers; n++) {
        ring(&server->worker[n]);
        pthread_join(server->worker[n].thread, NULL);
    }
    for (unsigned n = 0; n < server->workers; n++)
        free_worker(&server->worker[n]);
    ahead_stop(server->ahead);
    for (unsigned n = 0; n < OLD_TABLES; n++)
        free(server->old[n]);
    free(server->table);
    free(server->worker);
    free(server);
}
