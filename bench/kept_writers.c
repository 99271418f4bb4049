/* The writers of `kept.py many`: commits of named databases, and of sessions of PostgreSQL, by one thread and its epoll. Each side asks for
 * what it has to and no more, so that the clients' processor hides no difference. */
#include <libpq-fe.h>
#include <stdint.h>
#include <stdio.h>
#include <stdlib.h>
#include <string.h>
#include <sys/epoll.h>
#include <sys/socket.h>
#include <time.h>
#include <unistd.h>

enum { PLACES = 4, AT_ONCE = 256, ROOM = 1024, DONE = 5 /* bytes of such a reply's frame */ };

/* A database, or where there is a connection a session. */
struct writer {
    void *connection;           /* PGconn, with a prepared statement `put` */
    const uint8_t *data;
    size_t data_len;
    int service, line;          /* sockets */
    uint8_t *frames;            /* two writes and a report */
    size_t frames_len, places[PLACES]; /* where they have the LSN, in 8 bytes */
    const char *question;       /* `durable NAME GENERATION ` */
    uint64_t lsn, shift;        /* of the last block; of its position */
    /* of one commit */
    size_t got;
    int asks_keeper;
    double began;
};

static double now(void) {
    struct timespec time;
    clock_gettime(CLOCK_MONOTONIC, &time);
    return (double)time.tv_sec + (double)time.tv_nsec / 1e9;
}

static void check(int is_so, const char *what) {
    if (!is_so) {
        fprintf(stderr, "kept_writers: %s\n", what);
        abort();
    }
}

static void begin(struct writer *writer) {
    writer->began = now();
    writer->got = 0;
    writer->asks_keeper = 0;
    if (writer->connection != NULL) {
        const char *values[] = {(const char *)writer->data};
        const int lengths[] = {(int)writer->data_len}, formats[] = {1};
        check(PQsendQueryPrepared(writer->connection, "put", 1, values, lengths, formats, 0) == 1, "no statement is sent");
        check(PQflush(writer->connection) == 0, "a statement is sent in part");
        return;
    }
    writer->lsn++;
    for (size_t place = 0; place < PLACES && writer->places[place] > 0; place++) {
        for (size_t byte = 0; byte < 8; byte++) {
            writer->frames[writer->places[place] + byte] = (uint8_t)(writer->lsn >> (56 - 8 * byte));
        }
    }
    check(send(writer->service, writer->frames, writer->frames_len, MSG_NOSIGNAL) == (ssize_t)writer->frames_len, "no block is sent");
}

/* Whether its commit is durable. */
static int take_of_session(struct writer *writer) {
    check(PQconsumeInput(writer->connection) == 1, "PostgreSQL is gone");
    while (PQisBusy(writer->connection) == 0) {
        PGresult *result = PQgetResult(writer->connection);
        if (result == NULL) {
            return 1;
        }
        check(PQresultStatus(result) == PGRES_COMMAND_OK, "PostgreSQL has refused");
        PQclear(result);
    }
    return 0;
}

static void ask_keeper(struct writer *writer) {
    char question[ROOM];
    int len = snprintf(question, sizeof question, "%s%llu\n", writer->question, (unsigned long long)(writer->lsn + writer->shift));
    writer->asks_keeper = 1;
    check(send(writer->line, question, (size_t)len, MSG_NOSIGNAL) == len, "no question is sent");
}

static int take(struct writer *writer) {
    static const uint8_t done[] = {0, 0, 0, 1, 0};
    uint8_t answer[ROOM];
    if (writer->connection != NULL) {
        return take_of_session(writer);
    }
    ssize_t got = recv(writer->asks_keeper ? writer->line : writer->service, answer, sizeof answer, MSG_DONTWAIT);
    if (writer->asks_keeper) {
        check(got > 8 && memcmp(answer, "durable ", 8) == 0 && answer[got - 1] == '\n', "another answer than `durable`");
        return 1;
    }
    check(got > 0, "the service is gone");
    for (ssize_t at = 0; at < got; at++) {
        check(answer[at] == done[writer->got++ % DONE], "the service has refused");
    }
    if (writer->got == 3 * DONE) {
        ask_keeper(writer);
    }
    return 0;
}

static void watch(int epoll, int descriptor, struct writer *writer) {
    struct epoll_event event = {.events = EPOLLIN, .data.ptr = writer};
    check(epoll_ctl(epoll, EPOLL_CTL_ADD, descriptor, &event) == 0, "epoll");
}

/* Each writer commits, one after the other, for so many seconds. Returns how many commits, and how long each took, as far as there is room. */
size_t commit_for(struct writer *writers, size_t count, double seconds, double *times, size_t room) {
    int epoll = epoll_create1(EPOLL_CLOEXEC);
    struct epoll_event events[AT_ONCE];
    double ends = now() + seconds;
    size_t made = 0, at_it = count;
    for (size_t at = 0; at < count; at++) {
        struct writer *writer = &writers[at];
        watch(epoll, writer->connection == NULL ? writer->service : PQsocket(writer->connection), writer);
        if (writer->connection == NULL) {
            watch(epoll, writer->line, writer);
        }
        begin(writer);
    }
    while (at_it > 0) {
        int some = epoll_wait(epoll, events, AT_ONCE, -1);
        for (int at = 0; at < some; at++) {
            struct writer *writer = events[at].data.ptr;
            if (!take(writer)) {
                continue;
            }
            double time = now();
            check(made < room, "no room for the times");
            times[made++] = time - writer->began;
            if (time < ends) {
                begin(writer);
            } else {
                at_it--;
            }
        }
    }
    close(epoll);
    return made;
}
