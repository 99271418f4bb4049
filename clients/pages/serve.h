/* Answers connections, by a bounded number of threads.
 *
 * The replies of a connection come in the order of its requests. Who does not take its replies is not read
 * from; a get that waits for a position holds up its own connection alone. */
#ifndef SERVE_H
#define SERVE_H

#include "answer.h"

struct server_settings {
    struct store *store;
    /* They listen, and do not block; -1: there is none. */
    int listener, secure_listener;
    struct shown *shown; /* to who comes by the secure one */
    unsigned workers, connections;
    int64_t silent_ms; /* where all are taken, one that was silent for so long ends for a new one */
    unsigned readers;  /* more threads, which read what connections ask for together */
    unsigned wait_ms;  /* how long a get waits for a position that is not there yet */
};

struct server;

/* NULL: no memory, or no thread. Nobody is answered before `server_set_table`. */
struct server *server_start(const struct server_settings *settings);

/* This table decides, which is the server's then: once this returns no request is answered by the one before.
 * NULL: nobody is answered, and all connections end. */
void server_set_table(struct server *server, struct table *table);

/* To be called once more is confirmed. */
void server_tell(struct server *server);

unsigned server_connections(const struct server *server);

/* Ends all connections, and the threads. */
void server_stop(struct server *server);

#endif
