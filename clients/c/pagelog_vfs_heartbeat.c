/* The heartbeat of turns: a thread of this process answers where a keeper wants a turn back. A program calls
 * nothing of the VFS while it computes amid a transaction, or is idle.
 *
 * The thread begins with the first turn that is asked for, and sleeps until a keeper says something. While
 * turns come and go it looks after them by the clock, so that their answers do not wake it. */
#include "pagelog_vfs_inside.h"

#include <poll.h>
#include <pthread.h>
#include <signal.h>
#include <sys/eventfd.h>
#include <unistd.h>

enum { MOST_SOCKETS = 64, LOOK_MS = 50, STACK_BYTES = 256 * 1024 };

static pthread_mutex_t mutex = PTHREAD_MUTEX_INITIALIZER;
static struct database *first; /* of those whose turns are looked after */
static int woken = -1;         /* an event that wakes the thread */
static bool has_thread, is_asleep;
static bool is_changed; /* a turn was granted since the thread has looked last */

/* The sockets of turns that are held. False where one cannot be told now, or there are too many. */
static bool gather(struct pollfd *fds, nfds_t *count) {
    bool is_whole = true;
    fds[0] = (struct pollfd){.fd = woken, .events = POLLIN};
    *count = 1;
    for (struct database *database = first; database; database = database->next_heartbeat) {
        bool is_room = *count <= MOST_SOCKETS;
        if (!is_room || pthread_mutex_trylock(&database->turn_guard) != 0) {
            is_whole = false;
            continue;
        }
        if (database->turn.is_held)
            fds[(*count)++] = (struct pollfd){.fd = database->turn.line.socket, .events = POLLIN};
        pthread_mutex_unlock(&database->turn_guard);
    }
    return is_whole;
}

/* A turn whose guard another has is one that is asked for or given back at this moment. */
static void answer_all(void) {
    for (struct database *database = first; database; database = database->next_heartbeat) {
        if (pthread_mutex_trylock(&database->turn_guard) != 0) continue;
        pagelog_turn_heartbeat(&database->turn);
        pthread_mutex_unlock(&database->turn_guard);
    }
}

static void *beat(void *argument) {
    struct pollfd fds[MOST_SOCKETS + 1];
    nfds_t count;
    eventfd_t drained;
    for (;;) {
        pthread_mutex_lock(&mutex);
        is_asleep = gather(fds, &count) && !is_changed;
        is_changed = false;
        int timeout = is_asleep ? -1 : LOOK_MS;
        pthread_mutex_unlock(&mutex);
        poll(fds, timeout < 0 ? count : 0, timeout);
        pthread_mutex_lock(&mutex);
        is_asleep = false;
        eventfd_read(woken, &drained);
        answer_all();
        pthread_mutex_unlock(&mutex);
    }
    return argument;
}

/* The program's signals are for its own threads. */
static bool start_thread(void) {
    pthread_attr_t attributes;
    pthread_t thread;
    sigset_t all, before;
    if (woken < 0) woken = eventfd(0, EFD_CLOEXEC | EFD_NONBLOCK);
    if (woken < 0 || pthread_attr_init(&attributes) != 0) return false;
    pthread_attr_setdetachstate(&attributes, PTHREAD_CREATE_DETACHED);
    pthread_attr_setstacksize(&attributes, STACK_BYTES);
    sigfillset(&all);
    pthread_sigmask(SIG_SETMASK, &all, &before);
    bool is_started = pthread_create(&thread, &attributes, beat, NULL) == 0;
    pthread_sigmask(SIG_SETMASK, &before, NULL);
    pthread_attr_destroy(&attributes);
    return is_started;
}

bool pagelog_start_heartbeat(struct database *database) {
    if (database->has_heartbeat) return true;
    pthread_mutex_lock(&mutex);
    has_thread = has_thread || start_thread();
    database->has_heartbeat = has_thread;
    if (has_thread) {
        database->next_heartbeat = first;
        first = database;
    }
    pthread_mutex_unlock(&mutex);
    return database->has_heartbeat;
}

void pagelog_note_grant(bool is_slice) {
    pthread_mutex_lock(&mutex);
    is_changed |= !is_slice; /* the end of a slice is heard at once, as nobody may write then */
    if (is_asleep) eventfd_write(woken, 1);
    is_asleep = false;
    pthread_mutex_unlock(&mutex);
}

void pagelog_stop_heartbeat(struct database *database) {
    if (!database->has_heartbeat) return;
    pthread_mutex_lock(&mutex);
    struct database **at = &first;
    while (*at && *at != database)
        at = &(*at)->next_heartbeat;
    if (*at) *at = database->next_heartbeat;
    if (is_asleep) eventfd_write(woken, 1); /* a socket that it polls would stay open after a close */
    is_asleep = false;
    pthread_mutex_unlock(&mutex);
    database->has_heartbeat = false;
}

void pagelog_hold_heartbeat_for_fork(void) {
    pthread_mutex_lock(&mutex);
}

void pagelog_release_heartbeat_after_fork(bool is_child) {
    if (is_child) { /* the thread is the parent's, and so are the turns */
        if (woken >= 0) close(woken);
        woken = -1;
        first = NULL;
        has_thread = is_asleep = is_changed = false;
    }
    pthread_mutex_unlock(&mutex);
}
