#include "fast_path_parts.h"

#include <string.h>
#include <sys/epoll.h>
#include <sys/eventfd.h>

/* The thread: its turns, what it is told, and what it says. */

enum { AT_ONCE = 64 /* descriptors of one turn */, LONGEST_MS = 60000 };

struct plane *plane_new(int news) {
    struct plane *plane = calloc(1, sizeof *plane);
    if (plane == NULL) {
        return NULL;
    }
    plane->news = news;
    plane->epoll = epoll_create1(EPOLL_CLOEXEC);
    plane->control = eventfd(0, EFD_NONBLOCK | EFD_CLOEXEC);
    pthread_mutex_init(&plane->lock, NULL);
    plane->last_said = &plane->said;
    plane->last_event = &plane->events;
    plane->last_due = &plane->first_due;
    plane->last_order = &plane->orders;
    static enum kind control = CONTROL;
    if (plane->epoll < 0 || plane->control < 0 || !watch(plane, plane->control, &control)) {
        plane_free(plane);
        return NULL;
    }
    return plane;
}

void plane_free(struct plane *plane) {
    while (plane->lent != NULL) {
        struct session *next = plane->lent->next;
        free_session(plane->lent);
        plane->lent = next;
    }
    struct way_event left;
    while (plane_next(plane, &left) != 0) {
    }
    if (plane->epoll >= 0) {
        close(plane->epoll);
    }
    if (plane->control >= 0) {
        close(plane->control);
    }
    pthread_mutex_destroy(&plane->lock);
    free(plane);
}

bool watch(struct plane *plane, int descriptor, void *of) {
    struct epoll_event event = {.events = EPOLLIN, .data.ptr = of};
    return epoll_ctl(plane->epoll, EPOLL_CTL_ADD, descriptor, &event) == 0;
}

void watch_no_more(struct plane *plane, int descriptor) {
    struct epoll_event event = {0};
    epoll_ctl(plane->epoll, EPOLL_CTL_DEL, descriptor, &event); /* it may not have been watched */
}

/* What other threads call. */

void plane_stop(struct plane *plane) {
    pthread_mutex_lock(&plane->lock);
    plane->stops = true;
    pthread_mutex_unlock(&plane->lock);
    wake(plane->control);
}

static struct session *new_session(const struct session_start *start) {
    struct session *session = calloc(1, sizeof *session);
    if (session == NULL) {
        return NULL;
    }
    session->kind = SESSION;
    session->key = start->key;
    session->connection = start->connection;
    session->watched = -1;
    session->keep = strdup(start->keep);
    session->keep_block = strdup(start->keep_block);
    session->keep_each = strdup(start->keep_each);
    session->keep_lines = start->keep_lines == NULL ? NULL : strdup(start->keep_lines);
    session->flushed = start->flushed == NULL ? NULL : strdup(start->flushed);
    bool has_all = session->keep != NULL && session->keep_block != NULL && session->keep_each != NULL;
    if (!has_all || (session->keep_lines == NULL) != (start->keep_lines == NULL) || (session->flushed == NULL) != (start->flushed == NULL)) {
        free_session(session);
        return NULL;
    }
    return session;
}

int plane_lend(struct plane *plane, const struct session_start *start) {
    struct session *session = new_session(start);
    if (session == NULL) {
        return 0;
    }
    session->plane = plane;
    pthread_mutex_lock(&plane->lock);
    bool takes = !plane->takes_none;
    if (takes) {
        session->next = plane->lent;
        plane->lent = session;
    }
    pthread_mutex_unlock(&plane->lock);
    if (!takes) {
        free_session(session);
        return 0;
    }
    wake(plane->control);
    return 1;
}

static void retract(struct session *first, uint64_t key) {
    for (struct session *session = first; session != NULL; session = session->next) {
        session->is_retracted |= session->key == key;
    }
}

void plane_retract(struct plane *plane, uint64_t key) {
    pthread_mutex_lock(&plane->lock);
    retract(plane->lent, key);
    retract(plane->sessions, key);
    pthread_mutex_unlock(&plane->lock);
    wake(plane->control);
}

size_t plane_due(struct plane *plane) {
    return plane->due;
}

static void tell_of_line(const struct line *line, struct way_event *told) {
    told->key = line->way->start.key;
    told->descriptor = line->descriptor;
    told->position = line->position;
    told->len = line->len;
    memcpy(told->data, line->data, line->len);
}

static void tell_of_writer(const struct writer *line, struct way_event *told) {
    told->key = line->writers->key;
    told->end = line->has_turn;
    told->descriptor = line->descriptor;
    told->position = line->number;
    told->len = line->len;
    memcpy(told->data, line->data, line->len);
}

static void tell_said(const struct said *said, struct way_event *told) {
    told->key = said->key;
    told->position = said->number;
    told->len = said->len < WAY_LINE ? said->len : WAY_LINE;
    memcpy(told->data, said->text, told->len);
}

/* Says what an event of writers says, and frees what nobody needs any more. */
static void tell_of_writers(enum way_news news, void *owner, struct way_event *told) {
    if (news == WRITER_BACK) {
        tell_of_writer(owner, told);
        free_writer(owner);
    } else if (news == WRITER_SAID) {
        tell_said(owner, told);
        free(owner);
    } else {
        told->key = ((const struct writers *)owner)->key;
        free_writers(owner);
    }
}

/* Says what an event says, and frees what nobody needs any more. */
static void tell_event(enum way_news news, void *owner, struct way_event *told) {
    *told = (struct way_event){.news = (int)news};
    if (news >= WRITER_BACK) {
        tell_of_writers(news, owner, told);
    } else if (news == WAY_LINE_BACK) {
        struct line *line = owner;
        tell_of_line(line, told);
        free(line);
    } else if (news == WAY_SESSION_BACK) {
        struct session *session = owner;
        told->key = session->key;
        told->end = session->is_unclean;
        free_session(session);
    } else {
        const struct way *way = owner;
        told->key = way->start.key;
        told->end = news == WAY_ENDED ? (int)way->end : 0;
        told->len = told->end == WAY_DOUBT ? strlen(way->why) : 0;
        memcpy(told->data, way->why, told->len);
    }
}

int plane_next(struct plane *plane, struct way_event *told) {
    pthread_mutex_lock(&plane->lock);
    struct event *event = plane->said;
    enum way_news news = WAY_ARCHIVED;
    void *owner = NULL;
    if (event != NULL) {
        news = event->news; /* now: it may be said again at any time */
        owner = event->owner;
        plane->said = event->next;
        event->is_queued = false;
        if (plane->said == NULL) {
            plane->last_said = &plane->said;
        }
    }
    pthread_mutex_unlock(&plane->lock);
    if (event == NULL) {
        return 0;
    }
    tell_event(news, owner, told);
    return 1;
}

/* Orders. */

static void take_lent(struct plane *plane) {
    while (plane->lent != NULL) {
        struct session *session = plane->lent;
        plane->lent = session->next;
        session->next = plane->sessions;
        session->place = &plane->sessions;
        if (session->next != NULL) {
            session->next->place = &session->next;
        }
        plane->sessions = session;
        begin_session(session);
    }
}

/* The next of those that were touched, and what was left of it. */
static struct way *next_touched(struct plane *plane, struct line **added, bool *is_new, bool *stops, uint64_t *kick) {
    pthread_mutex_lock(&plane->lock);
    struct way *way = plane->touched;
    if (way != NULL) {
        plane->touched = way->next_touched;
        way->is_touched = false;
        *added = way->added;
        *is_new = way->is_new;
        *stops = way->stops;
        *kick = way->kick;
        way->added = NULL;
        way->is_new = false;
        way->kick = 0;
    }
    pthread_mutex_unlock(&plane->lock);
    return way;
}

static void take_orders(struct plane *plane) {
    uint64_t count;
    ssize_t got = read(plane->control, &count, sizeof count);
    (void)got;
    pthread_mutex_lock(&plane->lock);
    plane->is_over = plane->stops;
    take_lent(plane);
    for (struct session *session = plane->sessions; session != NULL; session = session->next) {
        session->leaves |= session->is_retracted || plane->is_over;
    }
    pthread_mutex_unlock(&plane->lock);
    struct way *way;
    struct line *added;
    bool is_new, stops;
    uint64_t kick;
    while ((way = next_touched(plane, &added, &is_new, &stops, &kick)) != NULL) {
        bool is_begun = !is_new || begin_way(way);
        take_order(way, added, stops, kick);
        if (!is_begun) {
            end_way(way, WAY_NO_MEMORY);
        }
    }
    for (way = plane->is_over ? plane->ways : NULL; way != NULL; way = way->next) {
        take_order(way, NULL, true, 0);
    }
    take_writers_orders(plane);
    while (plane->is_over && plane->writers != NULL) {
        end_writers(plane->writers);
    }
}

/* Turns. */

void say(struct plane *plane, struct event *event, enum way_news news, void *owner) {
    pthread_mutex_lock(&plane->lock);
    bool is_queued = event->is_queued;
    if (!is_queued) {
        *event = (struct event){.news = news, .owner = owner, .is_queued = true};
    }
    pthread_mutex_unlock(&plane->lock);
    if (is_queued) {
        return; /* who takes that sees this too */
    }
    *plane->last_event = event;
    plane->last_event = &event->next;
}

/* Says what there is of this turn: from now on it may be freed. */
static void publish(struct plane *plane) {
    if (plane->events == NULL) {
        return;
    }
    pthread_mutex_lock(&plane->lock);
    *plane->last_said = plane->events;
    plane->last_said = plane->last_event;
    pthread_mutex_unlock(&plane->lock);
    plane->events = NULL;
    plane->last_event = &plane->events;
    wake(plane->news);
}

static void hear(struct plane *plane, void *source) {
    switch (*(const enum kind *)source) {
    case CONTROL:
        take_orders(plane);
        break;
    case SERVICE:
        go_on_pulling(source);
        break;
    case LINE:
        hear_line(source);
        break;
    case SESSION:
        go_on_keeping(source);
        if (!((const struct session *)source)->is_unclean) { /* else it may be down: what the others have to say is heard first */
            keep_due(plane); /* before anybody is told: PostgreSQL has something to do meanwhile */
        }
        break;
    case WRITER:
        hear_writer(source);
        break;
    }
}

static void see_clocks(struct plane *plane) {
    int64_t now = now_ms();
    if (now < plane->wakes_at) {
        return;
    }
    plane->wakes_at = now + LONGEST_MS;
    for (struct way *way = plane->ways, *next; way != NULL; way = next) {
        next = way->next;
        if (now >= until(way)) {
            end_way(way, late(way));
        } else {
            wake_by(plane, until(way));
        }
    }
    for (struct session *session = plane->sessions, *next; session != NULL; session = next) {
        next = session->next;
        wake_by(plane, see_clock(session, now));
    }
    for (struct writers *writers = plane->writers; writers != NULL; writers = writers->next) {
        wake_by(plane, see_writers_clock(writers, now));
    }
}

static void see_to_active(struct plane *plane) {
    while (plane->active != NULL) {
        struct way *way = plane->active;
        plane->active = way->next_active;
        way->is_active = false;
        if (!way->has_ended) {
            advance(way);
        }
    }
}

/* Those that are free and wanted back, once nobody needs them. */
static void leave_sessions(struct plane *plane) {
    for (struct session *session = plane->sessions, *next; session != NULL; session = next) {
        next = session->next;
        leave_if_free(session);
    }
}

/* Whether there is something to wait for. Where there is not, nothing more is taken. */
static bool goes_on(struct plane *plane) {
    pthread_mutex_lock(&plane->lock);
    bool has_none = plane->ways == NULL && plane->sessions == NULL && plane->writers == NULL;
    plane->takes_none = plane->is_over && has_none && plane->touched == NULL && plane->lent == NULL && plane->orders == NULL;
    pthread_mutex_unlock(&plane->lock);
    return !plane->takes_none;
}

static int sleep_ms(const struct plane *plane) {
    int64_t left = plane->wakes_at - now_ms();
    return left > 0 ? (int)left : 0;
}

void plane_run(struct plane *plane) {
    struct epoll_event events[AT_ONCE];
    plane->wakes_at = 0;
    do {
        int count = epoll_wait(plane->epoll, events, AT_ONCE, sleep_ms(plane));
        for (int at = 0; at < count; at++) {
            hear(plane, events[at].data.ptr);
        }
        see_clocks(plane);
        see_to_active(plane);
        keep_due(plane);
        see_to_active(plane); /* those that may pull ahead now */
        leave_sessions(plane);
        publish(plane);
    } while (goes_on(plane));
}
