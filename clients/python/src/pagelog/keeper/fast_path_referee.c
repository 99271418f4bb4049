#include "fast_path_parts.h"

#include <fcntl.h>
#include <stdio.h>
#include <string.h>
#include <sys/epoll.h>

/* Sessions of PostgreSQL: which statement is on its way over each, and what became of it. */

enum {
    CONFIRM_MS = 2,     /* between two questions for the standby */
    GATHER_MS = 2,      /* so long after a statement began the next one waits for more batches */
    ENOUGH = 4,         /* so many are always worth one */
    TRIMMED = 1 << 16,  /* bytes that a way may keep */
};

void free_session(struct session *session) {
    free(session->keep);
    free(session->keep_block);
    free(session->keep_each);
    free(session->keep_lines);
    free(session->flushed);
    free(session->text);
    free(session);
}

/* A warning puts in doubt what was asked, as where the wait for the standby was cancelled: it is committed here alone. */
static void count_warning(void *argument, const PGresult *notice) {
    static const char *const harmless[] = {"NOTICE", "INFO", "LOG", "DEBUG"};
    const char *severity = PQresultErrorField(notice, PG_DIAG_SEVERITY_NONLOCALIZED);
    for (size_t at = 0; severity != NULL && at < sizeof harmless / sizeof *harmless; at++) {
        if (strcmp(severity, harmless[at]) == 0) {
            return;
        }
    }
    if (argument != NULL) {
        ((struct session *)argument)->warned = true;
    }
}

/* It is the keeper's again. */
static void leave(struct session *session) {
    struct plane *plane = session->plane;
    if (session->watched >= 0) { /* also where a child that was just forked has the socket still: it would be heard of again and again */
        watch_no_more(plane, session->watched);
        close(session->watched);
    }
    PQsetNoticeReceiver(session->connection, count_warning, NULL);
    pthread_mutex_lock(&plane->lock);
    *session->place = session->next;
    if (session->next != NULL) {
        session->next->place = session->place;
    }
    pthread_mutex_unlock(&plane->lock);
    session->is_back = true;
    say(plane, &session->back, WAY_SESSION_BACK, session);
}

void leave_if_free(struct session *session) {
    if (session->answer == FREE && (session->leaves || session->is_unclean)) {
        leave(session);
    }
}

/* It cannot be known what became of its statement, or it is of no use any more. */
static void lose(struct session *session) {
    for (size_t at = 0; at < session->count; at++) {
        memcpy(session->ways[at]->why, session->why, sizeof session->why);
        end_way(session->ways[at], WAY_DOUBT);
    }
    session->count = 0;
    session->answer = FREE;
    session->is_unclean = true;
}

/* What was said last of its statement, in one line. */
static void note(struct session *session, const char *said) {
    snprintf(session->why, sizeof session->why, "%s", said == NULL ? "" : said);
    session->why[strcspn(session->why, "\n")] = 0;
}

void begin_session(struct session *session) {
    PQsetnonblocking(session->connection, 1);
    PQsetNoticeReceiver(session->connection, count_warning, session);
    session->watched = fcntl(PQsocket(session->connection), F_DUPFD_CLOEXEC, 0);
    session->is_unclean = session->watched < 0 || !watch(session->plane, session->watched, session);
}

/* Has epoll tell when more can be sent, if there is more. False where the connection is of no use. */
static bool flush(struct session *session) {
    int left = PQflush(session->connection);
    if (left >= 0 && (left > 0) != session->wants_out) {
        session->wants_out = left > 0;
        struct epoll_event event = {.events = EPOLLIN | (left > 0 ? EPOLLOUT : 0), .data.ptr = session};
        return epoll_ctl(session->plane->epoll, EPOLL_CTL_MOD, session->watched, &event) == 0;
    }
    return left >= 0;
}

/* Those that are due. */

void set_due(struct way *way) {
    struct plane *plane = way->plane;
    way->phase = DUE;
    way->next_due = NULL;
    *plane->last_due = way;
    plane->last_due = &way->next_due;
    plane->due++;
}

void take_from_due(struct way *way) {
    struct plane *plane = way->plane;
    struct way **place = &plane->first_due;
    while (*place != way) {
        place = &(*place)->next_due;
    }
    *place = way->next_due;
    if (*place == NULL) {
        plane->last_due = place;
    }
    plane->due--;
}

/* Gives it what is due: few blocks of each, or what one has that is behind, or that was tried before. */
static void take_due(struct session *session) {
    struct plane *plane = session->plane;
    bool takes_many = session == plane->sessions, has_one = false;
    size_t bytes = 0;
    session->count = 0;
    for (struct way *way = plane->first_due, *next; way != NULL && !has_one; way = next) {
        next = way->next_due;
        if (way->trail.count > 0 && session->keep_lines == NULL) {
            end_way(way, WAY_LINES);
            continue;
        }
        bool is_many = way->batch.blocks > FEW, is_alone = is_many || way->start.is_careful;
        if (session->count == SESSION_WAYS || bytes >= SESSION_BYTES || (is_many && !takes_many) || (is_alone && session->count > 0)) {
            continue;
        }
        has_one = is_alone;
        take_from_due(way);
        way->phase = KEEPING;
        set_active(way);
        bytes += way->batch.len;
        session->kept[session->count] = false;
        session->ways[session->count++] = way;
    }
}

/* Asks for what is due, if something is. */
static void ask(struct session *session) {
    struct plane *plane = session->plane;
    take_due(session);
    if (session->count == 0) {
        return;
    }
    session->answer = ANSWERING;
    session->asked_at = now_ms();
    session->due = session->asked_at + session->ways[0]->start.referee_ms;
    wake_by(plane, session->due);
    session->warned = session->has_row = false;
    session->why[0] = 0;
    bool is_asked = false;
    if (send_batches(session, &is_asked) && flush(session)) {
        return;
    }
    if (is_asked) {
        lose(session);
        return;
    }
    for (size_t at = 0; at < session->count; at++) {
        end_way(session->ways[at], WAY_NO_MEMORY);
    }
    session->count = 0;
    session->answer = FREE;
}

/* Whether what is due is worth a statement beside those that are on their way, each of which costs as much as a few batches in one: it is
 * as much as they have, or enough. One that takes long holds up nobody. */
static bool is_worth_one(struct plane *plane) {
    size_t count = 0;
    int64_t now = now_ms();
    for (const struct session *session = plane->sessions; session != NULL; session = session->next) {
        if (session->answer != FREE && now < session->asked_at + GATHER_MS) {
            count += session->count;
            wake_by(plane, session->asked_at + GATHER_MS);
        }
    }
    return plane->due >= (count < ENOUGH ? count : ENOUGH);
}

void keep_due(struct plane *plane) {
    for (struct session *session = plane->sessions; session != NULL && plane->first_due != NULL; session = session->next) {
        if (!is_worth_one(plane)) {
            return;
        }
        if (session->answer == FREE && !session->leaves && !session->is_unclean) {
            ask(session);
        }
    }
}

/* Answers. */

static uint64_t value_of(const PGresult *result, int row, int column) {
    return PQgetisnull(result, row, column) ? 0 : strtoull(PQgetvalue(result, row, column), NULL, 10);
}

static bool take_flushed(struct session *session, const PGresult *result) {
    if (PQntuples(result) != 1) {
        return false;
    }
    session->wanted = session->wanted == 0 ? value_of(result, 0, 0) : session->wanted;
    session->standby = value_of(result, 0, 1);
    return true;
}

/* Takes a result. False where it leaves in doubt what became of the statement. */
static bool take_result(struct session *session, const PGresult *result) {
    if (PQresultStatus(result) != PGRES_TUPLES_OK || session->has_row) {
        note(session, PQresultErrorField(result, PG_DIAG_MESSAGE_PRIMARY));
        return false;
    }
    session->has_row = true;
    if (session->answer == CONFIRMING) {
        return take_flushed(session, result);
    }
    for (int row = 0; row < PQntuples(result); row++) {
        uint64_t number = value_of(result, row, 1);
        if (number == 0 || number > session->count) {
            return false;
        }
        session->kept[number - 1] = true;
    }
    return true;
}

/* Takes what has come of the answer. False where it leaves a doubt; `is_whole` once all has come. */
static bool take_answer(struct session *session, bool *is_whole) {
    PGconn *connection = session->connection;
    *is_whole = false;
    if (PQconsumeInput(connection) == 0 || !flush(session)) {
        note(session, PQerrorMessage(connection));
        return false;
    }
    while (session->answer != FREE && PQisBusy(connection) == 0) {
        PGresult *result = PQgetResult(connection);
        if (result == NULL) { /* only now it is committed, and replicated */
            *is_whole = true;
            return session->has_row && !session->warned;
        }
        bool goes_on = take_result(session, result);
        PQclear(result);
        if (!goes_on) {
            return false;
        }
    }
    return true;
}

/* Asks how far a synchronous standby has flushed. False where that cannot be. */
static bool confirm(struct session *session) {
    session->answer = CONFIRMING;
    session->confirm_at = 0;
    session->warned = session->has_row = false;
    return PQsendQueryPrepared(session->connection, session->flushed, 0, NULL, NULL, NULL, 0) == 1 && flush(session);
}

static void trim_bytes(uint8_t **bytes, size_t *room) {
    if (*room > TRIMMED) {
        free(*bytes);
        *bytes = NULL;
        *room = 0;
    }
}

/* Gives back what much has taken. */
static void trim(struct way *way) {
    if (way->phase == READY && !way->rung) {
        trim_bytes(&way->batch.bytes, &way->batch.room);
        trim_bytes(&way->ahead.bytes, &way->ahead.room);
        trim_bytes(&way->in, &way->in_room);
    }
    trim_bytes(&way->trail.lines, &way->trail.lines_room);
}

/* What was pulled meanwhile is the next batch, or becomes it once all has come. */
static void go_on_behind(struct way *way) {
    struct batch archived = way->batch;
    way->batch = way->ahead;
    way->ahead = archived;
    way->ahead.blocks = way->ahead.len = 0;
    way->phase = way->is_ahead ? PULLING : READY;
    if (!way->is_ahead && way->batch.blocks > 0 && !way->is_over) { /* who is to stop has sent its last statement */
        set_due(way);
    }
    way->is_ahead = false;
}

/* The batch is archived. */
static void enter(struct way *way) {
    pthread_mutex_lock(&way->plane->lock);
    way->reached = way->batch.reached;
    way->chain_len = way->batch.chain_len;
    memcpy(way->chain, way->batch.chain, way->batch.chain_len);
    way->done = way->batch.pulls_for;
    way->news_due |= way->is_watched;
    way->is_over |= way->stops; /* an order that is not read yet */
    pthread_mutex_unlock(&way->plane->lock);
    if (way->trail.count > 0) {
        enter_lines(&way->trail);
    }
    go_on_behind(way);
    way->start.is_careful = 0;
    way->tells = true;
    trim(way);
    wake_by(way->plane, until(way));
    if (way->start.noted != NULL && *way->start.noted < way->reached) {
        *way->start.noted = way->reached;
    }
    set_active(way);
}

/* All is known of the statement. Where a batch was not kept, the server may be an old leader, which has not heard of its run. */
static void finish(struct session *session) {
    for (size_t at = 0; at < session->count; at++) {
        if (session->kept[at]) {
            enter(session->ways[at]);
        } else {
            end_way(session->ways[at], WAY_NOT_KEPT);
            session->is_unclean = true;
        }
    }
    session->count = 0;
    session->answer = FREE;
}

static bool has_kept(const struct session *session) {
    for (size_t at = 0; at < session->count; at++) {
        if (session->kept[at]) {
            return true;
        }
    }
    return false;
}

void go_on_keeping(struct session *session) {
    bool is_whole;
    if (session->is_back) {
        return;
    }
    if (!take_answer(session, &is_whole)) {
        lose(session);
    } else if (is_whole && session->answer == ANSWERING && session->flushed != NULL && has_kept(session)) {
        session->wanted = 0;
        if (!confirm(session)) {
            lose(session);
        }
    } else if (is_whole && session->answer == CONFIRMING && session->standby < session->wanted) {
        session->confirm_at = now_ms() + CONFIRM_MS; /* others have written meanwhile; or there is no standby */
        wake_by(session->plane, session->confirm_at);
        if (session->standby == 0) {
            lose(session);
        }
    } else if (is_whole) {
        finish(session);
    }
}

int64_t see_clock(struct session *session, int64_t now) {
    if (session->answer == FREE) {
        return INT64_MAX;
    }
    bool asks_again = session->answer == CONFIRMING && session->confirm_at != 0 && now >= session->confirm_at;
    if (now >= session->due || (asks_again && !confirm(session))) {
        lose(session);
        return INT64_MAX;
    }
    bool is_first = session->answer == CONFIRMING && session->confirm_at != 0 && session->confirm_at < session->due;
    return is_first ? session->confirm_at : session->due;
}
