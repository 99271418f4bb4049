#include "fast_path_parts.h"

#include <string.h>

/* One database: its beginning, what it waits for, and its end. */

static bool copy_list(struct way *way, const struct way_start *start) {
    if (start->list.id == NULL) {
        return true;
    }
    way->list = strdup(start->list.id);
    way->list_of = strdup(start->list.of);
    memcpy(way->asks + start->pull_len, start->audit, start->audit_len);
    way->trail.is_kept = true;
    way->trail.kept = start->list.kept;
    way->trail.seen = start->list.seen;
    memcpy(way->trail.digest, start->list.digest, WAY_SHA);
    return way->list != NULL && way->list_of != NULL;
}

static bool copy(struct way *way, const struct way_start *start) {
    way->name = strdup(start->name);
    way->of = strdup(start->of);
    way->log = strdup(start->log);
    way->run = strdup(start->run);
    way->asks = start->pull_len <= FRAME_MOST && start->audit_len <= FRAME_MOST ? malloc(start->pull_len + start->audit_len) : NULL;
    if (way->name == NULL || way->of == NULL || way->log == NULL || way->run == NULL || way->asks == NULL || !copy_list(way, start)) {
        return false;
    }
    memcpy(way->asks, start->pull, start->pull_len);
    way->reached = start->reached;
    way->chain_len = start->chain_len;
    memcpy(way->chain, start->chain, start->chain_len);
    return true;
}

/* Takes the batch of one that has ended, where it comes behind what is archived by now, and behind the kept lines. */
static void take_batch(struct way *way, struct way *before) {
    struct trail *trail = &before->trail;
    bool follows = before->batch.blocks > 0 && before->reached == way->reached && before->chain_len == way->chain_len &&
                   memcmp(before->chain, way->chain, way->chain_len) == 0;
    bool fits = trail->is_kept == way->trail.is_kept && trail->kept == way->trail.kept && trail->seen == way->trail.seen &&
                memcmp(trail->digest, way->trail.digest, WAY_SHA) == 0;
    if (!follows || !fits) {
        return;
    }
    way->batch = before->batch;
    way->trail = before->trail;
    way->rung = true; /* there may be more */
    before->batch.bytes = before->trail.lines = before->trail.data = NULL;
    before->batch.blocks = before->batch.room = before->trail.lines_room = before->trail.data_room = 0;
}

/* Puts it among those that have orders. The lock is the caller's. */
static void touch(struct way *way) {
    if (!way->is_touched && !way->takes_none) {
        way->is_touched = true;
        way->next_touched = way->plane->touched;
        way->plane->touched = way;
    }
}

struct way *way_new(struct plane *plane, const struct way_start *start) {
    struct way *way = calloc(1, sizeof *way);
    if (way == NULL) {
        return NULL;
    }
    way->kind = SERVICE;
    way->plane = plane;
    way->start = *start;
    if (!copy(way, start)) {
        way_free(way);
        return NULL;
    }
    if (start->before != NULL) {
        take_batch(way, start->before);
    }
    pthread_mutex_lock(&plane->lock);
    bool takes = !plane->takes_none;
    if (takes) {
        way->is_new = true;
        touch(way);
    }
    pthread_mutex_unlock(&plane->lock);
    if (!takes) {
        way_free(way);
        return NULL;
    }
    wake(plane->control);
    return way;
}

void way_free(struct way *way) {
    free(way->name);
    free(way->of);
    free(way->log);
    free(way->run);
    free(way->list);
    free(way->list_of);
    free(way->asks);
    free(way->batch.bytes);
    free(way->ahead.bytes);
    free(way->trail.lines);
    free(way->trail.data);
    free(way->in);
    free(way);
}

/* What other threads call. */

static struct line *new_line(struct way *way, int descriptor, uint64_t position, bool is_named) {
    struct line *line = calloc(1, sizeof *line);
    if (line != NULL) {
        line->kind = LINE;
        line->way = way;
        line->descriptor = descriptor;
        line->position = position;
        line->is_named = is_named;
    }
    return line;
}

int way_add(struct way *way, int descriptor, uint64_t position, int is_named) {
    struct line *line = new_line(way, descriptor, position, is_named != 0);
    if (line == NULL) {
        return 0;
    }
    pthread_mutex_lock(&way->plane->lock);
    bool takes = !way->takes_none;
    if (takes) {
        line->next = way->added;
        way->added = line;
        touch(way);
    }
    pthread_mutex_unlock(&way->plane->lock);
    if (!takes) {
        free(line);
        return 0;
    }
    wake(way->plane->control);
    return 1;
}

void way_kick(struct way *way, uint64_t number) {
    pthread_mutex_lock(&way->plane->lock);
    way->kick = number;
    touch(way);
    pthread_mutex_unlock(&way->plane->lock);
    wake(way->plane->control);
}

uint64_t way_done(struct way *way, uint64_t *found_nothing) {
    pthread_mutex_lock(&way->plane->lock);
    uint64_t done = way->done;
    *found_nothing = way->found_nothing;
    pthread_mutex_unlock(&way->plane->lock);
    return done;
}

void way_watch(struct way *way, int is_watched) {
    pthread_mutex_lock(&way->plane->lock);
    way->is_watched = is_watched != 0;
    pthread_mutex_unlock(&way->plane->lock);
}

void way_stop(struct way *way) {
    pthread_mutex_lock(&way->plane->lock);
    way->stops = true;
    touch(way);
    pthread_mutex_unlock(&way->plane->lock);
    wake(way->plane->control);
}

uint64_t way_reached(struct way *way, uint8_t chain[WAY_DIGEST], size_t *chain_len) {
    pthread_mutex_lock(&way->plane->lock);
    uint64_t reached = way->reached;
    *chain_len = way->chain_len;
    memcpy(chain, way->chain, way->chain_len);
    pthread_mutex_unlock(&way->plane->lock);
    return reached;
}

void way_list_of(const struct way *way, struct way_list *list) {
    *list = (struct way_list){.kept = way->trail.kept, .seen = way->trail.seen};
    memcpy(list->digest, way->trail.digest, WAY_SHA);
}

/* In the thread. */

bool begin_way(struct way *way) {
    struct plane *plane = way->plane;
    way->next = plane->ways;
    way->place = &plane->ways;
    if (way->next != NULL) {
        way->next->place = &way->next;
    }
    plane->ways = way;
    meet_writers(way);
    way->asked_at = now_ms();
    if (way->batch.blocks > 0) {
        set_due(way); /* as it was before */
    }
    wake_by(plane, until(way));
    return watch(plane, way->start.service, way);
}

static void take_line(struct way *way, struct line *line) {
    line->next = way->lines;
    line->place = &way->lines;
    if (line->next != NULL) {
        line->next->place = &line->next;
    }
    way->lines = line;
    way->asked_at = now_ms();
    if (way->has_ended || !watch(way->plane, line->descriptor, line)) {
        give_back(line);
    }
}

void take_order(struct way *way, struct line *added, bool stops, uint64_t kick) {
    while (added != NULL) {
        struct line *next = added->next;
        take_line(way, added);
        added = next;
    }
    way->is_over |= stops;
    if (kick != 0) {
        way->kicked = kick;
        way->rung = way->news_wanted = true;
        way->asked_at = now_ms();
    }
    if (!way->has_ended) {
        tell_all(way); /* who came with a question may ask for what is archived by now */
        set_active(way);
    }
}

void set_active(struct way *way) {
    if (!way->is_active) {
        way->is_active = true;
        way->next_active = way->plane->active;
        way->plane->active = way;
    }
}

/* Whether what comes behind the batch that is on its way is pulled meanwhile. The lines of an audit list come with one batch after the other. */
static bool pulls_ahead(const struct way *way) {
    bool may_pull = way->phase == KEEPING && !way->is_ahead && !way->is_gone && !way->is_over && !way->trail.is_kept;
    bool has_room = way->ahead.blocks == 0 && !way->start.is_careful;
    return may_pull && has_room && !way->news_wanted && is_wanted(way, way->batch.reached);
}

void advance(struct way *way) {
    tell_archived(way);
    if (way->is_over && way->phase != KEEPING) {
        end_way(way, WAY_STOPPED);
    } else if (way->phase == READY && way->is_gone) {
        end_way(way, way->gone_for);
    } else if (way->phase == READY ? is_wanted(way, 0) : pulls_ahead(way)) {
        begin_pull(way);
    }
}

int64_t until(const struct way *way) {
    bool is_at_it = way->phase == DUE || way->phase == KEEPING || (way->phase == READY && way->rung);
    return is_at_it ? INT64_MAX : way->phase == READY ? way->asked_at + way->start.idle_ms : way->due;
}

enum way_end late(const struct way *way) {
    return way->phase == READY ? WAY_IDLE : WAY_SERVICE;
}

/* Takes nothing more from other threads. Returns the lines that they have given it. */
static struct line *taken_last(struct way *way) {
    struct plane *plane = way->plane;
    pthread_mutex_lock(&plane->lock);
    way->takes_none = true;
    struct way **place = &plane->touched;
    while (*place != NULL && *place != way) {
        place = &(*place)->next_touched;
    }
    if (*place != NULL) {
        *place = way->next_touched;
    }
    struct line *added = way->added;
    way->added = NULL;
    pthread_mutex_unlock(&plane->lock);
    return added;
}

void end_way(struct way *way, enum way_end end) {
    if (way->has_ended) {
        return;
    }
    way->has_ended = true;
    way->end = end;
    watch_no_more(way->plane, way->start.service);
    *way->place = way->next;
    if (way->next != NULL) {
        way->next->place = way->place;
    }
    leave_writers(way);
    if (way->phase == DUE) {
        take_from_due(way);
    }
    struct line *added = taken_last(way);
    while (way->lines != NULL) {
        give_back(way->lines);
    }
    while (added != NULL) {
        struct line *next = added->next;
        take_line(way, added); /* and gives it back */
        added = next;
    }
    say(way->plane, &way->ended, WAY_ENDED, way);
}
