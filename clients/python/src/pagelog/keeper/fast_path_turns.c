#include "fast_path.h"

#include <inttypes.h>
#include <stdbool.h>
#include <stdio.h>
#include <stdlib.h>
#include <string.h>

/* The rules of turns, as turns.py has them: that says what they are for. Times are in milliseconds. */

enum {
    MANY = 16,
    GRACE = 1000,
    MOST_WAITING = 1000,
    BEATS = 4,
    SLICE = 10,
    EARLY = 1000,
    MOST_EARLY = 4000,
    LATELY = 4,
    KEYS = 64,                          /* the room for what is said behind a name */
};

/* A line that has the turn, waits for it, or had it last. */
struct seat {
    struct seat *next;                  /* of all */
    struct seat *behind;                /* who waits behind it */
    uint64_t line, asker;
    bool waits, is_hurried, has_heartbeat, takes_slices;
};

struct turns {
    char *name;
    turns_say *say;
    void *of;
    uint64_t generation;
    int64_t ttl;
    struct seat *seats, *first, **end;  /* all, and those that wait */
    size_t waiting;
    struct seat *holder, *last;
    int64_t given_back, epoch;          /* -1: none was */
    int64_t writes_in;                  /* the epoch in which the holder writes, once it has begun; -1: it is not known */
    unsigned in_a_row, unheard;
    bool is_kept, has_heartbeat, is_early;
    int64_t slice, grace, early;        /* when they end; 0: there is none */
    int64_t latest;
};

static void tell(struct turns *turns, const struct seat *seat, const char *word, const char *more) {
    char text[WAY_LINE + KEYS];
    snprintf(text, sizeof text, "%s %s%s", word, turns->name, more);
    turns->say(turns->of, seat->line, text);
}

/* The seats. */

static struct seat *seat_of(const struct turns *turns, uint64_t line) {
    struct seat *seat = turns->seats;
    while (seat != NULL && seat->line != line) {
        seat = seat->next;
    }
    return seat;
}

static struct seat *sit_down(struct turns *turns, uint64_t line, uint64_t asker) {
    struct seat *seat = seat_of(turns, line);
    if (seat == NULL && (seat = calloc(1, sizeof *seat)) != NULL) {
        seat->line = line;
        seat->next = turns->seats;
        turns->seats = seat;
    }
    if (seat != NULL) {
        seat->asker = asker;
    }
    return seat;
}

/* Frees the seats that nobody needs. */
static void tidy(struct turns *turns) {
    struct seat **place = &turns->seats;
    while (*place != NULL) {
        struct seat *seat = *place;
        if (seat->waits || seat == turns->holder || seat == turns->last) {
            place = &seat->next;
        } else {
            *place = seat->next;
            free(seat);
        }
    }
}

static void wait_behind(struct turns *turns, struct seat *seat, bool is_hurried) {
    seat->is_hurried = is_hurried;
    if (!seat->waits) {
        seat->waits = true;
        seat->behind = NULL;
        *turns->end = seat;
        turns->end = &seat->behind;
        turns->waiting++;
    }
}

static void wait_no_more(struct turns *turns, struct seat *seat) {
    struct seat **place = &turns->first;
    while (*place != seat) {
        place = &(*place)->behind;
    }
    *place = seat->behind;
    if (*place == NULL) {
        turns->end = place;
    }
    seat->waits = seat->is_hurried = false;
    turns->waiting--;
}

/* Whether as many wait as one asker may have wait, and all are its own. */
static bool has_many(const struct turns *turns, const struct seat *seat) {
    size_t count = 0;
    if (turns->waiting < MOST_WAITING || seat->waits) {
        return false;
    }
    for (const struct seat *each = turns->first; each != NULL; each = each->behind) {
        count += each->asker == seat->asker;
    }
    return count >= MOST_WAITING;
}

static void refuse_hurried(struct turns *turns) {
    for (struct seat *seat = turns->first, *behind; seat != NULL; seat = behind) {
        behind = seat->behind;
        if (seat->is_hurried) {
            wait_no_more(turns, seat);
            tell(turns, seat, "busy", "");
        }
    }
}

/* It is early no more, and another keeps the turn, and may not use it: who has asked for it at once hears that now. */
static void tell_hurried(struct turns *turns) {
    for (struct seat *seat = turns->first, *behind; seat != NULL; seat = behind) {
        behind = seat->behind;
        if (!seat->is_hurried) {
            continue;
        }
        if (seat->has_heartbeat) {
            tell(turns, seat, "soon", "");
        } else {
            wait_no_more(turns, seat);
            tell(turns, seat, "busy", "");
        }
    }
}

/* The turn. */

static void give(struct turns *turns, struct seat *seat, int64_t now) {
    bool is_same = seat == turns->last, has_slice = seat->takes_slices && !is_same;
    char more[KEYS], *at = more;
    turns->in_a_row = is_same ? turns->in_a_row + 1 : 0;
    turns->holder = turns->last = seat;
    if (!is_same) {
        turns->writes_in = turns->epoch < 0 ? -1 : turns->epoch + 1;
    }
    turns->is_kept = has_slice || (turns->in_a_row >= MANY && turns->first == NULL);
    turns->has_heartbeat = seat->has_heartbeat;
    turns->slice = has_slice ? now + SLICE : turns->slice;
    at += sprintf(at, " %s%s", is_same ? "same" : "other", turns->is_kept ? " kept" : "");
    if (!is_same && turns->epoch >= 0) {
        at += sprintf(at, " epoch=%" PRId64, turns->epoch);
    }
    if (has_slice) {
        sprintf(at, " slice=%d", (int)SLICE);
    }
    tell(turns, seat, "turn", more);
}

static void let_go(struct turns *turns) {
    turns->grace = turns->slice = 0;
    turns->holder = NULL;
    turns->is_kept = false;
    turns->unheard = 0;
}

static void await_heartbeat(struct turns *turns, int64_t now) {
    turns->unheard++;
    turns->grace = now + turns->ttl / BEATS;
}

static void want_back(struct turns *turns, int64_t now) {
    if (turns->holder == NULL || turns->grace != 0 || turns->slice != 0) {
        return;
    }
    if (turns->is_kept) {
        tell(turns, turns->holder, "wanted", "");
    }
    if (turns->has_heartbeat) {
        await_heartbeat(turns, now);
    } else if (turns->is_kept) {
        turns->grace = now + GRACE;
    }
}

static void go_on(struct turns *turns, int64_t now) {
    if (turns->is_early) {
        return;
    }
    if (turns->holder == NULL && turns->first != NULL) {
        struct seat *seat = turns->first;
        wait_no_more(turns, seat);
        give(turns, seat, now);
    }
    if (!turns->is_kept) {
        refuse_hurried(turns);
    }
    if (turns->first != NULL) {
        want_back(turns, now);
    }
}

static void pass_on(struct turns *turns, int64_t now) {
    let_go(turns);
    go_on(turns, now);
}

/* The same of one that has not given it back. */
static void take_away(struct turns *turns, int64_t now) {
    if (turns->holder != NULL) {
        turns->say(turns->of, turns->holder->line, "");
    }
    pass_on(turns, now);
}

/* A generation. */

static void begin(struct turns *turns, uint64_t generation, bool was_idle, int64_t now) {
    turns->generation = generation;
    turns->epoch = turns->writes_in = -1;
    turns->in_a_row = 0;
    turns->last = NULL;
    turns->is_early = generation > 1 && !was_idle;
    turns->latest = now + MOST_EARLY - EARLY;
    turns->early = turns->is_early ? now + EARLY : 0;
}

static void end(struct turns *turns) {
    let_go(turns);
    while (turns->first != NULL) {
        struct seat *seat = turns->first;
        wait_no_more(turns, seat);
        tell(turns, seat, "elsewhere", "");
    }
    turns->last = NULL;
    tidy(turns);
}

struct turns *turns_new(const char *name, uint64_t generation, int64_t ttl, int64_t now, turns_say *say, void *of) {
    struct turns *turns = calloc(1, sizeof *turns);
    if (turns == NULL) {
        return NULL;
    }
    turns->name = strdup(name);
    if (turns->name == NULL) {
        free(turns);
        return NULL;
    }
    turns->say = say;
    turns->of = of;
    turns->ttl = ttl;
    turns->given_back = -1;
    turns->end = &turns->first;
    begin(turns, generation, false, now);
    return turns;
}

void turns_free(struct turns *turns) {
    end(turns);
    free(turns->name);
    free(turns);
}

void turns_next(struct turns *turns, uint64_t generation, int is_whole, int64_t now) {
    bool was_lately = turns->given_back >= 0 && now < turns->given_back + LATELY * turns->ttl;
    bool is_used = turns->holder != NULL || (was_lately && is_whole == 0);
    bool was_idle = generation == turns->generation + 1 && !is_used && !turns->is_early;
    end(turns);
    begin(turns, generation, was_idle, now);
}

void turns_expect(struct turns *turns, int64_t now) {
    if (turns->is_early && now < turns->latest) {
        turns->early = now + EARLY;
    }
}

/* What a line says. */

int turns_ask(struct turns *turns, uint64_t line, uint64_t asker, int how, int64_t now) {
    struct seat *seat = sit_down(turns, line, asker);
    bool is_now = (how & TURN_NOW) != 0, is_mine = (how & TURN_MINE) != 0, has_heartbeat = (how & TURN_HEARTBEAT) != 0;
    if (seat == NULL) {
        return 0;
    }
    seat->has_heartbeat = has_heartbeat;
    seat->takes_slices = has_heartbeat && (how & TURN_SLICES) != 0;
    if (seat == turns->holder) {
        pass_on(turns, now); /* it has lost count of it */
    }
    bool is_first = is_mine && turns->is_early;
    turns->is_early = turns->is_early && !is_mine;
    if (turns->holder == NULL && !turns->is_early && (is_first || turns->first == NULL)) {
        give(turns, seat, now);
        refuse_hurried(turns);
        tidy(turns);
        return 1;
    }
    turns->in_a_row = 0;
    bool is_soon = is_now && has_heartbeat && turns->is_kept;
    if (is_now && !turns->is_early && !is_soon) {
        tell(turns, seat, "busy", "");
    } else if (has_many(turns, seat)) {
        tell(turns, seat, "elsewhere", "");
    } else {
        wait_behind(turns, seat, is_now);
    }
    if (is_soon) {
        tell(turns, seat, "soon", "");
    }
    want_back(turns, now);
    tidy(turns);
    return 1;
}

void turns_back(struct turns *turns, uint64_t line, int64_t epoch, int64_t now) {
    struct seat *seat = seat_of(turns, line);
    if (seat == NULL) {
        return;
    }
    if (seat->waits) {
        wait_no_more(turns, seat);
    }
    if (seat == turns->holder) {
        turns->given_back = now;
        turns->epoch = turns->writes_in = epoch < 0 ? turns->epoch : epoch;
        pass_on(turns, now);
    }
    tidy(turns);
}

void turns_hold(struct turns *turns, uint64_t line) {
    if (turns->holder == NULL || turns->holder->line != line) {
        return;
    }
    turns->is_kept = false;
    turns->unheard = 0;
    if (!turns->is_early) {
        refuse_hurried(turns);
    }
    if (!turns->has_heartbeat || turns->first == NULL) {
        turns->grace = 0;
    }
    tidy(turns);
}

void turns_gone(struct turns *turns, uint64_t line, int64_t now) {
    turns_back(turns, line, -1, now);
    if (turns->last != NULL && turns->last->line == line) {
        turns->last = NULL;
        tidy(turns);
    }
}

int turns_has(const struct turns *turns, uint64_t line) {
    const struct seat *seat = seat_of(turns, line);
    return seat != NULL && (seat->waits || seat == turns->holder);
}

int64_t turns_epoch(const struct turns *turns, uint64_t generation) {
    return turns->generation == generation ? turns->writes_in : -1;
}

/* The clock. */

static bool is_due(int64_t at, int64_t now) {
    return at != 0 && at <= now;
}

/* Asks who has the turn for a heartbeat, or gives the turn to the next one. */
static void end_grace(struct turns *turns, int64_t now) {
    turns->grace = 0;
    if (turns->holder == NULL || !turns->has_heartbeat || turns->unheard >= BEATS) {
        take_away(turns, now);
        return;
    }
    tell(turns, turns->holder, "wanted", "");
    await_heartbeat(turns, now);
}

static void end_slice(struct turns *turns, int64_t now) {
    turns->slice = 0;
    if (turns->holder != NULL && turns->first == NULL) {
        tell(turns, turns->holder, "wanted", "");
    } else {
        want_back(turns, now);
    }
}

int64_t turns_see_clock(struct turns *turns, int64_t now) {
    if (is_due(turns->early, now)) {
        turns->early = 0;
        turns->is_early = false;
        go_on(turns, now);
        tell_hurried(turns);
    }
    if (is_due(turns->slice, now)) {
        end_slice(turns, now);
    }
    if (is_due(turns->grace, now)) {
        end_grace(turns, now);
    }
    tidy(turns);
    int64_t next = INT64_MAX, ends[] = {turns->early, turns->slice, turns->grace};
    for (size_t at = 0; at < sizeof ends / sizeof *ends; at++) {
        next = ends[at] != 0 && ends[at] < next ? ends[at] : next;
    }
    return next;
}
