/* The lines of a turn. */
#include "pagelog_turn.h"

#include "pagelog_common.h"

#include <poll.h>
#include <stdio.h>
#include <stdlib.h>
#include <string.h>

enum { ANSWER_MS = 1000, SHUNNED_MS = 1000, PATIENT_MS = 3000, FRESH_MS = 10, MOST_READS = 128 };

/* For so long after the first loss who dies again and again is waited for each time. */
enum { MOST_PATIENT_MS = 10000 };

/* So soon after a place has become known a keeper that lives may wait for who wrote last in the generation
 * before, and answers nobody else for a second. */
enum { YOUNG_MS = 2000 };

/* Of who writes one transaction after the other: milliseconds from one to the next, and how many times. */
enum { GAP_MS = 1, FEW_GAPS = 3, MOST_SLICE_MS = 1000 };

void pagelog_turn_begin(struct pagelog_turn *turn, const char *name, struct pagelog_tls *tls) {
    *turn = (struct pagelog_turn){.line = {.socket = -1, .tls = tls}};
    snprintf(turn->name, sizeof turn->name, "%s", name);
}

void pagelog_turn_prove(struct pagelog_turn *turn, uint32_t principal,
                        const uint8_t token[PAGELOG_TOKEN_BYTES]) {
    turn->proof.is_there = true;
    turn->proof.principal = principal;
    memcpy(turn->proof.token, token, PAGELOG_TOKEN_BYTES);
    snprintf(turn->proof.name, sizeof turn->proof.name, "%s", turn->name);
}

void pagelog_turn_leave(struct pagelog_turn *turn) {
    pagelog_line_leave(&turn->line);
    turn->is_mine = turn->is_mine || (turn->is_held && turn->has_newest);
    if (turn->is_held) turn->mine_in = 0;
    turn->has_newest = false;
    turn->slice = 0;
    turn->is_asked = turn->is_soon = turn->is_held = turn->is_same = turn->is_kept = false;
    turn->is_wanted = turn->is_unheard = false;
}

/* The keeper does not answer: it is asked again later, and meanwhile nobody. */
static enum pagelog_outcome lose(struct pagelog_turn *turn) {
    pagelog_turn_leave(turn);
    turn->shunned = pagelog_after(SHUNNED_MS);
    if (turn->patient == 0) turn->patient = pagelog_after(PATIENT_MS);
    if (turn->most_patient == 0) turn->most_patient = pagelog_after(MOST_PATIENT_MS);
    return PAGELOG_LOST;
}

/* Its connection has ended. A keeper that had it wait, or was still to answer, has lived until now: another
 * one may have it from now on. */
static enum pagelog_outcome lose_line(struct pagelog_turn *turn) {
    bool has_lived = turn->is_asked && turn->line.version > 0;
    if (has_lived && pagelog_now() < turn->most_patient) turn->patient = 0;
    return lose(turn);
}

/* The number of a key, where that is said and below `most`; 0: it is not. */
static uint32_t read_key(const char *text, const char *key, unsigned long most) {
    const char *at = strstr(text, key);
    unsigned long number = at ? strtoul(at + strlen(key), NULL, 10) : 0;
    return number < most ? (uint32_t)number : 0;
}

/* Takes a line: false where it is none of a turn. */
static bool take(struct pagelog_turn *turn, char *text) {
    char word[16], name[PAGELOG_PLACE_BYTES], how[16] = "", kept[16] = "";
    if (sscanf(text, "%15s %255s %15s %15s", word, name, how, kept) < 2) return false;
    if (strcmp(word, "wanted") == 0) {
        turn->is_wanted = turn->is_unheard = true;
    } else if (strcmp(word, "soon") == 0) {
        turn->is_soon = turn->is_asked;
    } else if (strcmp(word, "turn") == 0) {
        turn->is_asked = turn->is_soon = turn->is_wanted = turn->is_unheard = turn->is_mine = false;
        turn->is_held = true;
        turn->patient = turn->most_patient = 0;
        turn->is_same = turn->has_newest = strcmp(how, "same") == 0;
        turn->is_kept = strcmp(kept, "kept") == 0;
        turn->epoch = read_key(text, " epoch=", UINT32_MAX);
        uint32_t ms = read_key(text, " slice=", MOST_SLICE_MS);
        turn->slice = ms > 0 ? pagelog_after(ms) : 0;
    } else if (strcmp(word, "busy") == 0) {
        turn->is_asked = turn->is_soon = false;
    } else {
        return false;
    }
    return true;
}

enum pagelog_outcome pagelog_turn_look(struct pagelog_turn *turn) {
    char text[PAGELOG_LINE_BYTES];
    if (turn->line.socket < 0) return PAGELOG_LOST;
    turn->looked = pagelog_now();
    bool is_good = true;
    for (unsigned reads = 0; is_good && (reads == 0 || pagelog_line_holds(&turn->line)); reads++) {
        is_good = pagelog_line_read(&turn->line) && reads < MOST_READS;
        while (pagelog_line_take(&turn->line, text))
            if (!take(turn, text)) return lose(turn);
    }
    if (!is_good) return lose_line(turn);
    return turn->is_held ? PAGELOG_DONE : PAGELOG_CONFLICT;
}

/* Reads the answer to the greeting, before which nothing else comes. */
static bool read_greeting(struct pagelog_line *line) {
    char text[PAGELOG_LINE_BYTES];
    return pagelog_line_read(line) && !pagelog_line_take(line, text);
}

/* Sends a whole line, over a connection that may not be open yet. */
static bool say(struct pagelog_turn *turn, const char *word, const char *more) {
    char text[PAGELOG_PLACE_BYTES + sizeof turn->of + 64];
    int length = snprintf(text, sizeof text, "%s %s%s of=%s\n", word, turn->name, more, turn->of);
    uint64_t until = pagelog_after(ANSWER_MS);
    turn->line.sent = 0;
    while (turn->line.socket >= 0 && turn->line.sent < (size_t)length) {
        bool has_more = pagelog_line_has_more(&turn->line, (size_t)length);
        bool has_held = !has_more && pagelog_line_holds(&turn->line);
        struct pollfd fd = {.fd = turn->line.socket,
                            .events = pagelog_line_events(&turn->line, (size_t)length)};
        uint64_t now = pagelog_now(), ends = pagelog_line_ends(&turn->line, until);
        int ready = has_held ? 1 : poll(&fd, 1, now < ends ? (int)(ends - now) : 0);
        if ((ready == 0 && ends == until) || (ready < 0 && now >= until)) return false;
        if (ready < 0) continue; /* a signal: it may not be open yet */
        if (ready > 0 && !has_more && read_greeting(&turn->line)) continue;
        if (ready > 0 && has_more && pagelog_line_send(&turn->line, text, (size_t)length)) continue;
        pagelog_line_lose(&turn->line);
        turn->line.sent = 0;
        if (now >= until) return false;
    }
    return turn->line.socket >= 0;
}

/* Whether the keeper may wait for who wrote last: it has answered the greeting in a place that is new. */
static bool is_young(const struct pagelog_turn *turn, uint64_t now) {
    return turn->line.version > 0 && now - turn->led < YOUNG_MS;
}

/* Waits for the answer to a question that is answered at once, if only by `soon`. One that a keeper which
 * lives still owes is waited for longer, and nobody is patient for longer than with any other. */
static enum pagelog_outcome answer(struct pagelog_turn *turn) {
    uint64_t began = pagelog_now(), until = pagelog_after(ANSWER_MS);
    for (;;) {
        struct pollfd fd = {.fd = turn->line.socket, .events = POLLIN};
        uint64_t now = pagelog_now();
        enum pagelog_outcome outcome = pagelog_turn_look(turn);
        if (outcome != PAGELOG_CONFLICT || !turn->is_asked || turn->is_soon) return outcome;
        if (now >= until && is_young(turn, now)) until = turn->led + YOUNG_MS;
        if (now >= until && turn->patient == 0) turn->patient = began + ANSWER_MS + PATIENT_MS;
        if (now >= until) return lose(turn);
        poll(&fd, 1, (int)(until - now));
    }
}

/* Has the line lead to this keeper. */
static bool lead_to(struct pagelog_turn *turn, const struct pagelog_place *place) {
    char of[sizeof turn->of];
    snprintf(of, sizeof of, "%s/%s", place->database, place->run);
    if (strcmp(turn->of, of) == 0 && strcmp(turn->lines, place->lines) == 0) return true;
    struct pagelog_line wanted = {.socket = -1, .tls = turn->line.tls};
    if (!pagelog_line_set_address(&wanted, place->lines, strlen(place->lines))) return false;
    pagelog_turn_leave(turn);
    turn->line = wanted;
    snprintf(turn->lines, sizeof turn->lines, "%s", place->lines);
    strcpy(turn->of, of);
    strcpy(turn->proof.of, of);
    turn->line.proof = turn->proof.is_there ? &turn->proof : NULL;
    turn->generation = place->generation;
    turn->led = pagelog_now();
    turn->shunned = turn->patient = turn->most_patient = 0;
    return true;
}

/* Whether a turn is kept, and was looked after so short a time ago that nobody else can have it. */
static bool is_fresh(const struct pagelog_turn *turn, uint64_t now) {
    return turn->is_held && turn->is_kept && !turn->is_wanted && now - turn->looked < FRESH_MS;
}

static void give_back(struct pagelog_turn *turn) {
    turn->is_held = turn->is_asked = turn->is_soon = turn->is_kept = turn->is_wanted = turn->is_unheard =
        false;
    char how[32] = "";
    if (turn->written > 0) snprintf(how, sizeof how, " epoch=%u", turn->written);
    turn->written = 0;
    if (turn->line.socket >= 0 && !say(turn, "back", how)) lose(turn);
}

/* Notes whether it is asked for right after it was given back, or would have been. */
static void note_gap(struct pagelog_turn *turn, uint64_t now) {
    if (turn->given == 0) return;
    turn->gaps = now - turn->given > GAP_MS ? 0 : turn->gaps < FEW_GAPS ? turn->gaps + 1 : FEW_GAPS;
    turn->given = 0;
}

static bool writes_on(const struct pagelog_turn *turn) {
    return turn->takes_slices && turn->gaps == FEW_GAPS;
}

enum pagelog_outcome pagelog_turn_ask(struct pagelog_turn *turn, const struct pagelog_place *place,
                                      bool now) {
    uint64_t time = pagelog_now();
    turn->is_used = true;
    if (!lead_to(turn, place) || time < turn->shunned) return PAGELOG_LOST;
    if (turn->mine_in > 0 && turn->mine_in != turn->generation) turn->is_mine = false;
    if (!is_fresh(turn, time) && turn->line.socket >= 0 && pagelog_turn_look(turn) == PAGELOG_LOST)
        turn->shunned = 0;
    bool is_over = turn->is_wanted || (turn->slice > 0 && time >= turn->slice);
    note_gap(turn, time);
    if (turn->is_held && is_over) give_back(turn);
    if (turn->is_held) {
        turn->is_same = true;
        return PAGELOG_DONE;
    }
    pagelog_line_ask(&turn->line);
    turn->is_asked = true;
    char how[32];
    snprintf(how, sizeof how, "%s%s%s%s", now ? " now" : "", turn->is_mine ? " mine" : "",
             turn->has_heartbeat ? " heartbeat" : "", writes_on(turn) ? " slices" : "");
    if (!say(turn, "turn", how)) return lose(turn);
    return now ? answer(turn) : pagelog_turn_look(turn);
}

bool pagelog_turn_may_come(const struct pagelog_turn *turn) {
    return !turn->is_mine && pagelog_now() < turn->patient;
}

void pagelog_turn_heartbeat(struct pagelog_turn *turn) {
    if (!turn->is_held || pagelog_turn_look(turn) != PAGELOG_DONE || !turn->is_unheard) return;
    turn->is_unheard = false;
    if (!turn->is_used)
        give_back(turn);
    else if (!say(turn, "hold", ""))
        lose(turn);
}

void pagelog_turn_hold(struct pagelog_turn *turn) {
    if (turn->is_kept && !is_fresh(turn, pagelog_now())) pagelog_turn_heartbeat(turn);
}

void pagelog_turn_give(struct pagelog_turn *turn, uint64_t generation) {
    uint64_t now = pagelog_now();
    turn->is_used = false;
    if (turn->is_held) turn->given = now;
    if (turn->is_held && turn->generation != generation) {
        pagelog_turn_leave(turn);
        turn->mine_in = generation;
        return;
    }
    if (turn->line.socket < 0 || (!turn->is_held && !turn->is_asked)) return;
    if (turn->slice > 0 && turn->is_held && (now >= turn->slice || !writes_on(turn))) return give_back(turn);
    if (is_fresh(turn, now)) return;
    if (turn->is_kept && pagelog_turn_look(turn) == PAGELOG_DONE && !turn->is_wanted) return;
    give_back(turn);
}
