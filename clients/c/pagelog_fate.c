/* What has become of positions and of runs, as keepers say; and what is told to the keeper of a run. */
#include "pagelog_keepers.h"

#include <stdio.h>
#include <string.h>

enum {
    SILENCE_MS = 3000, /* for what becomes durable; then another may know more */
};

/* Which run is meant, as lines name it. */
static void name_run(const struct pagelog_place *place, char of[PAGELOG_OF_BYTES]) {
    snprintf(of, PAGELOG_OF_BYTES, "%s/%s", place->database, place->run);
}

/* A keeper of version 1 knows numbers alone: what it says is of this run if it has this run now. Of a
 * generation that is over it may be of another run, or of another database. */
static bool ask_older(struct pagelog_keepers *keepers, struct pagelog_line *keeper,
                      const struct pagelog_place *place, struct pagelog_position position,
                      struct pagelog_fate *fate) {
    char line[PAGELOG_QUESTION_BYTES], answer[PAGELOG_LINE_BYTES], *words[PAGELOG_MOST_WORDS];
    struct pagelog_place now;
    snprintf(line, sizeof line, "durable %s %llu %llu\n", keepers->name,
             (unsigned long long)place->generation, (unsigned long long)position.number);
    size_t count = pagelog_keepers_ask(keepers, keeper, line, SILENCE_MS, answer, words);
    *fate = (struct pagelog_fate){0};
    if (!pagelog_read_end(words, count, position, fate) || fate->is_over) return false;
    snprintf(line, sizeof line, "where %s\n", keepers->name);
    count = pagelog_keepers_ask(keepers, keeper, line, SILENCE_MS, answer, words);
    return pagelog_read_place(words, count, &now) && now.generation == place->generation &&
           strcmp(now.run, place->run) == 0;
}

/* Asks one keeper. */
static bool ask_fate(struct pagelog_keepers *keepers, struct pagelog_line *keeper,
                     const struct pagelog_place *place, struct pagelog_position position, uint64_t ms,
                     struct pagelog_fate *fate) {
    char line[PAGELOG_QUESTION_BYTES], of[PAGELOG_OF_BYTES], answer[PAGELOG_LINE_BYTES];
    char *words[PAGELOG_MOST_WORDS];
    name_run(place, of);
    snprintf(line, sizeof line, "durable %s %llu %llu of=%s\n", keepers->name,
             (unsigned long long)place->generation, (unsigned long long)position.number, of);
    pagelog_keepers_prove_to(keepers, keeper, of);
    size_t count = keeper->version == 1 ? 0 : pagelog_keepers_ask(keepers, keeper, line, ms, answer, words);
    if (keeper->version == 1) return ask_older(keepers, keeper, place, position, fate);
    return pagelog_read_fate(words, count, position, of, fate);
}

enum pagelog_outcome pagelog_fate_of(struct pagelog_keepers *keepers, const char *lines,
                                     const struct pagelog_place *place, struct pagelog_position position,
                                     struct pagelog_fate *fate) {
    struct pagelog_line *first = pagelog_keepers_find(keepers, lines);
    if (first && ask_fate(keepers, first, place, position, SILENCE_MS, fate)) return PAGELOG_DONE;
    for (size_t i = 0; i < keepers->count; i++) {
        struct pagelog_line *keeper = &keepers->keepers[i];
        if (keeper != first && ask_fate(keepers, keeper, place, position, SILENCE_MS, fate))
            return PAGELOG_DONE;
    }
    return PAGELOG_LOST;
}

enum pagelog_outcome pagelog_fate_at_once(struct pagelog_keepers *keepers, const struct pagelog_place *place,
                                          struct pagelog_position position, uint64_t ms,
                                          struct pagelog_fate *fate) {
    struct pagelog_line *holder = pagelog_keepers_find(keepers, place->lines);
    return holder && ask_fate(keepers, holder, place, position, ms, fate) ? PAGELOG_DONE : PAGELOG_LOST;
}

enum pagelog_loss pagelog_keepers_ask_loss(struct pagelog_keepers *keepers) {
    const struct pagelog_place *own = &keepers->own;
    char line[PAGELOG_QUESTION_BYTES], of[PAGELOG_OF_BYTES], answer[PAGELOG_LINE_BYTES];
    char *words[PAGELOG_MOST_WORDS];
    struct pagelog_fate fate = {0};
    uint64_t until = pagelog_after(PAGELOG_ANSWER_MS);
    name_run(own, of);
    snprintf(line, sizeof line, "durable %s %llu 0 of=%s\n", keepers->name,
             (unsigned long long)own->generation, of);
    for (size_t i = 0; i < keepers->count; i++) {
        if (keepers->keepers[i].version == 1) continue;
        pagelog_keepers_prove_to(keepers, &keepers->keepers[i], of);
        pagelog_line_ask(&keepers->keepers[i]);
    }
    while (!fate.loss && pagelog_keepers_next(keepers, line, until, answer))
        if (!pagelog_read_fate(words, pagelog_split_words(answer, words), (struct pagelog_position){0}, of,
                               &fate))
            fate.loss = PAGELOG_NOT_LOST;
    pagelog_keepers_stop(keepers, line, false);
    return fate.loss;
}

/* ---- What the keeper of a run is told ---- */

void pagelog_keepers_ring(struct pagelog_keepers *keepers, const struct pagelog_place *place) {
    char line[PAGELOG_QUESTION_BYTES], of[PAGELOG_OF_BYTES];
    struct pagelog_line *keeper = pagelog_keepers_find(keepers, place->lines);
    bool is_open = keeper && keeper->socket >= 0 && !keeper->is_connecting;
    if (!is_open || keeper->is_asked || keeper->version < 2) return; /* the first one answers it */
    name_run(place, of);
    pagelog_keepers_prove_to(keepers, keeper, of);
    size_t length = (size_t)snprintf(line, sizeof line, "ring %s %llu of=%s\n", keepers->name,
                                     (unsigned long long)place->generation, of);
    keeper->sent = 0;
    if (!pagelog_line_send(keeper, line, length) || keeper->sent < length) pagelog_line_leave(keeper);
}

/* Nothing answers `full` itself: the answer that is waited for is that of the line after it. */
void pagelog_keepers_tell_full(struct pagelog_keepers *keepers, const struct pagelog_place *place) {
    char line[2 * PAGELOG_QUESTION_BYTES], of[PAGELOG_OF_BYTES], answer[PAGELOG_LINE_BYTES],
        *words[PAGELOG_MOST_WORDS];
    struct pagelog_line *keeper = pagelog_keepers_find(keepers, place->lines);
    if (!keeper || keeper->version == 1) return;
    name_run(place, of);
    snprintf(line, sizeof line, "full %s %llu of=%s\nwhere %s\n", keepers->name,
             (unsigned long long)place->generation, of, keepers->name);
    pagelog_keepers_prove_to(keepers, keeper, of);
    size_t count = pagelog_keepers_ask(keepers, keeper, line, SILENCE_MS, answer, words);
    if (count > 0 && strcmp(words[0], "what") == 0) pagelog_line_leave(keeper); /* it answers both */
}
