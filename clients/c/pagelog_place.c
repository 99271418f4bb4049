/* Where a database is, of what its keepers answer. */
#include "pagelog_keepers.h"

#include "pagelog_sha256.h"

#include <stdio.h>
#include <string.h>

enum {
    LATER_MS = 20, /* for the others, once one has said where the database is, */
    SOON_MS = 200, /* and once one has said that it is nowhere */
    WHERE_BYTES = PAGELOG_PLACE_BYTES + 16,
};

/* Keepers have another database of the name, or none. DENIED: one says that this is so for good; a keeper
 * that is cut off may only know less. */
static enum pagelog_outcome ask_own(struct pagelog_keepers *keepers) {
    enum pagelog_loss loss = pagelog_keepers_ask_loss(keepers);
    if (loss == PAGELOG_DROPPED) keepers->reason = "the database was dropped";
    if (loss == PAGELOG_ANOTHER) keepers->reason = "the keepers have another database of this name";
    return keepers->reason ? PAGELOG_DENIED : PAGELOG_LOST;
}

/* Of two answers that of the higher generation; of one generation, of who knows most of its archive: one that
 * has not looked for a while knows less of both. */
static bool is_newer(const struct pagelog_place *told, const struct pagelog_place *place) {
    if (told->generation != place->generation) return told->generation > place->generation;
    return is_before(place->archived, told->archived);
}

static bool is_own(const struct pagelog_keepers *keepers, const struct pagelog_place *place) {
    return !keepers->has_own || strcmp(keepers->own.database, place->database) == 0;
}

/* Takes an answer. Returns whether it says where the database is. */
static bool take_answer(const struct pagelog_keepers *keepers, char *answer, uint64_t least,
                        struct told *told, struct pagelog_place *place) {
    char *words[PAGELOG_MOST_WORDS];
    struct pagelog_place found;
    size_t count = pagelog_split_words(answer, words);
    bool is_place = pagelog_read_place(words, count, &found);
    told->answers++;
    told->unknown += count > 0 && strcmp(words[0], "unknown") == 0;
    told->old += is_place && !*found.database;
    if (!is_place || !*found.database) return false;
    if (!is_own(keepers, &found)) told->is_other = true;
    if (!is_own(keepers, &found) || found.generation < least) return false;
    if (!told->is_found || is_newer(&found, place)) *place = found;
    return told->is_found = true;
}

/* What is to be said where no keeper has told a place of this database. */
static enum pagelog_outcome refuse_place(struct pagelog_keepers *keepers, const struct told *told) {
    bool is_unknown = told->unknown > 0 && told->unknown == told->answers;
    if (keepers->has_own && (is_unknown || told->is_other) && ask_own(keepers) == PAGELOG_DENIED)
        return PAGELOG_DENIED;
    if (told->old < keepers->count) return is_unknown ? PAGELOG_DENIED : PAGELOG_LOST;
    keepers->reason = "all keepers are of version 1: they are upgraded before their clients";
    return PAGELOG_DENIED;
}

static void say_where(const struct pagelog_keepers *keepers, char line[WHERE_BYTES]) {
    snprintf(line, WHERE_BYTES, "where %s\n", keepers->name);
}

/* Begins a question for the place. */
static struct told ask_where(struct pagelog_keepers *keepers, uint64_t wanted, char line[WHERE_BYTES]) {
    say_where(keepers, line);
    pagelog_keepers_ask_all(keepers);
    return (struct told){.until = pagelog_after(PAGELOG_ANSWER_MS), .wanted = wanted};
}

/* Takes an answer to it: for others it is not waited for long, once one has said something. For who opens,
 * that one knows of no such database is nothing: another may. Else what became of it is asked then. */
static void take_where(const struct pagelog_keepers *keepers, char *answer, uint64_t least, struct told *told,
                       struct pagelog_place *place) {
    size_t unknown = told->unknown;
    bool is_here = take_answer(keepers, answer, least, told, place) && place->generation >= told->wanted;
    uint64_t soon = pagelog_after(is_here ? LATER_MS : SOON_MS);
    bool says_something = told->unknown == unknown || keepers->has_own;
    if (says_something && soon < told->until) told->until = soon;
}

/* Whether none of those that were asked may still answer. */
static bool none_is_silent(const struct pagelog_keepers *keepers) {
    for (size_t i = 0; i < keepers->count; i++)
        if (keepers->keepers[i].is_asked || keepers->keepers[i].is_silent) return false;
    return true;
}

enum pagelog_outcome pagelog_where(struct pagelog_keepers *keepers, uint64_t least,
                                   struct pagelog_place *place) {
    return pagelog_where_later(keepers, least, least, place);
}

enum pagelog_outcome pagelog_where_later(struct pagelog_keepers *keepers, uint64_t least, uint64_t wanted,
                                         struct pagelog_place *place) {
    char line[WHERE_BYTES], answer[PAGELOG_LINE_BYTES];
    keepers->reason = NULL;
    struct told told = ask_where(keepers, wanted, line);
    while (pagelog_keepers_next(keepers, line, told.until, answer))
        take_where(keepers, answer, least, &told, place);
    keepers->are_gone = told.answers == 0 && none_is_silent(keepers);
    pagelog_keepers_stop(keepers, line, true);
    return told.is_found ? PAGELOG_DONE : refuse_place(keepers, &told);
}

/* ---- A question that nobody waits for ---- */

void pagelog_where_begin(struct pagelog_keepers *keepers, uint64_t wanted) {
    char line[WHERE_BYTES];
    say_where(keepers, line);
    pagelog_keepers_stop(keepers, line, true); /* one that nobody has heard the end of: its answers are old */
    keepers->told = ask_where(keepers, wanted, line);
}

bool pagelog_where_take(struct pagelog_keepers *keepers, uint64_t ms, struct pagelog_told *said) {
    char line[WHERE_BYTES], answer[PAGELOG_LINE_BYTES];
    struct told *told = &keepers->told;
    uint64_t until = pagelog_after(ms);
    int ready = 1;
    say_where(keepers, line);
    while (ready > 0 || (ready == 0 && ms > 0 && pagelog_now() < until && pagelog_now() < told->until)) {
        while (pagelog_keepers_take(keepers, answer))
            take_where(keepers, answer, 0, told, &keepers->found);
        ready = pagelog_keepers_poll(keepers, line, ms > 0 ? 1 : 0);
    }
    *said = (struct pagelog_told){
        .generation = told->is_found ? keepers->found.generation : 0,
        .is_doubtful = !told->is_found && (told->unknown > 0 || told->is_other),
    };
    if (told->is_found) strcpy(said->run, keepers->found.run);
    if (told->is_found) said->pages = keepers->found.pages;
    if (ready >= 0 && pagelog_now() < told->until) return false;
    pagelog_keepers_stop(keepers, line, true);
    return true;
}

/* ---- What a place is for ---- */

void pagelog_token_of_run(const struct pagelog_keepers *keepers, const uint8_t token[PAGELOG_TOKEN_BYTES],
                          const char *run, uint8_t of_run[PAGELOG_TOKEN_BYTES]) {
    char text[PAGELOG_PLACE_BYTES + PAGELOG_RUN_BYTES];
    uint8_t code[PAGELOG_SHA256_BYTES];
    int length = snprintf(text, sizeof text, "%s/%s", keepers->name, run);
    pagelog_hmac_sha256(token, PAGELOG_TOKEN_BYTES, text, (size_t)length, code);
    memcpy(of_run, code, PAGELOG_TOKEN_BYTES);
}
