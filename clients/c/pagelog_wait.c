/* While a file of a named database waits: who waits may end it, and a generation that is over does. A service
 * that stands still, or a machine that is gone, says neither. */
#include "pagelog_move.h"

#include <stdio.h>

enum { GLANCE_MS = 1000 };

bool pagelog_file_is_overtaken(struct pagelog_file *file) {
    struct named *named = file->source.named;
    struct pagelog_place place;
    uint64_t now = pagelog_now();
    if (!named || named->where == NOWHERE || named->place.is_page_server || now - named->waited < GLANCE_MS)
        return false;
    named->waited = now;
    return pagelog_where(named->keepers, named->place.generation + 1, &place) == PAGELOG_DONE;
}

static bool waits_on(void *argument) {
    struct pagelog_file *file = argument;
    struct named *named = file->source.named;
    if (named->goes_on && !named->goes_on(named->argument)) return false;
    if (named->wait == FOR_A_TIME) return true;
    named->wait = pagelog_file_is_overtaken(file) ? OVERTAKEN : FOR_A_REPLY;
    return named->wait == FOR_A_REPLY;
}

void pagelog_let_wait(struct pagelog_file *file, bool (*goes_on)(void *argument), void *argument) {
    struct named *named = file->source.named;
    named->goes_on = goes_on;
    named->argument = argument;
    named->wait = FOR_A_REPLY;
    pagelog_set_waiting(file->log, waits_on, file);
    pagelog_keepers_set_waiting(named->keepers, goes_on, argument);
}

void pagelog_wait_again(struct pagelog_file *file) {
    struct named *named = file->source.named;
    if (named->wait != OVERTAKEN) return;
    named->wait = FOR_A_REPLY;
    pagelog_set_waiting(file->log, waits_on, file);
}

const char *pagelog_explain_wait(struct pagelog_file *file, const char *sentence, const char *otherwise) {
    struct named *named = file->source.named;
    const char *why = pagelog_keepers_why(named->keepers);
    if (!*why) why = pagelog_tls_why(file->log);
    const char *between = *why ? ": " : "";
    snprintf(named->why, sizeof named->why, "%s%s%s", sentence, between, *why ? why : otherwise);
    return named->why;
}

bool pagelog_may_pause(struct pagelog_file *file) {
    pagelog_wait_again(file);
    file->source.named->wait = FOR_A_TIME;
    bool may_pause = pagelog_goes_on(file->log);
    file->source.named->wait = FOR_A_REPLY;
    return may_pause;
}
