/* Readers of a named database that go to a page server in place of its service: there positions are LSNs, all
 * of them are durable, and the epoch is 1. And those that ask page servers for pages alone, beside where they
 * are, which says what is newest. */
#include "pagelog_copy.h"
#include "pagelog_inside.h"
#include "pagelog_move.h"

#include <stdlib.h>
#include <string.h>

enum { GLANCE_MS = 1000, LIST_MS = 5000, SOON_MS = 50 };

/* Whether a position is not to be had at the service of a place. */
static bool is_below(struct pagelog_position position, const struct pagelog_place *place) {
    return is_before(position, place->base) && place->shift != 0;
}

/* The position that is read: of `at`, or of the transaction; 0: there is none yet. */
static struct pagelog_position position_read(const struct pagelog_file *file) {
    const struct pagelog_position at = {file->options.at}, none = {0};
    bool has_one = !is_none(file->mark.position) && !is_gone(file);
    if (!is_none(at)) return at;
    return has_one ? file->mark.position : none;
}

bool pagelog_wants_page_server(const struct pagelog_file *file, const struct pagelog_place *place) {
    struct pagelog_position position = position_read(file);
    if (!file->options.reads_only || file->options.pages == PAGELOG_PAGES_NEVER) return false;
    if (file->options.pages == PAGELOG_PAGES_ONLY) return true;
    return place->pages > 0 && !is_none(position) && is_below(position, place);
}

/* A page server, as a place. */
static struct pagelog_place place_of(const struct pagelog_place *service,
                                     const struct pagelog_page_server *server) {
    struct pagelog_place place = *service;
    strcpy(place.address, server->address);
    strcpy(place.run, server->run);
    *place.after = 0;
    place.archived = server->position;
    place.base = server->oldest;
    place.shift = 0;
    place.kept.number = 0;
    place.is_page_server = true;
    return place;
}

size_t pagelog_page_server_places(struct pagelog_file *file, const struct pagelog_place *service,
                                  struct pagelog_place found[PAGELOG_MOST_PAGE_SERVERS]) {
    struct pagelog_page_server servers[PAGELOG_MOST_PAGE_SERVERS];
    struct named *named = file->source.named;
    struct pagelog_position position = position_read(file);
    size_t count, chosen = 0, last = PAGELOG_MOST_PAGE_SERVERS;
    if (named->where == NOWHERE) pagelog_keepers_are_of(named->keepers, service);
    if (pagelog_page_servers(named->keepers, servers, &count) != PAGELOG_DONE) return 0;
    for (size_t i = 0; i < count; i++) {
        bool is_here = strcmp(servers[i].run, named->place.run) == 0;
        if (!is_none(position) && is_before(position, servers[i].oldest)) continue;
        if (is_here)
            last = i;
        else
            found[chosen++] = place_of(service, &servers[i]);
    }
    if (last < count) found[chosen++] = place_of(service, &servers[last]);
    return chosen;
}

/* Whether keepers call the page server alive that the file is at. Where none answers it stays. */
static bool is_alive(struct pagelog_file *file) {
    struct pagelog_page_server servers[PAGELOG_MOST_PAGE_SERVERS];
    size_t count;
    if (pagelog_page_servers(file->source.named->keepers, servers, &count) != PAGELOG_DONE) return true;
    for (size_t i = 0; i < count; i++)
        if (strcmp(servers[i].run, file->source.named->place.run) == 0) return true;
    return false;
}

enum pagelog_outcome pagelog_look_at_page_server(struct pagelog_file *file) {
    struct named *named = file->source.named;
    uint64_t now = pagelog_now();
    bool stays = file->options.pages == PAGELOG_PAGES_ONLY || file->options.at > 0;
    named->is_suspect = false;
    named->shown = higher_of(named->shown, file->mark.position);
    if (!stays) { /* the transaction for which it came is over */
        pagelog_give_up_transaction(file);
        return pagelog_move(file, PAGELOG_LOST);
    }
    if (now - named->glanced < GLANCE_MS) return PAGELOG_DONE;
    named->glanced = now;
    return is_alive(file) ? PAGELOG_DONE : pagelog_move(file, PAGELOG_LOST);
}

/* Whether it has a position: DONE, or LOST. */
static enum pagelog_outcome has_position(struct pagelog_file *file, struct pagelog_position position) {
    struct pagelog_reply status;
    enum pagelog_outcome outcome = pagelog_status(file->log, PAGELOG_SECONDARY, &status);
    bool is_behind = outcome == PAGELOG_DONE && is_before(hard_of(file, &status), position);
    return is_behind ? PAGELOG_LOST : outcome;
}

enum pagelog_outcome pagelog_reach_at_page_server(struct pagelog_file *file,
                                                  struct pagelog_position position) {
    struct pagelog_file_patience patience = pagelog_file_patience(file);
    enum pagelog_outcome outcome = pagelog_look_at_page_server(file);
    if (outcome == PAGELOG_DONE && !file->source.named->place.is_page_server)
        return pagelog_file_reach(file, position.number);
    while (outcome == PAGELOG_DONE && file->source.named->place.is_page_server &&
           has_position(file, position) != PAGELOG_DONE) {
        if (!pagelog_file_may_wait(file, &patience))
            return pagelog_file_fail(file, PAGELOG_LOST, "no page server has what was read before");
        outcome = pagelog_look_at_page_server(file);
    }
    return outcome;
}

/* ---- Beside where the file is ---- */

/* Whether page servers are asked for pages of the transaction that is read. */
static bool may_ask(const struct pagelog_file *file) {
    const struct named *named = file->source.named;
    bool is_wanted =
        file->options.pages == PAGELOG_PAGES_PREFERRED || file->options.pages == PAGELOG_PAGES_ONLY;
    bool is_here = named->where != NOWHERE && !is_between(named) && !is_gone(file) && !named->dropped;
    return file->options.reads_only && is_wanted && is_here && named->place.pages > 0 &&
           !is_none(file->mark.position) && pagelog_is_own(file->log);
}

static struct pagelog_held_mark held_mark(const struct mark *mark) {
    return (struct pagelog_held_mark){
        .position = mark->position, .session = mark->session, .transaction = mark->transaction};
}

/* Whether the last transaction that is held is this one, of the run that the file is in. */
static bool is_held(const struct pagelog_file *file, const struct pagelog_held_mark *mark) {
    const struct named *named = file->source.named;
    const struct pagelog_held_mark *last = pagelog_held_last(&named->held);
    return last && strcmp(named->held_run, named->place.run) == 0 && is_at(last->position, mark->position) &&
           last->session == mark->session && last->transaction == mark->transaction;
}

void pagelog_hold_transaction(struct pagelog_file *file, const struct mark *mark) {
    struct pagelog_held_mark before = held_mark(&file->mark), next = held_mark(mark);
    if (is_held(file, &before))
        pagelog_held_add(&file->source.named->held, &next, file->pending.bytes, file->pending.length);
}

/* Holds the transaction that is read. One run has one history: what was proved of page servers holds in it.
 */
static void hold_read(struct pagelog_file *file) {
    struct named *named = file->source.named;
    struct pagelog_held_mark mark = held_mark(&file->mark);
    if (is_held(file, &mark)) return;
    if (strcmp(named->held_run, named->place.run) != 0) pagelog_copies_doubt(named->copies);
    strcpy(named->held_run, named->place.run);
    pagelog_held_begin(&named->held, &mark);
}

void pagelog_file_hear_of_page_servers(struct pagelog_file *file, unsigned count) {
    file->source.named->place.pages = count;
}

/* Asks which page servers there are, where that is due. */
static void list_copies(struct pagelog_file *file) {
    struct named *named = file->source.named;
    struct pagelog_page_server servers[PAGELOG_MOST_PAGE_SERVERS];
    size_t count;
    uint64_t now = pagelog_now();
    if (named->listed > 0 && now - named->listed < LIST_MS) return;
    named->listed = now;
    if (pagelog_page_servers_soon(named->keepers, SOON_MS, servers, &count) == PAGELOG_DONE)
        pagelog_copies_set(named->copies, servers, count, named->keepers, named->token);
}

const uint8_t *pagelog_fetch_copied(struct pagelog_file *file, const uint32_t *pages, size_t count) {
    struct named *named = file->source.named;
    if (!may_ask(file)) return NULL;
    if (!named->copies) named->copies = pagelog_copies_new(&file->options.service);
    if (!named->copied) named->copied = malloc(PAGELOG_COPY_PAGES * PAGELOG_PAGE_BYTES);
    if (!named->copies || !named->copied) return NULL;
    hold_read(file);
    list_copies(file);
    if (!pagelog_copies_get(named->copies, &named->held, pages, count, named->copied)) return NULL;
    file->pages_fetched += count;
    file->pages_copied += count;
    return named->copied;
}
