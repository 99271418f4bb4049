/* Which page server is asked, when another one is beside it, and what is believed of the answers. */
#include "pagelog_copies.h"

#include "pagelog_common.h"
#include "pagelog_copy.h"

#include <poll.h>
#include <stdlib.h>
#include <string.h>

enum {
    SILENCE_MS = 20,       /* after so long without a byte another one is asked, too; */
    LAST_SILENCE_MS = 100, /* after so long nobody is waited for, where all were asked */
    MEASURED_MS = 10000,   /* for which it counts how near one was */
    MOST_MS = 1000,        /* of a question in all */
    LEAST_BEHIND_MS = 5,   /* for which one that has too little is not asked, twice as long each time, */
    MOST_BEHIND_MS = 200,  /* up to this; */
    LEAST_LEFT_MS = 100,   /* and one that has not answered, was silent, or has another history, */
    MOST_LEFT_MS = 5000,   /* up to this */
    MARK_POSITION = 8,
    MARK_SESSION = 24,
    MARK_TRANSACTION = 32, /* of page 0 */
};

struct pagelog_copies {
    struct pagelog_options reader;
    struct pagelog_copy copies[PAGELOG_MOST_PAGE_SERVERS];
    size_t count;
};

struct pagelog_copies *pagelog_copies_new(const struct pagelog_options *reader) {
    struct pagelog_copies *copies = calloc(1, sizeof *copies);
    if (copies) copies->reader = *reader;
    return copies;
}

void pagelog_copies_abandon(struct pagelog_copies *copies) {
    for (size_t i = 0; copies && i < copies->count; i++)
        pagelog_line_leave(&copies->copies[i].line);
}

void pagelog_copies_free(struct pagelog_copies *copies) {
    for (size_t i = 0; copies && i < copies->count; i++)
        pagelog_copy_end(&copies->copies[i]);
    free(copies);
}

/* ---- Which there are ---- */

static const struct pagelog_page_server *find(const struct pagelog_page_server *servers, size_t count,
                                              const struct pagelog_copy *copy) {
    for (size_t i = 0; i < count; i++)
        if (strcmp(servers[i].run, copy->server.run) == 0 &&
            strcmp(servers[i].address, copy->server.address) == 0)
            return &servers[i];
    return NULL;
}

static bool has_one(const struct pagelog_copies *copies, const struct pagelog_page_server *server) {
    for (size_t i = 0; i < copies->count; i++)
        if (find(server, 1, &copies->copies[i])) return true;
    return false;
}

void pagelog_copies_set(struct pagelog_copies *copies, const struct pagelog_page_server *servers,
                        size_t count, const struct pagelog_keepers *keepers,
                        const uint8_t token[PAGELOG_TOKEN_BYTES]) {
    size_t kept = 0;
    for (size_t i = 0; i < copies->count; i++) {
        if (find(servers, count, &copies->copies[i]))
            copies->copies[kept++] = copies->copies[i];
        else
            pagelog_copy_end(&copies->copies[i]);
    }
    copies->count = kept;
    for (size_t i = 0; i < count && copies->count < PAGELOG_MOST_PAGE_SERVERS; i++) {
        uint8_t of_run[PAGELOG_TOKEN_BYTES];
        if (has_one(copies, &servers[i])) continue;
        pagelog_token_of_run(keepers, token, servers[i].run, of_run);
        struct pagelog_copy *copy = &copies->copies[copies->count];
        copies->count += pagelog_copy_begin(copy, &servers[i], of_run, copies->reader.tls);
    }
}

void pagelog_copies_doubt(struct pagelog_copies *copies) {
    for (size_t i = 0; i < copies->count; i++)
        copies->copies[i].proved.number = 0;
}

/* ---- A question ---- */

struct question {
    struct pagelog_copies *copies;
    const struct pagelog_held *held;
    const uint32_t *pages;
    size_t count;
    uint8_t *bytes;
    struct pagelog_copy *order[PAGELOG_MOST_PAGE_SERVERS]; /* who is asked, one after the other */
    size_t candidates, asked;
    uint64_t heard; /* when there was something to hear last, or another one was asked */
};

/* How long its first bytes take; 0 where that is not known of late. */
static uint64_t usual_of(const struct pagelog_copy *copy, uint64_t now) {
    bool is_old = now - copy->asked_ns / 1000000 >= MEASURED_MS;
    return is_old ? 0 : copy->usual_ns;
}

/* The nearest first; one whose time is not known before those whose is, so that it is. */
static void choose(struct question *question, uint64_t now) {
    struct pagelog_copies *copies = question->copies;
    for (size_t i = 0; i < copies->count; i++) {
        struct pagelog_copy *copy = &copies->copies[i];
        size_t at = question->candidates;
        if (copy->free > now || is_before(pagelog_held_last(question->held)->position, copy->server.oldest))
            continue;
        for (; at > 0 && usual_of(question->order[at - 1], now) > usual_of(copy, now); at--)
            question->order[at] = question->order[at - 1];
        question->order[at] = copy;
        question->candidates++;
    }
}

/* Does not ask it for a while, longer each time. */
static void pass_over(struct pagelog_copy *copy, unsigned least, unsigned most) {
    copy->pause_ms = copy->pause_ms < least ? least : 2 * copy->pause_ms;
    if (copy->pause_ms > most) copy->pause_ms = most;
    copy->free = pagelog_after(copy->pause_ms);
}

/* The same, and the connection is closed where something is awaited still. */
static void leave_out(struct pagelog_copy *copy) {
    pagelog_copy_leave(copy);
    pass_over(copy, LEAST_LEFT_MS, MOST_LEFT_MS);
}

/* Asks for pages as the newest transaction left them that it has, by its word; or for that word alone, where
 * it has none that is held. */
static bool ask(struct question *question, struct pagelog_copy *copy) {
    const struct pagelog_held_mark *base = pagelog_held_until(question->held, copy->server.position);
    if (usual_of(copy, pagelog_now()) == 0) copy->usual_ns = 0;
    struct pagelog_position at = base ? base->position : (struct pagelog_position){0};
    bool is_sent = pagelog_copy_ask(copy, &question->copies->reader, at, question->pages, question->count);
    if (!is_sent) leave_out(copy);
    question->heard = pagelog_now();
    return is_sent;
}

/* Asks the next one that can be asked. */
static bool ask_next(struct question *question) {
    while (question->asked < question->candidates)
        if (ask(question, question->order[question->asked++])) return true;
    return false;
}

/* ---- An answer ---- */

enum verdict { RIGHT, AGAIN, BEHIND, WRONG };

static bool is_same_mark(const uint8_t *page, const struct pagelog_held_mark *mark) {
    return pagelog_read_number(page + MARK_POSITION, 8) == mark->position.number &&
           pagelog_read_number(page + MARK_SESSION, 8) == mark->session &&
           pagelog_read_number(page + MARK_TRANSACTION, 8) == mark->transaction;
}

/* What a reply to a get is worth: of one that lags, or has forgotten, nothing is wrong. */
static enum verdict verdict_of(const struct pagelog_reply *reply, struct pagelog_position base) {
    if (reply->kind == PAGELOG_REPLY_PAGE && reply->at == base.number) return RIGHT;
    bool is_out_of_range = reply->kind == PAGELOG_REPLY_DENIED && reply->section == 3;
    return is_out_of_range ? BEHIND : WRONG;
}

/* Takes the pages, and lays over them what came after. */
static enum verdict take_pages(struct question *question, struct pagelog_copy *copy, size_t at,
                               const struct pagelog_held_mark *base) {
    struct pagelog_reply reply;
    if (copy->has_proof) {
        bool is_reply = pagelog_copy_next(copy, &at, &reply);
        enum verdict verdict = is_reply ? verdict_of(&reply, base->position) : WRONG;
        if (verdict != RIGHT) return verdict;
        if (!is_same_mark(reply.bytes, base)) return WRONG;
        copy->proved = base->position;
    }
    for (size_t i = 0; i < question->count; i++) {
        bool is_reply = pagelog_copy_next(copy, &at, &reply);
        enum verdict verdict = is_reply ? verdict_of(&reply, base->position) : WRONG;
        if (verdict != RIGHT) return verdict;
        memcpy(question->bytes + i * PAGELOG_PAGE_BYTES, reply.bytes, PAGELOG_PAGE_BYTES);
    }
    pagelog_held_lay(question->held, base, question->pages, question->count, question->bytes);
    return RIGHT;
}

/* What an answer is worth that is whole. */
static enum verdict judge(struct question *question, struct pagelog_copy *copy) {
    struct pagelog_reply status;
    size_t at = 0;
    if (!pagelog_copy_next(copy, &at, &status) || status.kind != PAGELOG_REPLY_STATUS) return WRONG;
    copy->server.position.number = status.hard;
    const struct pagelog_held_mark *base = pagelog_held_until(question->held, copy->base);
    if (!is_none(copy->base)) return take_pages(question, copy, at, base);
    return pagelog_held_until(question->held, copy->server.position) ? AGAIN : BEHIND;
}

/* Takes an answer. Returns whether it has the pages. */
static bool take_answer(struct question *question, struct pagelog_copy *copy) {
    enum verdict verdict = judge(question, copy);
    pagelog_copy_leave(copy);
    if (verdict == AGAIN && ask(question, copy)) return false;
    if (verdict == RIGHT) copy->pause_ms = 0;
    if (verdict == BEHIND) pass_over(copy, LEAST_BEHIND_MS, MOST_BEHIND_MS);
    if (verdict == WRONG) leave_out(copy);
    return verdict == RIGHT;
}

/* ---- Waiting ---- */

/* Goes on with one that is asked. Returns whether it has answered with the pages. */
static bool go_on(struct question *question, struct pagelog_copy *copy, short ready) {
    bool is_late = pagelog_line_ends(&copy->line, UINT64_MAX) <= pagelog_now();
    bool is_good = !is_late && pagelog_copy_go_on(copy, ready);
    if (ready && is_good && !copy->line.is_connecting) question->heard = pagelog_now();
    if (!is_good) pagelog_line_lose(&copy->line);
    if (!is_good && !pagelog_copy_is_asked(copy)) leave_out(copy);
    return is_good && pagelog_copy_is_answered(copy) && take_answer(question, copy);
}

/* Waits for so long at most. `*is_any` says whether somebody is asked still. Returns whether one has answered
 * with the pages. */
static bool wait_once(struct question *question, uint64_t ms, bool *is_any) {
    struct pollfd polled[PAGELOG_MOST_PAGE_SERVERS];
    struct pagelog_copy *of[PAGELOG_MOST_PAGE_SERVERS];
    size_t count = 0;
    bool has_held = false;
    for (size_t i = 0; i < question->asked; i++) {
        struct pagelog_copy *copy = question->order[i];
        if (!pagelog_copy_is_asked(copy)) continue;
        has_held |= pagelog_line_holds(&copy->line);
        polled[count] = (struct pollfd){.fd = copy->line.socket,
                                        .events = pagelog_line_events(&copy->line, copy->length)};
        of[count++] = copy;
    }
    *is_any = count > 0;
    if (count > 0) poll(polled, count, has_held ? 0 : (int)ms);
    for (size_t i = 0; i < count; i++)
        if (go_on(question, of[i], polled[i].revents)) return true;
    return false;
}

/* Who is asked still has been too slow: the connection is closed, so that nothing is left of the question. */
static void leave_the_slow(struct question *question) {
    for (size_t i = 0; i < question->asked; i++)
        if (pagelog_copy_is_asked(question->order[i])) leave_out(question->order[i]);
}

/* Asks until one has answered with the pages, or none is left to wait for. */
static bool ask_them(struct question *question, uint64_t until) {
    bool is_any = false;
    for (uint64_t now = pagelog_now(); now < until; now = pagelog_now()) {
        bool has_more = question->asked < question->candidates;
        uint64_t end = question->heard + (has_more ? SILENCE_MS : LAST_SILENCE_MS);
        bool is_due = !is_any || now >= end;
        if (is_due && !ask_next(question)) {
            if (now >= end || !is_any) return false;
        } else if (is_due) {
            end = question->heard + SILENCE_MS;
        }
        if (wait_once(question, end > now ? end - now : 0, &is_any)) return true;
    }
    return false;
}

bool pagelog_copies_get(struct pagelog_copies *copies, const struct pagelog_held *held, const uint32_t *pages,
                        size_t count, uint8_t *bytes) {
    struct question question = {
        .copies = copies, .held = held, .pages = pages, .count = count, .bytes = bytes};
    if (count > PAGELOG_COPY_PAGES || !pagelog_held_last(held)) return false;
    choose(&question, pagelog_now());
    bool is_done = ask_them(&question, pagelog_after(MOST_MS));
    leave_the_slow(&question);
    return is_done;
}
