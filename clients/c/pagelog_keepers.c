/* The keepers of a database, asked side by side: a question goes to some of them at once, and their answers
 * come when they come. What they mean is read elsewhere. */
#include "pagelog_keepers.h"

#include <ctype.h>
#include <errno.h>
#include <poll.h>
#include <stdio.h>
#include <stdlib.h>
#include <string.h>

enum { SLICE_MS = 10 };

static bool set_addresses(struct pagelog_keepers *keepers, const char *addresses) {
    for (const char *at = addresses; *at;) {
        size_t length = strcspn(at, ",");
        if (keepers->count == PAGELOG_MOST_KEEPERS) return false;
        if (!pagelog_line_set_address(&keepers->keepers[keepers->count++], at, length)) return false;
        at += length + (at[length] == ',');
    }
    return keepers->count > 0;
}

static bool is_word(const char *text) {
    size_t length = strlen(text);
    for (size_t i = 0; i < length; i++)
        if (!isgraph((unsigned char)text[i])) return false;
    return length > 0 && length < PAGELOG_PLACE_BYTES;
}

struct pagelog_keepers *pagelog_keepers_new(const char *addresses, const char *name,
                                            struct pagelog_tls *tls) {
    struct pagelog_keepers *keepers = is_word(name) ? calloc(1, sizeof *keepers) : NULL;
    if (!keepers) return NULL;
    for (size_t i = 0; i <= PAGELOG_MOST_KEEPERS; i++)
        keepers->keepers[i] = (struct pagelog_line){.socket = -1, .tls = tls};
    keepers->tls = tls;
    snprintf(keepers->name, sizeof keepers->name, "%s", name);
    if (set_addresses(keepers, addresses)) return keepers;
    free(keepers);
    return NULL;
}

void pagelog_keepers_abandon(struct pagelog_keepers *keepers) {
    for (size_t i = 0; i <= PAGELOG_MOST_KEEPERS; i++)
        pagelog_line_leave(&keepers->keepers[i]);
}

void pagelog_keepers_free(struct pagelog_keepers *keepers) {
    if (!keepers) return;
    pagelog_keepers_abandon(keepers);
    free(keepers);
}

void pagelog_keepers_set_waiting(struct pagelog_keepers *keepers, bool (*goes_on)(void *argument),
                                 void *argument) {
    keepers->waiter = (struct pagelog_waiter){.goes_on = goes_on, .argument = argument};
}

void pagelog_keepers_prove(struct pagelog_keepers *keepers, uint32_t principal,
                           const uint8_t token[PAGELOG_TOKEN_BYTES]) {
    keepers->proof.is_there = true;
    keepers->proof.principal = principal;
    memcpy(keepers->proof.token, token, PAGELOG_TOKEN_BYTES);
    snprintf(keepers->proof.name, sizeof keepers->proof.name, "%s", keepers->name);
}

bool pagelog_keepers_wait_on(struct pagelog_keepers *keepers) {
    return pagelog_waits_on(&keepers->waiter);
}

void pagelog_keepers_wait_again(struct pagelog_keepers *keepers) {
    keepers->waiter.is_given_up = false;
}

void pagelog_keepers_are_of(struct pagelog_keepers *keepers, const struct pagelog_place *place) {
    keepers->own = *place;
    keepers->has_own = true;
}

const char *pagelog_keepers_name(const struct pagelog_keepers *keepers) {
    return keepers->name;
}

const char *pagelog_keepers_reason(const struct pagelog_keepers *keepers) {
    return keepers->reason;
}

bool pagelog_keepers_are_gone(const struct pagelog_keepers *keepers) {
    return keepers->are_gone;
}

const char *pagelog_keepers_why(const struct pagelog_keepers *keepers) {
    for (size_t i = 0; i < keepers->count; i++)
        if (*keepers->keepers[i].why) return keepers->keepers[i].why;
    return "";
}

/* ---- A question ---- */

void pagelog_keepers_ask_all(struct pagelog_keepers *keepers) {
    for (size_t i = 0; i < keepers->count; i++) {
        keepers->keepers[i].proof = NULL;
        pagelog_line_ask(&keepers->keepers[i]);
    }
}

/* Whether an answer is waited for. What can be sent at once is, before the system is asked whether it can. */
static bool is_waited_for(struct pagelog_line *keeper, const char *line, size_t length, uint64_t now) {
    if (keeper->is_asked && pagelog_line_ends(keeper, UINT64_MAX) <= now) {
        keeper->is_silent = true;
        pagelog_line_lose(keeper);
    }
    bool sends = keeper->is_asked && !keeper->is_connecting && pagelog_line_has_more(keeper, length);
    if (sends && !pagelog_line_send(keeper, line, length)) pagelog_line_lose(keeper);
    return keeper->is_asked;
}

int pagelog_keepers_poll(struct pagelog_keepers *keepers, const char *line, uint64_t ms) {
    struct pollfd polled[PAGELOG_MOST_KEEPERS + 1];
    struct pagelog_line *of[PAGELOG_MOST_KEEPERS + 1];
    size_t count = 0, length = strlen(line);
    bool has_held = false; /* of what has come, by TLS */
    uint64_t now = pagelog_now();
    for (size_t i = 0; i <= PAGELOG_MOST_KEEPERS; i++) {
        struct pagelog_line *keeper = &keepers->keepers[i];
        if (!is_waited_for(keeper, line, length, now)) continue;
        polled[count] = (struct pollfd){.fd = keeper->socket, .events = pagelog_line_events(keeper, length)};
        has_held |= pagelog_line_holds(keeper);
        of[count++] = keeper;
    }
    int ready = count == 0 ? -1 : poll(polled, count, has_held ? 0 : (int)ms);
    if (count > 0 && ready < 0 && errno == EINTR) ready = 0; /* the question goes on after a signal */
    if (has_held && ready == 0) ready = 1;
    for (size_t i = 0; i < count && ready > 0; i++) {
        bool is_good = true;
        if (polled[i].revents && pagelog_line_has_more(of[i], length))
            is_good = pagelog_line_send(of[i], line, length);
        else if (polled[i].revents || pagelog_line_holds(of[i]))
            is_good = pagelog_line_read(of[i]);
        if (!is_good) pagelog_line_lose(of[i]);
    }
    return ready;
}

/* A round that waits. False where nobody is asked, or the wait is over. */
static bool wait_once(struct pagelog_keepers *keepers, const char *line, uint64_t deadline) {
    uint64_t now = pagelog_now(), left = deadline - now;
    if (now >= deadline || keepers->waiter.is_given_up) return false;
    int ready = pagelog_keepers_poll(keepers, line, left < SLICE_MS ? left : SLICE_MS);
    return ready == 0 ? pagelog_waits_on(&keepers->waiter) : ready > 0;
}

bool pagelog_keepers_take(struct pagelog_keepers *keepers, char answer[PAGELOG_LINE_BYTES]) {
    for (size_t i = 0; i <= PAGELOG_MOST_KEEPERS; i++) {
        struct pagelog_line *keeper = &keepers->keepers[i];
        if (!keeper->is_asked || !pagelog_line_take(keeper, answer)) continue;
        keeper->is_asked = false;
        return true;
    }
    return false;
}

bool pagelog_keepers_next(struct pagelog_keepers *keepers, const char *line, uint64_t deadline,
                          char answer[PAGELOG_LINE_BYTES]) {
    do {
        if (pagelog_keepers_take(keepers, answer)) return true;
    } while (wait_once(keepers, line, deadline));
    return false;
}

void pagelog_keepers_stop(struct pagelog_keepers *keepers, const char *line, bool is_answered_at_once) {
    for (size_t i = 0; i <= PAGELOG_MOST_KEEPERS; i++) {
        struct pagelog_line *keeper = &keepers->keepers[i];
        if (!keeper->is_asked) continue;
        keeper->is_asked = false;
        if (is_answered_at_once && !keeper->is_connecting && keeper->sent == strlen(line))
            keeper->unheard++;
        else
            pagelog_line_leave(keeper);
    }
}

/* ---- A question to one ---- */

struct pagelog_line *pagelog_keepers_find(struct pagelog_keepers *keepers, const char *lines) {
    struct pagelog_line wanted = {.socket = -1, .tls = keepers->tls};
    struct pagelog_line *other = &keepers->keepers[PAGELOG_MOST_KEEPERS];
    if (!lines || !pagelog_line_set_address(&wanted, lines, strlen(lines))) return NULL;
    for (size_t i = 0; i < keepers->count; i++)
        if (strcmp(keepers->keepers[i].host, wanted.host) == 0 &&
            strcmp(keepers->keepers[i].port, wanted.port) == 0)
            return &keepers->keepers[i];
    if (strcmp(other->host, wanted.host) == 0 && strcmp(other->port, wanted.port) == 0) return other;
    pagelog_line_leave(other);
    *other = wanted;
    return other;
}

void pagelog_keepers_prove_to(struct pagelog_keepers *keepers, struct pagelog_line *keeper, const char *of) {
    if (of != keepers->proof.of) snprintf(keepers->proof.of, sizeof keepers->proof.of, "%s", of);
    keeper->proof = keepers->proof.is_there ? &keepers->proof : NULL;
}

size_t pagelog_keepers_ask(struct pagelog_keepers *keepers, struct pagelog_line *keeper, const char *line,
                           uint64_t ms, char answer[PAGELOG_LINE_BYTES], char *words[PAGELOG_MOST_WORDS]) {
    pagelog_line_ask_on(keeper);
    size_t count = pagelog_keepers_next(keepers, line, pagelog_after(ms), answer)
                       ? pagelog_split_words(answer, words)
                       : 0;
    pagelog_keepers_stop(keepers, line, false);
    return count;
}
