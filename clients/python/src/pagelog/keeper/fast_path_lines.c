#include "fast_path_parts.h"

#include <errno.h>
#include <inttypes.h>
#include <stdio.h>
#include <string.h>
#include <sys/socket.h>

void give_back(struct line *line) {
    struct way *way = line->way;
    watch_no_more(way->plane, line->descriptor);
    *line->place = line->next;
    if (line->next != NULL) {
        line->next->place = line->place;
    }
    line->is_back = true;
    say(way->plane, &line->event, WAY_LINE_BACK, line);
}

/* Answers by this word, and how far all is archived. False where the client takes no answer: then it is the keeper's, and so is its
 * question. */
static bool tell(struct way *way, struct line *line, const char *word) {
    char answer[2 * WAY_LINE + 2 * NUMBER];
    int len = snprintf(answer, sizeof answer, "%s %s %" PRIu64 " %" PRIu64 "%s%s\n", word, way->name, way->start.generation, way->reached,
                       line->is_named ? " " : "", line->is_named ? way->of : "");
    ssize_t sent = send(line->descriptor, answer, (size_t)len, MSG_DONTWAIT | MSG_NOSIGNAL);
    if (sent == len) {
        line->position = 0;
        return true;
    }
    if (sent > 0) {
        shutdown(line->descriptor, SHUT_RDWR); /* it reads nothing; it asks again over another connection */
    }
    return false;
}

void tell_all(struct way *way) {
    for (struct line *line = way->lines, *next; line != NULL; line = next) {
        next = line->next;
        bool is_due = line->position != 0 && line->position <= way->reached;
        if (is_due && !tell(way, line, "durable")) {
            give_back(line);
        }
    }
}

/* Reads a number, and what comes before it: `text` goes on behind it. */
static bool read_number(const char **text, uint64_t *number) {
    const char *at = *text;
    *number = 0;
    while (*at >= '0' && *at <= '9' && at - *text < 18) {
        *number = *number * 10 + (uint64_t)(*at++ - '0');
    }
    bool is_one = at > *text;
    *text = at;
    return is_one;
}

/* Whether the text goes on with this word and a space; then it is passed. */
static bool passes(const char **text, const char *word) {
    size_t len = strlen(word);
    if (strncmp(*text, word, len) != 0 || (*text)[len] != ' ') {
        return false;
    }
    *text += len + 1;
    return true;
}

/* Answers one line, which ends with a zero. False where it is nothing for the fast path, as what is asked of another run. */
static bool answer(struct way *way, struct line *line, const char *text) {
    uint64_t generation, position = 0;
    bool rings = passes(&text, "ring");
    if ((!rings && !passes(&text, "durable")) || !passes(&text, way->name) || !read_number(&text, &generation)) {
        return false;
    }
    if (!rings && (!passes(&text, "") || !read_number(&text, &position))) {
        return false;
    }
    bool is_of_this = *text == ' ' && strcmp(text + 1, way->of) == 0, is_unnamed = *text == 0 && way->start.takes_unnamed != 0;
    if ((!is_of_this && !is_unnamed) || generation != way->start.generation || (!rings && (position == 0 || line->position != 0))) {
        return false;
    }
    way->asked_at = now_ms();
    if (rings) {
        way->rung = true;
        return true;
    }
    if (position <= way->reached) {
        return tell(way, line, "durable");
    }
    line->position = position;
    line->asked = false;
    return true;
}

/* Reads what has come. False where the line is the keeper's. */
static bool hear(struct way *way, struct line *line) {
    ssize_t got = recv(line->descriptor, line->data + line->len, sizeof line->data - line->len, MSG_DONTWAIT);
    if (got < 0 && (errno == EAGAIN || errno == EINTR)) {
        return true;
    }
    if (got <= 0) {
        line->position = 0; /* the client is gone, and waits for nothing */
        return false;
    }
    line->len += (size_t)got;
    char *end;
    while ((end = memchr(line->data, '\n', line->len)) != NULL) {
        size_t len = (size_t)(end - line->data) + 1;
        *end = 0;
        if (memchr(line->data, 0, len - 1) != NULL || !answer(way, line, line->data)) {
            *end = '\n';
            return false;
        }
        line->len -= len;
        memmove(line->data, line->data + len, line->len);
    }
    return line->len < sizeof line->data;
}

void hear_line(struct line *line) {
    if (line->is_back) {
        return;
    }
    set_active(line->way);
    if (!hear(line->way, line)) {
        give_back(line);
    }
}

/* Going on. */

void tell_above(struct way *way) {
    for (struct line *line = way->lines, *next; line != NULL; line = next) {
        next = line->next;
        if (line->asked && line->position > way->reached && !tell(way, line, "above")) {
            give_back(line);
        }
    }
}

void tell_archived(struct way *way) {
    if (way->tells) {
        way->tells = false;
        tell_all(way);
        tell_news(way);
    }
}

void tell_news(struct way *way) {
    if (way->news_due) {
        way->news_due = false;
        say(way->plane, &way->archived, WAY_ARCHIVED, way);
    }
}

bool is_wanted(const struct way *way, uint64_t position) {
    for (const struct line *line = way->lines; line != NULL; line = line->next) {
        if (line->position > position) {
            return true;
        }
    }
    return way->rung;
}
