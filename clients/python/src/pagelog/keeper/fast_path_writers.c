#include "fast_path_parts.h"

#include <errno.h>
#include <stdio.h>
#include <string.h>
#include <sys/socket.h>

/* The lines of those who write a database: the thread reads them while nothing else is said over them than words of turns. */

enum { EPOCH_DIGITS = 10, ANSWER = WAY_LINE + 128 };

void free_writer(struct writer *line) {
    free(line->of);
    free(line);
}

void free_writers(struct writers *writers) {
    free(writers->name);
    free(writers);
}

static void return_line(struct writer *line) {
    struct writers *writers = line->writers;
    watch_no_more(writers->plane, line->descriptor);
    *line->place = line->next;
    if (line->next != NULL) {
        line->next->place = line->place;
    }
    line->is_back = true;
    line->has_turn = writers->turns != NULL && turns_has(writers->turns, line->number) != 0;
    say(writers->plane, &line->event, WRITER_BACK, line);
}

static void return_all(struct writers *writers) {
    while (writers->lines != NULL) {
        return_line(writers->lines);
    }
}

/* What is said. */

/* False where the client takes nothing now: then the line is the keeper's. */
static bool send_text(struct writer *line, const char *text) {
    char answer[ANSWER];
    int len = snprintf(answer, sizeof answer, "%s\n", text);
    ssize_t sent = send(line->descriptor, answer, (size_t)len, MSG_DONTWAIT | MSG_NOSIGNAL);
    if (sent == len) {
        return true;
    }
    if (sent > 0) {
        shutdown(line->descriptor, SHUT_RDWR); /* it reads nothing; it asks again over another connection */
        return true;
    }
    return_line(line);
    return false;
}

/* Has the keeper tell it. Without memory it is told nobody: who is silent for a while has the turn no more. */
static void have_told(struct writers *writers, uint64_t number, const char *text) {
    size_t len = strlen(text);
    struct said *said = malloc(sizeof *said + len);
    if (said == NULL) {
        return;
    }
    *said = (struct said){.key = writers->key, .number = number, .len = len};
    memcpy(said->text, text, len);
    writers->said++;
    say(writers->plane, &said->event, WRITER_SAID, said);
}

static void tell(void *of, uint64_t number, const char *text) {
    struct writers *writers = of;
    struct writer *line = writers->lines;
    while (line != NULL && line->number != number) {
        line = line->next;
    }
    if (line == NULL || (*text != 0 && !send_text(line, text))) {
        have_told(writers, number, text);
    }
}

/* What is heard. */

struct word {
    const char *at;
    size_t len;
};

/* The next word of a text, whose words have one space between them. False where there is none. */
static bool take_word(const char **text, struct word *word) {
    *word = (struct word){.at = *text, .len = strcspn(*text, " ")};
    *text += word->len;
    if (**text == ' ') {
        ++*text;
    }
    return word->len > 0;
}

static bool is_word(const struct word *word, const char *text) {
    return word->len == strlen(text) && memcmp(word->at, text, word->len) == 0;
}

static int how_of(const struct word *word) {
    static const char *const texts[] = {"now", "mine", "heartbeat", "slices"};
    for (size_t at = 0; at < sizeof texts / sizeof *texts; at++) {
        if (is_word(word, texts[at])) {
            return TURN_NOW << at;
        }
    }
    return 0;
}

static bool read_epoch(const struct word *word, int64_t *epoch) {
    static const char key[] = "epoch=";
    size_t at = sizeof key - 1, end = word->len;
    if (end <= at || end - at > EPOCH_DIGITS || memcmp(word->at, key, at) != 0) {
        return false;
    }
    for (*epoch = 0; at < end && word->at[at] >= '0' && word->at[at] <= '9'; at++) {
        *epoch = *epoch * 10 + (word->at[at] - '0');
    }
    return at == end;
}

/* Does what a line says, which ends with a zero. False where that is for the keeper. */
static bool obey(struct writer *line, const char *text, int64_t now) {
    struct writers *writers = line->writers;
    struct word verb, word;
    int how = 0;
    int64_t epoch = -1;
    bool is_of = false;
    if (!take_word(&text, &verb) || !take_word(&text, &word) || !is_word(&word, writers->name)) {
        return false;
    }
    bool asks = is_word(&verb, "turn"), gives = is_word(&verb, "back"), holds = is_word(&verb, "hold");
    while (*text != 0) {
        if (!take_word(&text, &word)) {
            return false;
        }
        int more = asks ? how_of(&word) : 0;
        bool is_this = is_word(&word, line->of);
        if (!is_this && more == 0 && !(gives && read_epoch(&word, &epoch))) {
            return false;
        }
        how |= more;
        is_of |= is_this;
    }
    if (!is_of || !(asks || gives || holds)) {
        return false;
    }
    if (gives) {
        turns_back(writers->turns, line->number, epoch, now);
    } else if (holds) {
        turns_hold(writers->turns, line->number);
    }
    return !asks || turns_ask(writers->turns, line->number, line->asker, how, now) != 0;
}

/* Reads what has come. False where the line is the keeper's. */
static bool hear(struct writer *line, int64_t now) {
    ssize_t got = recv(line->descriptor, line->data + line->len, sizeof line->data - line->len, MSG_DONTWAIT);
    if (got < 0 && (errno == EAGAIN || errno == EINTR)) {
        return true;
    }
    if (got <= 0) {
        turns_gone(line->writers->turns, line->number, now); /* before the keeper has seen it */
        return false;
    }
    line->len += (size_t)got;
    line->heard_at = now;
    char *end;
    while (!line->is_back && (end = memchr(line->data, '\n', line->len)) != NULL) {
        size_t len = (size_t)(end - line->data) + 1;
        *end = 0;
        if (memchr(line->data, 0, len - 1) != NULL || !obey(line, line->data, now)) {
            *end = '\n';
            return false;
        }
        line->len -= len;
        memmove(line->data, line->data + len, line->len);
    }
    return line->len < sizeof line->data;
}

void hear_writer(struct writer *line) {
    if (line->is_back) {
        return;
    }
    int64_t now = now_ms();
    if (!hear(line, now) && !line->is_back) {
        return_line(line);
    }
    wake_by(line->writers->plane, turns_see_clock(line->writers->turns, now));
}

/* Lines that nobody uses are the keeper's: it may close them. */
static void look_for_idle(struct writers *writers, int64_t now) {
    writers->looks_at = writers->lines == NULL ? INT64_MAX : now + writers->ttl;
    for (struct writer *line = writers->lines, *next; line != NULL; line = next) {
        next = line->next;
        if (now - line->heard_at >= writers->ttl && turns_has(writers->turns, line->number) == 0) {
            return_line(line);
        }
    }
}

int64_t see_writers_clock(struct writers *writers, int64_t now) {
    if (now >= writers->looks_at) {
        look_for_idle(writers, now);
    }
    int64_t next = turns_see_clock(writers->turns, now);
    return next < writers->looks_at ? next : writers->looks_at;
}

/* What other threads call. */

/* Hands it over. False where nothing is taken any more. */
static bool hand_over(struct plane *plane, struct order *order) {
    pthread_mutex_lock(&plane->lock);
    bool takes = !plane->takes_none && !order->writers->takes_none;
    if (takes) {
        *plane->last_order = order;
        plane->last_order = &order->next;
    }
    pthread_mutex_unlock(&plane->lock);
    if (takes) {
        wake(plane->control);
    }
    return takes;
}

struct writers *writers_new(struct plane *plane, const struct writers_start *start) {
    struct writers *writers = calloc(1, sizeof *writers);
    struct order *order = calloc(1, sizeof *order);
    if (writers != NULL && order != NULL) {
        writers->plane = plane;
        writers->key = start->key;
        writers->ttl = start->ttl_ms;
        writers->looks_at = INT64_MAX;
        writers->name = strdup(start->name);
        writers->turns = turns_new(start->name, start->generation, start->ttl_ms, now_ms(), tell, writers);
        *order = (struct order){.writers = writers, .begins = true};
        if (writers->name != NULL && writers->turns != NULL && hand_over(plane, order)) {
            return writers;
        }
        free(writers->name);
        if (writers->turns != NULL) {
            turns_free(writers->turns);
        }
    }
    free(writers);
    free(order);
    return NULL;
}

/* A line that the thread is to read. */
static struct writer *new_writer(struct writers *writers, const struct writers_order *order) {
    struct writer *line = calloc(1, sizeof *line);
    if (line == NULL) {
        return NULL;
    }
    line->kind = WRITER;
    line->writers = writers;
    line->number = order->line;
    line->asker = order->asker;
    line->descriptor = order->descriptor;
    line->of = strdup(order->of);
    if (line->of == NULL) {
        free(line);
        return NULL;
    }
    return line;
}

int writers_do(struct writers *writers, const struct writers_order *what) {
    struct order *order = calloc(1, sizeof *order);
    bool adds = what->word == WRITERS_TURN && what->descriptor >= 0;
    if (order == NULL) {
        return 0;
    }
    order->writers = writers;
    order->what = *what;
    order->added = adds ? new_writer(writers, what) : NULL;
    if ((!adds || order->added != NULL) && hand_over(writers->plane, order)) {
        return 1;
    }
    if (order->added != NULL) {
        free_writer(order->added);
    }
    free(order);
    return 0;
}

/* In the thread. */

static void take_line(struct writers *writers, struct writer *line, uint64_t heard, int64_t now) {
    line->heard_at = now;
    line->next = writers->lines;
    line->place = &writers->lines;
    if (line->next != NULL) {
        line->next->place = &line->next;
    }
    writers->lines = line;
    if (writers->looks_at == INT64_MAX) {
        writers->looks_at = now + writers->ttl;
    }
    /* What the keeper is to tell comes before what is told over it. */
    if (heard != writers->said || !watch(writers->plane, line->descriptor, line)) {
        return_line(line);
    }
}

static struct order *next_order(struct plane *plane) {
    pthread_mutex_lock(&plane->lock);
    struct order *order = plane->orders;
    if (order != NULL) {
        plane->orders = order->next;
        if (plane->orders == NULL) {
            plane->last_order = &plane->orders;
        }
    }
    pthread_mutex_unlock(&plane->lock);
    return order;
}

static void meet(struct way *way, struct writers *writers) {
    if (way->writers == NULL && writers->way == NULL && strcmp(way->name, writers->name) == 0) {
        way->writers = writers;
        writers->way = way;
    }
}

void meet_writers(struct way *way) {
    for (struct writers *writers = way->plane->writers; writers != NULL; writers = writers->next) {
        meet(way, writers);
    }
}

void leave_writers(struct way *way) {
    if (way->writers != NULL) {
        way->writers->way = NULL;
        way->writers = NULL;
    }
}

static void begin(struct writers *writers) {
    struct plane *plane = writers->plane;
    writers->next = plane->writers;
    writers->place = &plane->writers;
    if (writers->next != NULL) {
        writers->next->place = &writers->next;
    }
    plane->writers = writers;
    for (struct way *way = plane->ways; way != NULL; way = way->next) {
        meet(way, writers);
    }
}

static void ask(struct writers *writers, const struct order *order, int64_t now) {
    const struct writers_order *what = &order->what;
    if (order->added != NULL) {
        take_line(writers, order->added, what->heard, now);
    }
    if (turns_ask(writers->turns, what->line, what->asker, what->how, now) == 0) {
        char text[ANSWER];
        snprintf(text, sizeof text, "elsewhere %s", writers->name);
        tell(writers, what->line, text);
    }
}

/* The line is closed, whoever reads it. */
static void leave(struct writers *writers, uint64_t number, int64_t now) {
    turns_gone(writers->turns, number, now);
    struct writer *line = writers->lines;
    while (line != NULL && line->number != number) {
        line = line->next;
    }
    if (line != NULL) {
        return_line(line);
    }
}

static void obey_order(const struct order *order, int64_t now) {
    struct writers *writers = order->writers;
    const struct writers_order *what = &order->what;
    switch ((enum writers_word)what->word) {
    case WRITERS_TURN:
        ask(writers, order, now);
        break;
    case WRITERS_BACK:
        turns_back(writers->turns, what->line, what->epoch, now);
        break;
    case WRITERS_HOLD:
        turns_hold(writers->turns, what->line);
        break;
    case WRITERS_GONE:
        leave(writers, what->line, now);
        break;
    case WRITERS_EXPECT:
        turns_expect(writers->turns, now);
        break;
    case WRITERS_NEXT:
        turns_next(writers->turns, what->generation, what->how, now);
        return_all(writers);
        break;
    case WRITERS_END:
        end_writers(writers);
        return;
    }
    wake_by(writers->plane, see_writers_clock(writers, now));
}

void take_writers_orders(struct plane *plane) {
    struct order *order;
    int64_t now = now_ms();
    while ((order = next_order(plane)) != NULL) {
        if (order->begins) {
            begin(order->writers);
            wake_by(plane, see_writers_clock(order->writers, now));
        } else {
            obey_order(order, now);
        }
        free(order);
    }
}

/* Takes nothing more from other threads. Lines that they have given meanwhile the keeper knows. */
static void take_no_more(struct writers *writers) {
    struct plane *plane = writers->plane;
    pthread_mutex_lock(&plane->lock);
    writers->takes_none = true;
    struct order **place = &plane->orders;
    while (*place != NULL) {
        struct order *order = *place;
        if (order->writers != writers) {
            place = &order->next;
            continue;
        }
        *place = order->next;
        if (order->added != NULL) {
            free_writer(order->added);
        }
        free(order);
    }
    plane->last_order = place;
    pthread_mutex_unlock(&plane->lock);
}

void end_writers(struct writers *writers) {
    take_no_more(writers);
    *writers->place = writers->next;
    if (writers->next != NULL) {
        writers->next->place = writers->place;
    }
    if (writers->way != NULL) {
        leave_writers(writers->way);
    }
    turns_free(writers->turns);
    writers->turns = NULL;
    return_all(writers);
    say(writers->plane, &writers->ended, WRITERS_ENDED, writers);
}
