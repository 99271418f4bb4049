/* What writers may say to the thread that gives write locks, under libFuzzer (clients/c/fuzz): each step of
 * the input begins with a byte. Its lowest two bits say over which of three lines something comes, or that
 * time goes by; the others for how long, or how many bytes: none for a line up to its end.
 *
 * Whatever comes, who has the turn was told so, and does not wait for it; what is said is of the words of
 * turns, and of this database. */
#include "fast_path.h"

#include <libpq-fe.h>
#include <pthread.h>
#include <stdatomic.h>
#include <stdlib.h>
#include <string.h>
#include <time.h>
#include <unistd.h>

static int64_t now_of_run = 1;

#define clock_gettime(clock, now)                                                                            \
    ((void)(*(now) = (struct timespec){now_of_run / 1000, now_of_run % 1000 * 1000000}))
#include "fast_path_parts.h"
#include "fuzz_text.h"

#include <sys/socket.h>

static ssize_t come(int socket, void *to, size_t room, int flags);
static ssize_t go(int socket, const void *bytes, size_t length, int flags);

#define recv                      come
#define send                      go
#define shutdown(descriptor, how) ((void)(descriptor))
#define tell                      tell_turns
#define begin                     begin_turns
#define end                       end_turns
#include "fast_path_turns.c"
#undef tell
#undef begin
#undef end
#include "fast_path_writers.c"

enum { LINES = 3, TTL = 2000 };

static struct writers writers;
static struct writer lines[LINES];
static const uint8_t *input;
static size_t left;
static bool was_told[LINES];

static void must(const char *what, bool holds) {
    if (holds) return;
    fprintf(stderr, "fuzz_turns: %s\n", what);
    abort();
}

/* All at once; what there is no room for comes with the next call, and after all of it nothing. */
static ssize_t come(int socket, void *to, size_t room, int flags) {
    size_t count = left < room ? left : room;
    (void)socket, (void)flags;
    must("there is room", room > 0);
    memcpy(to, input, count);
    input += count;
    left -= count;
    return (ssize_t)count;
}

static bool begins(const char *text, size_t length, const char *with) {
    size_t count = strlen(with);
    return length > count && memcmp(text, with, count) == 0;
}

static void see(uint64_t number, const char *text, size_t length) {
    static const char *const words[] = {"turn shop", "busy shop", "soon shop", "wanted shop",
                                        "elsewhere shop"};
    size_t word = 0;
    while (word < sizeof words / sizeof *words && !begins(text, length, words[word]))
        word++;
    must("it is a word of turns", word < sizeof words / sizeof *words);
    was_told[number] = was_told[number] || word == 0;
}

static ssize_t go(int socket, const void *bytes, size_t length, int flags) {
    (void)flags;
    must("a line ends", length > 0 && length < ANSWER && ((const char *)bytes)[length - 1] == '\n');
    see((uint64_t)socket, bytes, length);
    return (ssize_t)length;
}

/* Of the other parts. */
void watch_no_more(struct plane *plane, int descriptor) {
    (void)plane, (void)descriptor;
}
bool watch(struct plane *plane, int descriptor, void *owner) {
    (void)plane, (void)descriptor, (void)owner;
    return true;
}
void say(struct plane *plane, struct event *event, enum way_news news, void *owner) {
    (void)plane, (void)event;
    if (news != WRITER_SAID) return;
    struct said *said = owner;
    if (said->len > 0) see(said->number, said->text, said->len + 1);
    free(said);
}

static void see_turns(void) {
    const struct turns *turns = writers.turns;
    size_t waiting = 0;
    for (const struct seat *seat = turns->first; seat; seat = seat->behind, waiting++)
        must("who waits has it not", seat->waits && seat != turns->holder && waiting < LINES);
    must("all who wait are in the list", waiting == turns->waiting);
    must("who has it was told so", !turns->holder || was_told[turns->holder->line]);
}

static void start(void) {
    static struct plane plane;
    static char name[] = "shop", of[] = "i/r";
    now_of_run = 1;
    writers =
        (struct writers){.plane = &plane, .name = name, .ttl = TTL, .looks_at = INT64_MAX, .lines = lines};
    writers.turns = turns_new(name, 1, TTL, now_of_run, tell, &writers);
    must("there is memory", writers.turns != NULL);
    for (int i = 0; i < LINES; i++) {
        struct writer *line = &lines[i];
        line->writers = &writers, line->number = line->asker = (uint64_t)i, line->descriptor = i,
        line->of = of;
        line->next = i + 1 < LINES ? &lines[i + 1] : NULL;
        line->place = i > 0 ? &lines[i - 1].next : &writers.lines;
        line->is_back = line->has_turn = was_told[i] = false;
        line->heard_at = now_of_run;
        line->len = 0;
    }
}

/* How many of the bytes come over a line by this step. */
static size_t count_of(uint8_t step, const uint8_t *bytes, size_t size) {
    const uint8_t *end = size > 0 ? memchr(bytes, '\n', size) : NULL;
    size_t count = step >> 2 ? step >> 2 : end ? (size_t)(end - bytes) + 1 : size;
    return count < size ? count : size;
}

int LLVMFuzzerTestOneInput(const uint8_t *bytes, size_t size) {
    start();
    for (size_t at = 0; at < size;) {
        uint8_t step = bytes[at++];
        if (step % 4 == LINES) {
            now_of_run += (step >> 2) * 32;
            see_writers_clock(&writers, now_of_run);
        } else {
            struct writer *line = &lines[step % 4];
            input = bytes + at, left = count_of(step, bytes + at, size - at);
            at += left;
            while (left > 0 && !line->is_back)
                hear_writer(line);
            must("it has room", line->len <= sizeof line->data);
        }
        see_turns();
    }
    turns_free(writers.turns);
    return 0;
}
