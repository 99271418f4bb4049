/* What a keeper may say under libFuzzer (clients/c/fuzz): the answer to the greeting with its nonce, places,
 * fates, and addresses. The first byte of the input says in which pieces the rest comes.
 *
 * The same answers are taken however they come; what is read of one fits its place; and a nonce is one or
 * nothing. */
#include "fuzz_text.h"

#include "../pagelog_common.h"

#include <sys/socket.h>

static ssize_t come(int socket, void *to, size_t room, int flags);

#define pagelog_now() ((uint64_t)0) /* no call of the system in a run */
#define recv          come
#include "../pagelog_line.c"
#undef recv
#include "../pagelog_words.c"

enum { MOST_INPUT = 4096, ANSWERS = 64 };

static const uint8_t *input;
static size_t left, piece;

static ssize_t come(int socket, void *to, size_t room, int flags) {
    size_t count = left < piece ? left : piece;
    (void)socket, (void)flags;
    if (count > room) count = room;
    memcpy(to, input, count);
    input += count;
    left -= count;
    if (piece <= SIZE_MAX / 2) piece *= 2; /* few pieces, of which the first may end anywhere */
    return (ssize_t)count;
}

static void must(const char *what, bool holds) {
    if (holds) return;
    fprintf(stderr, "fuzz_lines: %s\n", what);
    abort();
}

static void must_fit(const char *text, size_t room) {
    must("it ends in its place", strnlen(text, room) < room);
}

/* ---- What is taken of a line ---- */

struct taken {
    char answers[ANSWERS][PAGELOG_LINE_BYTES];
    size_t count;
    unsigned version;
    char nonce[PAGELOG_NONCE_BYTES];
};

static void take_all(struct taken *taken, const uint8_t *bytes, size_t size, size_t most) {
    static struct pagelog_line line;
    line.socket = 0;
    line.length = 0;
    line.version = 0;
    line.unheard = size % 3;
    *line.nonce = 0;
    input = bytes, left = size, piece = most;
    taken->count = 0;
    for (bool is_good = true; is_good && taken->count < ANSWERS;) {
        is_good = pagelog_line_read(&line);
        must("it has room", line.length <= PAGELOG_LINE_BYTES);
        while (taken->count < ANSWERS && pagelog_line_take(&line, taken->answers[taken->count]))
            taken->count++;
    }
    taken->version = line.version;
    memcpy(taken->nonce, line.nonce, sizeof line.nonce);
}

/* ---- What is read of an answer ---- */

static void read_answer(char *words[PAGELOG_MOST_WORDS], size_t count) {
    static const char *const runs[] = {"", "i/r"};
    const struct pagelog_position position = {7};
    struct pagelog_place place;
    struct pagelog_fate fate;
    if (pagelog_read_place(words, count, &place)) {
        must_fit(place.run, sizeof place.run);
        must_fit(place.address, sizeof place.address);
        must_fit(place.lines, sizeof place.lines);
        must_fit(place.database, sizeof place.database);
        must_fit(place.ancestor, sizeof place.ancestor);
        must_fit(place.after, sizeof place.after);
        must("positions are numbers", place.archived.number <= PAGELOG_LAST_LSN &&
                                          place.base.number <= PAGELOG_LAST_LSN &&
                                          place.generation <= PAGELOG_LAST_LSN);
    }
    for (size_t i = 0; i < sizeof runs / sizeof *runs; i++) {
        bool is_said = pagelog_read_fate(words, count, position, runs[i], &fate);
        must("nothing is durable that is below", !is_said || fate.is_over || !is_before(fate.end, position));
    }
}

static void read_servers(char *words[PAGELOG_MOST_WORDS], size_t count) {
    struct pagelog_page_server found[PAGELOG_MOST_PAGE_SERVERS];
    size_t servers = pagelog_read_page_servers(words, count, found);
    must("there is room for all", servers <= PAGELOG_MOST_PAGE_SERVERS);
    for (size_t i = 0; i < servers; i++) {
        must_fit(found[i].address, sizeof found[i].address);
        must_fit(found[i].run, sizeof found[i].run);
        must("its positions are numbers",
             found[i].position.number <= PAGELOG_LAST_LSN && found[i].oldest.number <= PAGELOG_LAST_LSN);
    }
}

static void read_address(const char *answer) {
    static struct pagelog_line line;
    size_t length = strlen(answer);
    if (length > 0 && pagelog_line_set_address(&line, answer, length)) {
        must_fit(line.host, sizeof line.host);
        must_fit(line.port, sizeof line.port);
    }
}

static void read_nonce(const char *nonce) {
    size_t length = strlen(nonce);
    must("it is a nonce or none",
         length == 0 || (length == PAGELOG_NONCE_BYTES - 1 && strspn(nonce, "0123456789abcdef") == length));
}

int LLVMFuzzerTestOneInput(const uint8_t *bytes, size_t size) {
    static struct taken whole, pieces;
    if (size < 2 || size > MOST_INPUT) return 0;
    take_all(&whole, bytes + 1, size - 1, SIZE_MAX);
    take_all(&pieces, bytes + 1, size - 1, 1 + bytes[0]);
    must("as many", whole.count == pieces.count && whole.version == pieces.version);
    must("the same nonce", strcmp(whole.nonce, pieces.nonce) == 0);
    read_nonce(whole.nonce);
    for (size_t i = 0; i < whole.count; i++) {
        char *words[PAGELOG_MOST_WORDS];
        must("the same answer", strcmp(whole.answers[i], pieces.answers[i]) == 0);
        read_address(whole.answers[i]);
        size_t count = pagelog_split_words(whole.answers[i], words);
        read_answer(words, count);
        read_servers(words, count);
    }
    return 0;
}
