/* What a client may ask of a page server, under libFuzzer (clients/c/fuzz): frames, in pieces that the first
 * byte of the input says; the second says whether the client takes its replies at once.
 *
 * Whatever comes, each whole frame has one whole reply, of the size of its kind, in the order of the
 * requests; and the replies are the same however the frames come. */
#include "block.h"
#define PAGE_BYTES 64 /* what a page has is read by nobody here */
#include "connection.h"

#include <errno.h>
#include <stdio.h>
#include <stdlib.h>
#include <string.h>
#include <sys/socket.h>
#include <unistd.h>

static ssize_t come(int socket, void *to, size_t room, int flags);
static ssize_t go(int socket, const void *bytes, size_t length, int flags);

#define recv              come
#define send              go
#define close(descriptor) ((void)(descriptor))
#include "connection.c"
#undef recv
#undef send
#include "answer.c"
#include "table.c"

enum { CONFIRMED = 9, OLDEST = 3, WAIT_MS = 50, MOST_ASKED = 1 << 12, MOST_REPLIED = 1 << 18 };

struct replies {
    uint8_t bytes[MOST_REPLIED];
    size_t length;
};

static const uint8_t *input;
static size_t left, piece;
static bool is_slow;
static struct replies *replies;

static void must(const char *what, bool holds) {
    if (holds) return;
    fprintf(stderr, "fuzz_frames: %s\n", what);
    abort();
}

/* What is left comes piece by piece; then the client waits for its replies, and goes. */
static ssize_t come(int socket, void *to, size_t room, int flags) {
    static bool was_empty;
    size_t count = left < piece ? left : piece;
    (void)socket, (void)flags;
    must("there is room", room > 0);
    if (left == 0 && !was_empty) {
        was_empty = true;
        errno = EAGAIN;
        return -1;
    }
    was_empty = false;
    if (count > room) count = room;
    memcpy(to, input, count);
    input += count;
    left -= count;
    if (piece <= SIZE_MAX / 2) piece *= 2; /* few pieces, of which the first may end anywhere */
    return (ssize_t)count;
}

static ssize_t go(int socket, const void *bytes, size_t length, int flags) {
    static bool was_full;
    (void)socket, (void)flags;
    if (is_slow && !was_full) {
        was_full = true;
        errno = EAGAIN;
        return -1;
    }
    was_full = false;
    size_t count = is_slow && length > 7 ? length / 2 : length;
    must("replies are bounded", replies->length + count <= MOST_REPLIED);
    memcpy(replies->bytes + replies->length, bytes, count);
    replies->length += count;
    return (ssize_t)count;
}

/* Of the other parts: a store that has one page, and a block in each position. */
uint64_t store_confirmed(const struct store *store) {
    (void)store;
    return CONFIRMED;
}
uint64_t store_oldest(const struct store *store) {
    (void)store;
    return OLDEST;
}
bool store_page(struct store_view *view, uint32_t page, uint64_t position, uint8_t out[PAGE_BYTES]) {
    (void)view;
    must("a page is of a position that it has", position >= OLDEST && position <= CONFIRMED);
    memset(out, (int)(page + position), PAGE_BYTES);
    return true;
}
static uint64_t reads;
uint64_t store_reads(struct store_view *view) {
    (void)view;
    return ++reads;
}
bool store_has_page(struct store *store, uint32_t page, uint64_t position) {
    (void)store, (void)position;
    return page % 2;
}
uint64_t ahead_read(struct ahead *ahead, struct store_view *view, const struct place *places,
                    unsigned count) {
    (void)ahead, (void)view;
    must("what is read ahead is bounded", count <= MOST_AHEAD);
    for (unsigned n = 0; n < count; n++)
        must("a page is of a position that it has",
             places[n].position >= OLDEST && places[n].position <= CONFIRMED);
    return count;
}
bool store_block(struct store_view *view, uint64_t *position, uint64_t last, unsigned low, unsigned high,
                 const uint8_t **block, size_t *length) {
    static uint8_t bytes[20];
    (void)view;
    must("blocks are of positions that it has", *position >= OLDEST && last <= CONFIRMED && low <= high);
    if (*position > last) *position = 0;
    *block = bytes, *length = 8 + *position;
    return true;
}
bool shown_lets_in(const struct shown *shown, const struct pagelog_secure *secure) {
    (void)shown, (void)secure;
    return true;
}
ssize_t pagelog_secure_send(struct pagelog_secure *secure, const void *bytes, size_t length, int flags) {
    (void)secure;
    return go(0, bytes, length, flags);
}
ssize_t pagelog_secure_receive(struct pagelog_secure *secure, void *bytes, size_t room, int flags) {
    (void)secure;
    return come(0, bytes, room, flags);
}
enum pagelog_shake pagelog_secure_shake(struct pagelog_secure *secure) {
    (void)secure;
    return SHAKE_DONE;
}
void pagelog_secure_end(struct pagelog_secure *secure) {
    (void)secure;
}

/* Each reply is whole, and of the size of its kind. Returns how many there are. */
static size_t see_replies(void) {
    size_t count = 0;
    for (size_t at = 0, length; at < replies->length; at += FRAME_HEAD + length, count++) {
        size_t rest = replies->length - at;
        must("a reply has a head", rest > FRAME_HEAD);
        const uint8_t *body = replies->bytes + at + FRAME_HEAD;
        length = (size_t)number_at(replies->bytes + at, FRAME_HEAD);
        must("a reply is whole", length >= 2 && length <= rest - FRAME_HEAD);
        switch (body[0]) {
        case PAGE:
            must("a page", length == 9 + PAGE_BYTES);
            break;
        case STATUS_REPLY:
            must("a status", length == 33 && number_at(body + 9, 8) == CONFIRMED);
            break;
        case DENIED:
            must("a denial", length == 12 && body[1] >= 1 && body[1] <= 3);
            break;
        case MALFORMED:
            must("a fault", length == 2 && body[1] >= 1 && body[1] <= 6);
            break;
        case BLOCKS:
            must("blocks", length >= 11 && number_at(body + 9, 2) <= MOST_PULL);
            break;
        default:
            must("a kind of reply", false);
        }
    }
    return count;
}

/* How many frames are whole, before one that is too long. */
static size_t frames_of(const uint8_t *bytes, size_t size) {
    size_t count = 0, body;
    bool is_too_long;
    while (first_frame(bytes, size, &body, &is_too_long)) {
        bytes += FRAME_HEAD + body;
        size -= FRAME_HEAD + body;
        count++;
    }
    return count;
}

static void ask_all(const uint8_t *bytes, size_t size, size_t most, struct replies *to) {
    static struct table table = {
        .principals = 2,
        .rows = 3,
        .principal = {{.id = 3, .token = "3333333333333333"}, {.id = 4, .token = "4444444444444444"}},
        .row = {{.allows = true, .has_who = true, .who = 3, .ops = 1u << GET | 1u << STATUS},
                {.allows = false, .ops = 1u << PULL, .has_range = true, .low = 2, .high = 5},
                {.allows = true, .ops = 1u << PULL | 1u << STATUS, .has_through = true, .through = 7}}};
    static struct table *_Atomic newest = &table;
    static uint8_t out[OUT_ROOM];
    static struct room room = {.newest = &newest, .wait_ms = WAIT_MS, .out = out};
    struct connection *connection = calloc(1, sizeof *connection);
    must("there is memory", connection != NULL);
    connection->socket = -1;
    input = bytes, left = size, piece = most, replies = to, replies->length = 0;
    room.now = 1;
    for (int turns = 0; connection_turn(connection, &room); turns++) {
        must("it comes to an end", turns < MOST_ASKED);
        must("what it has of requests is bounded", connection->in_length <= MOST_FRAME);
        must("it waits for what is not there", connection->wanted == 0 || connection->wanted > CONFIRMED);
        room.now += WAIT_MS; /* who waits has waited in vain */
    }
    connection_close(connection);
}

int LLVMFuzzerTestOneInput(const uint8_t *bytes, size_t size) {
    static struct replies whole, pieces;
    if (size < 3) return 0;
    is_slow = bytes[1] % 2;
    ask_all(bytes + 2, size - 2, SIZE_MAX, &whole);
    must("each frame has a reply", see_replies() == frames_of(bytes + 2, size - 2));
    ask_all(bytes + 2, size - 2, 1 + bytes[0], &pieces);
    must("the same however they come",
         whole.length == pieces.length && memcmp(whole.bytes, pieces.bytes, whole.length) == 0);
    return 0;
}
