/* What a page server may say under libFuzzer (clients/c/fuzz) to a reader that asks it for two pages. The
 * first byte of the input says in which pieces the answer comes, of at most 256; the second which of its
 * replies are as they should be: the bytes of the others are the rest of the input.
 *
 * What is believed does not hang on how it comes; pages are believed only where page 0 has the mark that is
 * held, and all replies are as they should be; and what is believed is what they have, with the later blocks
 * over it.
 */
#include <errno.h>
#include <stdio.h>
#include <sys/socket.h>

static ssize_t come(int socket, void *to, size_t room, int flags);

#define recv come
#include "../pagelog_line.c"
#undef recv
#define connect_to connect_copy
#define recv       come
#define reserve    reserve_copy
#include "../pagelog_copy.c"
#undef recv
#undef reserve
#undef connect_to
#define find find_copy
#define ask  ask_copy
#include "../pagelog_copies.c"

enum { MOST_INPUT = 4096, PAGES = 2, REPLIES = 2 + PAGES, MOST_ANSWER = REPLIES * (FRAME_HEAD + MOST_REPLY) };
enum { MOST_PIECES = 256 };
enum { BASE = 20, NEWEST = 22, BLOCK_PUT = 12, FILLING = 0x11, LAID = 0x5a };

static const uint8_t *input;
static size_t left, piece;

static ssize_t come(int socket, void *to, size_t room, int flags) {
    size_t count = left < piece ? left : piece;
    (void)socket;
    if ((flags & MSG_PEEK) || left == 0) {
        errno = EAGAIN;
        return -1;
    }
    if (count > room) count = room;
    memcpy(to, input, count);
    input += count;
    left -= count;
    if (piece <= SIZE_MAX / 2) piece *= 2; /* few pieces, of which the first may end anywhere */
    return (ssize_t)count;
}

static void must(const char *what, bool holds) {
    if (holds) return;
    fprintf(stderr, "fuzz_copies: %s\n", what);
    abort();
}

/* ---- What is held: a block that puts a byte into page 7 comes after the base ---- */

static void hold(struct pagelog_held *held) {
    struct pagelog_held_mark base = {.position = {BASE}, .session = 5, .transaction = 6};
    struct pagelog_held_mark newest = {.position = {NEWEST}, .session = 5, .transaction = 7};
    uint8_t bytes[64], *at = pagelog_write_number(bytes, 24, 4);
    at = pagelog_write_number(at, NEWEST, 8);
    at = pagelog_write_number(at, 1, 2); /* partition 0, and one record */
    at = pagelog_write_number(at, 0, 2);
    at = pagelog_write_number(at, 1, 2);
    at = pagelog_write_number(at, 1, 1);
    at = pagelog_write_number(at, 7, 4);
    at = pagelog_write_number(at, 3, 2);
    at = pagelog_write_number(at, 1, 2);
    *at++ = LAID;
    must("the block has its length", (size_t)(at - bytes) == 4 + 24);
    pagelog_held_begin(held, &base);
    pagelog_held_add(held, &newest, bytes, (size_t)(at - bytes));
}

/* ---- An answer ---- */

static uint8_t *put_page(uint8_t *at, bool is_mark) {
    at = pagelog_write_number(at, MOST_REPLY, FRAME_HEAD);
    *at++ = PAGELOG_REPLY_PAGE;
    at = pagelog_write_number(at, BASE, 8);
    memset(at, FILLING, PAGELOG_PAGE_BYTES);
    if (is_mark) {
        pagelog_write_number(at + MARK_POSITION, BASE, 8);
        pagelog_write_number(at + MARK_SESSION, 5, 8);
        pagelog_write_number(at + MARK_TRANSACTION, 6, 8);
    }
    return at + PAGELOG_PAGE_BYTES;
}

static uint8_t *put_status(uint8_t *at) {
    at = pagelog_write_number(at, 33, FRAME_HEAD);
    *at++ = PAGELOG_REPLY_STATUS;
    at = pagelog_write_number(at, 1, 4);
    at = pagelog_write_number(at, 0, 4);
    at = pagelog_write_number(at, BASE + 1, 8);
    at = pagelog_write_number(at, 0, 8);
    return pagelog_write_number(at, BASE + 1, 8);
}

/* The replies that are as they should be, and in place of the first other one what the input has. */
static size_t answer(uint8_t *to, uint8_t sound, const uint8_t *bytes, size_t size) {
    uint8_t *at = to;
    for (unsigned i = 0; i < REPLIES; i++) {
        if (sound >> i & 1) {
            at = i == 0 ? put_status(at) : put_page(at, i == 1);
        } else {
            memcpy(at, bytes, size);
            at += size;
            size = 0;
        }
    }
    return (size_t)(at - to);
}

/* ---- What is believed ---- */

struct believed {
    bool is_right;
    uint8_t bytes[PAGES * PAGELOG_PAGE_BYTES];
    struct pagelog_position proved;
};

static void ask_it(struct believed *believed, const struct pagelog_held *held, const uint8_t *bytes,
                   size_t size, size_t most) {
    static struct pagelog_copies copies = {.count = 1};
    static const uint32_t pages[PAGES] = {7, 8};
    const struct pagelog_position base = {BASE};
    struct pagelog_copy *copy = &copies.copies[0];
    struct question question = {
        .copies = &copies, .held = held, .pages = pages, .count = PAGES, .bytes = believed->bytes};
    copy->line.socket = 0;
    copy->line.is_bare = true;
    copy->line.is_asked = false;
    copy->connects = copy->line.connects;
    copy->proved.number = 0;
    copy->server.position.number = BASE + 1;
    memset(believed, 0, sizeof *believed);
    input = bytes, left = size, piece = most;
    must("it is asked", pagelog_copy_ask(copy, &copies.reader, base, pages, PAGES));
    must("and has to prove it", copy->has_proof && copy->replies == REPLIES);
    copy->line.sent = copy->length;
    bool is_good = true;
    while (is_good && left > 0 && !pagelog_copy_is_answered(copy))
        is_good = pagelog_copy_go_on(copy, 1);
    must("there is a bound", copy->come <= MOST_ANSWER + READ_AT_ONCE);
    believed->is_right = is_good && pagelog_copy_is_answered(copy) && judge(&question, copy) == RIGHT;
    believed->proved = copy->proved;
    copy->line.is_asked = false;
}

static void must_be_right(const struct believed *believed, uint8_t sound) {
    const uint8_t *page = believed->bytes;
    must("a mark proves it", !believed->is_right || believed->proved.number == BASE);
    must("nothing else does", is_none(believed->proved) || believed->proved.number == BASE);
    must("what came after is laid over", !believed->is_right || page[3] == LAID);
    bool is_sound = believed->is_right && (sound & 0xf) == 0xf;
    must("and nothing else", !is_sound || (page[2] == FILLING && page[4] == FILLING));
}

int LLVMFuzzerTestOneInput(const uint8_t *bytes, size_t size) {
    static uint8_t made[MOST_ANSWER + MOST_INPUT];
    static struct believed whole, pieces;
    static struct pagelog_held held;
    if (size < 2 || size > MOST_INPUT) return 0;
    if (held.count == 0) hold(&held);
    size_t length = answer(made, bytes[1], bytes + 2, size - 2);
    ask_it(&whole, &held, made, length, SIZE_MAX);
    size_t least = 1 + length / MOST_PIECES, each = 1 + (size_t)bytes[0] * 37;
    ask_it(&pieces, &held, made, length, each > least ? each : least);
    must("what is believed at once is so in pieces", !whole.is_right || pieces.is_right);
    must_be_right(&whole, bytes[1]);
    must_be_right(&pieces, bytes[1]); /* also where more comes after the answer */
    must("the same pages", !whole.is_right || memcmp(whole.bytes, pieces.bytes, sizeof whole.bytes) == 0);
    return 0;
}
