/* What a client may ask of the fast path of a keeper, under libFuzzer (clients/c/fuzz): its lines, in pieces
 * that the first byte of the input says.
 *
 * Whatever comes, all that is waited for is a position of this run; and the same is taken or given back
 * however it comes. */
#include "fast_path_parts.h"
#include "fuzz_text.h"

#include <sys/socket.h>

static ssize_t come(int socket, void *to, size_t room, int flags);
static ssize_t go(int socket, const void *bytes, size_t length, int flags);

#define recv                      come
#define send                      go
#define shutdown(descriptor, how) ((void)(descriptor))
#define now_ms()                  ((int64_t)1) /* no call of the system in a run */
#include "fast_path_lines.c"
#undef recv
#undef send

static const uint8_t *input;
static size_t left, piece, answered;

static ssize_t come(int socket, void *to, size_t room, int flags) {
    size_t count = left < piece ? left : piece;
    (void)socket, (void)flags;
    if (count > room) count = room;
    memcpy(to, input, count);
    input += count;
    left -= count;
    if (piece <= SIZE_MAX / 2) piece *= 2; /* few pieces, of which the first may end anywhere */
    return (ssize_t)count;
}

static void must(const char *what, bool holds) {
    if (holds) return;
    fprintf(stderr, "fuzz_asked: %s\n", what);
    abort();
}

static ssize_t go(int socket, const void *bytes, size_t length, int flags) {
    static const char begin[] = "durable shop 7 9";
    (void)socket, (void)flags;
    must("it says how far all is durable",
         length >= sizeof begin && memcmp(bytes, begin, sizeof begin - 1) == 0);
    answered++;
    return (ssize_t)length;
}

/* Of the other parts. */
void watch_no_more(struct plane *plane, int descriptor) {
    (void)plane, (void)descriptor;
}
void say(struct plane *plane, struct event *event, enum way_news news, void *owner) {
    (void)plane, (void)event, (void)news, (void)owner;
}
void set_active(struct way *way) {
    way->is_active = true;
}

struct end {
    uint64_t position;
    size_t answered, length;
    bool is_back, rung;
};

static struct end hear_all(const uint8_t *bytes, size_t size, size_t most) {
    static struct way way;
    static struct line line;
    static char name[] = "shop", of[] = "i/r";
    way.name = name, way.of = of, way.reached = 9, way.rung = false;
    way.start = (struct way_start){.generation = 7, .takes_unnamed = size % 2};
    line.way = &way, line.next = NULL, line.place = &way.lines, way.lines = &line;
    line.len = 0, line.position = 0, line.is_back = false;
    input = bytes, left = size, piece = most, answered = 0;
    while (left > 0 && !line.is_back) {
        hear_line(&line);
        must("it has room", line.len <= sizeof line.data);
    }
    must("what waits is of later", line.is_back || line.position == 0 || line.position > way.reached);
    return (struct end){line.position, answered, line.len, line.is_back, way.rung};
}

int LLVMFuzzerTestOneInput(const uint8_t *bytes, size_t size) {
    if (size < 2) return 0;
    struct end whole = hear_all(bytes + 1, size - 1, SIZE_MAX);
    struct end pieces = hear_all(bytes + 1, size - 1, 1 + bytes[0] % 64);
    must("given back alike", whole.is_back == pieces.is_back && whole.answered == pieces.answered);
    must("the same", whole.rung == pieces.rung && whole.position == pieces.position);
    return 0;
}
