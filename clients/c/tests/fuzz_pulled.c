/* What a service may reply to the fast path of a keeper, under libFuzzer (clients/c/fuzz): blocks, and lines
 * of the audit list, in pieces that the first byte of the input says; the second says whether lines are asked
 * for.
 *
 * Whatever comes, a batch has the blocks behind what is archived, without a gap, and their digest; and where
 * nothing is left over it is the same however it comes. */
#include "fast_path.h"

#include <libpq-fe.h>
#include <sanitizer/asan_interface.h>
#include <stdio.h>
#include <stdlib.h>
#include <string.h>
#include <sys/socket.h>
#include <time.h>
#include <zlib.h>

static ssize_t come(int socket, void *to, size_t room, int flags);
static ssize_t go(int socket, const void *bytes, size_t length, int flags);
static int pack(uint8_t *to, uLongf *room, const uint8_t *from, size_t length);

static void *take_more(void *memory, size_t length);
static void give(void *memory);

/* A batch is full as often as all else; no call of the system in a run, and none of what takes much memory.
 */
#define WAY_BLOCKS                48
#define realloc                   take_more
#define free                      give
#define clock_gettime(clock, now) ((void)(*(now) = (struct timespec){1, 0}))
#include "fast_path_parts.h"
#define compress2(to, room, from, length, how_hard) pack(to, room, from, length)
#define recv                                        come
#define send                                        go
#include "fast_path_service.c"
#undef recv
#undef send
#include "fast_path_trail.c"

enum { SHIFT = 3, ARCHIVED = 9, LISTED = 4, REQUEST = 44 };

static const uint8_t *input;
static size_t left, piece;

static void must(const char *what, bool holds) {
    if (holds) return;
    fprintf(stderr, "fuzz_pulled: %s\n", what);
    abort();
}

/* At the end of the input the service is gone. */
static ssize_t come(int socket, void *to, size_t room, int flags) {
    size_t count = left < piece ? left : piece;
    (void)socket, (void)flags;
    must("there is room for what comes", room > 0);
    if (count > room) count = room;
    memcpy(to, input, count);
    input += count;
    left -= count;
    if (piece <= SIZE_MAX / 2) piece *= 2; /* few pieces, of which the first may end anywhere */
    return (ssize_t)count;
}

static ssize_t go(int socket, const void *bytes, size_t length, int flags) {
    (void)socket, (void)bytes, (void)flags;
    must("requests are whole", length > 0 && length % REQUEST == 0);
    return (ssize_t)length;
}

/* ---- Memory: places that are used in turn, of which nobody may use what he does not have ---- */

enum { PLACES = 8, MOST_MEMORY = 4 << 20 };

static _Alignas(16) uint8_t places[PLACES][MOST_MEMORY];
static size_t rooms[PLACES];

static void give(void *memory) {
    if (!memory) return;
    size_t place = (size_t)((uint8_t(*)[MOST_MEMORY])memory - places);
    must("it is his", memory == places[place] && rooms[place] > 0);
    ASAN_POISON_MEMORY_REGION(memory, rooms[place]);
    rooms[place] = 0;
}

static void *take_more(void *memory, size_t length) {
    static size_t place;
    must("memory is bounded", length > 0 && length <= MOST_MEMORY);
    do
        place = (place + 1) % PLACES;
    while (rooms[place] > 0);
    rooms[place] = length;
    ASAN_UNPOISON_MEMORY_REGION(places[place], length);
    size_t had = memory ? rooms[(uint8_t(*)[MOST_MEMORY])memory - places] : 0;
    if (had) memcpy(places[place], memory, had < length ? had : length);
    give(memory);
    return places[place];
}

int LLVMFuzzerInitialize(int *count, char ***words) {
    (void)count, (void)words;
    ASAN_POISON_MEMORY_REGION(places, sizeof places);
    return 0;
}

static int pack(uint8_t *to, uLongf *room, const uint8_t *from, size_t length) {
    must("it fits", length <= *room);
    memcpy(to, from, length);
    *room = length;
    return Z_OK;
}

/* Of the other parts. */
void watch_no_more(struct plane *plane, int descriptor) {
    (void)plane, (void)descriptor;
}
void set_active(struct way *way) {
    way->is_active = true;
}
void set_due(struct way *way) {
    way->phase = DUE;
}
void end_way(struct way *way, enum way_end end) {
    must("it ends once", !way->has_ended && end != WAY_STOPPED);
    way->has_ended = true;
    way->end = end;
}
int64_t turns_epoch(const struct turns *turns, uint64_t generation) {
    (void)turns, (void)generation;
    return -1;
}
int64_t until(const struct way *way) {
    (void)way;
    return INT64_MAX;
}
void tell_above(struct way *way) {
    must("nobody is told that what has come is not there", way->batch.blocks == 0);
}
void tell_news(struct way *way) {
    (void)way;
}

/* The blocks of a batch are those behind what is archived. */
static void see_batch(const struct way *way) {
    const struct batch *batch = &way->batch;
    uint8_t chain[2 * WAY_DIGEST];
    size_t at = 0, chain_len = way->chain_len;
    memcpy(chain, way->chain, WAY_DIGEST);
    must("it has room",
         batch->blocks > 0 && batch->blocks <= WAY_BLOCKS && batch->len <= WAY_BYTES + REPLY_MOST);
    must("it has no gap", batch->reached == way->reached + batch->blocks);
    for (size_t block = 0; block < batch->blocks; at += batch->lengths[block++]) {
        must("a block has its position", number_in(batch->bytes + at, 8) == way->reached + 1 + block);
        blake2b_state state;
        blake2b_init(&state, WAY_DIGEST);
        blake2b_update(&state, chain, chain_len);
        blake2b_update(&state, batch->bytes + at, batch->lengths[block]);
        blake2b_final(&state, chain, WAY_DIGEST);
        chain_len = WAY_DIGEST;
    }
    must("it is of these bytes", at == batch->len && memcmp(chain, batch->chain, WAY_DIGEST) == 0);
    must("lines are few", way->trail.count <= QUESTIONS * ASKED_MOST);
    must("lines come with it", way->trail.is_kept == (way->trail.count > 0));
}

/* What becomes of the first pull, and of those that it leads to. */
struct end {
    enum phase phase;
    enum way_end end;
    size_t blocks, len, lines, left;
    uint8_t chain[WAY_DIGEST], digest[WAY_SHA];
};

static struct end pull_all(const uint8_t *bytes, size_t size, size_t most, bool has_lines) {
    static struct plane plane;
    static uint8_t asks[2 * REQUEST];
    struct way way = {.plane = &plane,
                      .reached = ARCHIVED,
                      .chain_len = WAY_DIGEST,
                      .asks = asks,
                      .start = {.shift = SHIFT, .pull_len = REQUEST, .audit_len = REQUEST},
                      .trail = {.is_kept = has_lines, .kept = LISTED}};
    input = bytes, left = size, piece = most;
    begin_pull(&way);
    while (way.phase == PULLING && !way.has_ended) {
        go_on_pulling(&way);
        must("what is read is bounded", way.in_room <= 2 * (4 + (size_t)REPLY_MOST));
    }
    struct end end = {.phase = way.phase,
                      .end = way.end,
                      .blocks = way.batch.blocks,
                      .len = way.batch.len,
                      .lines = way.trail.count,
                      .left = left + way.in_len};
    memcpy(end.chain, way.batch.chain, WAY_DIGEST);
    if (!way.has_ended && way.phase == DUE) {
        see_batch(&way);
        memcpy(end.digest, way.trail.next_digest,
               way.trail.is_kept ? 0 : WAY_SHA); /* it has the time in it */
    }
    must("an end has a reason", way.has_ended || way.phase == DUE || way.phase == READY);
    free(way.in), free(way.batch.bytes), free(way.trail.lines), free(way.trail.data);
    return end;
}

/* Whether a reply says that it is far longer than all that comes. Most such inputs are left out: they take
 * room, which takes time. */
static bool is_vast(const uint8_t *bytes, size_t size) {
    for (size_t at = 0, length; size - at >= 4; at += length) {
        length = (size_t)number_in(bytes + at, 4);
        at += 4;
        if (length > size - at) return length > 4096;
    }
    return false;
}

int LLVMFuzzerTestOneInput(const uint8_t *bytes, size_t size) {
    if (size < 3 || (bytes[0] != 0 && is_vast(bytes + 2, size - 2))) return 0;
    struct end whole = pull_all(bytes + 2, size - 2, SIZE_MAX, bytes[1] % 2);
    struct end pieces = pull_all(bytes + 2, size - 2, 1 + bytes[0], bytes[1] % 2);
    if (whole.left > 0 || pieces.left > 0) return 0;
    must("alike", whole.end == pieces.end && (whole.end != WAY_STOPPED || whole.phase == pieces.phase));
    must("the same batch",
         whole.end != WAY_STOPPED || (whole.blocks == pieces.blocks && whole.len == pieces.len &&
                                      memcmp(whole.chain, pieces.chain, WAY_DIGEST) == 0));
    must("the same lines", whole.end != WAY_STOPPED || whole.lines == pieces.lines);
    return 0;
}
