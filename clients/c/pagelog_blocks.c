/* Blocks that are built of records. */
#include "pagelog_inside.h"

#include <stdlib.h>
#include <string.h>
#ifdef __SSE2__
#include <emmintrin.h>
#endif

/* Bytes of a Put that are worth the end of a block: a shorter piece goes into the next one as a whole. */
enum { SHORTEST_PIECE = 64 };

/* A block is filled up to here. Two writes of such blocks are as long as the longest request, which is what
 * the service reads at once: so it needs not move the half of one before it can read on. */
enum { WRITE_HEAD_BYTES = 35, FULL_BLOCK = (4 + PAGELOG_REQUEST_BYTES) / 2 - WRITE_HEAD_BYTES };

/* What comes before the records of a block that touches one partition, as most do. */
enum { USUAL_HEAD_BYTES = BLOCK_HEAD_BYTES + 2 };

struct pagelog_blocks {
    uint64_t next_lsn; /* of the block that is being filled */
    /* Ended blocks, one after the other; block i ends at ends[i], counted from the start of `bytes`. */
    uint8_t *bytes;
    size_t room;
    size_t *ends;
    size_t count, ends_room;
    /* The block that is being filled. Its records are in `bytes` already, after the ended blocks and the room
     * for a usual head. */
    size_t length;
    unsigned record_count;
    uint16_t *partitions; /* rising */
    size_t partition_count, partition_room;
};

struct pagelog_blocks *pagelog_blocks_new(void) {
    return calloc(1, sizeof(struct pagelog_blocks));
}

void pagelog_blocks_free(struct pagelog_blocks *blocks) {
    if (!blocks) return;
    free(blocks->bytes);
    free(blocks->ends);
    free(blocks->partitions);
    free(blocks);
}

static void empty_record_area(struct pagelog_blocks *blocks) {
    blocks->length = 0;
    blocks->record_count = 0;
    blocks->partition_count = 0;
}

void pagelog_blocks_restart(struct pagelog_blocks *blocks, uint64_t first_lsn) {
    blocks->next_lsn = first_lsn;
    blocks->count = 0;
    empty_record_area(blocks);
}

/* Where the ended blocks end. */
static size_t end_of(const struct pagelog_blocks *blocks) {
    return blocks->count > 0 ? blocks->ends[blocks->count - 1] : 0;
}

/* Makes room for `wanted` elements, twice as many as before at least. */
static bool grow(void **array, size_t *room, size_t wanted, size_t size) {
    if (wanted <= *room) return true;
    size_t most = *room * 2 > wanted ? *room * 2 : wanted;
    void *grown = realloc(*array, most * size);
    if (!grown) return false;
    *array = grown;
    *room = most;
    return true;
}

/* Where the records of the block that is being filled begin. */
static uint8_t *records_of(const struct pagelog_blocks *blocks) {
    return blocks->bytes + end_of(blocks) + USUAL_HEAD_BYTES;
}

enum pagelog_outcome pagelog_blocks_end(struct pagelog_blocks *blocks) {
    if (blocks->record_count == 0) return PAGELOG_DONE;
    size_t start = end_of(blocks), head = BLOCK_HEAD_BYTES + 2 * blocks->partition_count;
    if (!grow((void **)&blocks->ends, &blocks->ends_room, blocks->count + 1, sizeof *blocks->ends))
        return PAGELOG_NO_MEMORY;
    if (head != USUAL_HEAD_BYTES) memmove(blocks->bytes + start + head, records_of(blocks), blocks->length);
    uint8_t *at = pagelog_write_number(blocks->bytes + start, blocks->next_lsn, 8);
    at = pagelog_write_number(at, blocks->partition_count, 2);
    for (size_t i = 0; i < blocks->partition_count; i++)
        at = pagelog_write_number(at, blocks->partitions[i], 2);
    pagelog_write_number(at, blocks->record_count, 2);
    blocks->ends[blocks->count++] = start + head + blocks->length;
    blocks->next_lsn++;
    empty_record_area(blocks);
    return PAGELOG_DONE;
}

enum pagelog_outcome pagelog_blocks_add(struct pagelog_blocks *blocks, const uint8_t *block, size_t length) {
    size_t start = end_of(blocks);
    if (blocks->record_count > 0) return PAGELOG_MALFORMED;
    if (!grow((void **)&blocks->bytes, &blocks->room, start + length, 1) ||
        !grow((void **)&blocks->ends, &blocks->ends_room, blocks->count + 1, sizeof *blocks->ends))
        return PAGELOG_NO_MEMORY;
    memcpy(blocks->bytes + start, block, length);
    pagelog_write_number(blocks->bytes + start, blocks->next_lsn++, 8);
    blocks->ends[blocks->count++] = start + length;
    return PAGELOG_DONE;
}

void pagelog_blocks_shift(struct pagelog_blocks *blocks, int64_t by) {
    for (size_t i = 0; i < blocks->count; i++) {
        uint8_t *lsn = blocks->bytes + (i > 0 ? blocks->ends[i - 1] : 0);
        pagelog_write_number(lsn, pagelog_read_number(lsn, 8) + (uint64_t)by, 8);
    }
    blocks->next_lsn += (uint64_t)by;
}

/* The place of a partition among those of the block, or the place where it would be. */
static size_t place_of(const struct pagelog_blocks *blocks, uint16_t partition, bool *found) {
    size_t place = blocks->partition_count;
    while (place > 0 && blocks->partitions[place - 1] >= partition)
        place--;
    *found = place < blocks->partition_count && blocks->partitions[place] == partition;
    return place;
}

/* Bytes that a record of a page may still have in the block that is being filled, with its head. */
static size_t room_for(const struct pagelog_blocks *blocks, uint32_t page) {
    bool found;
    place_of(blocks, (uint16_t)(page >> 16), &found);
    size_t taken = BLOCK_HEAD_BYTES + 2 * (blocks->partition_count + !found) + blocks->length;
    return taken < FULL_BLOCK ? FULL_BLOCK - taken : 0;
}

/* Notes a record of a page, and returns where its bytes go; NULL where memory runs out. */
static uint8_t *add_record(struct pagelog_blocks *blocks, uint32_t page, size_t length) {
    bool found;
    uint16_t partition = (uint16_t)(page >> 16);
    size_t place = place_of(blocks, partition, &found);
    if (!grow((void **)&blocks->bytes, &blocks->room, end_of(blocks) + USUAL_HEAD_BYTES + FULL_BLOCK, 1))
        return NULL;
    if (!found) {
        if (!grow((void **)&blocks->partitions, &blocks->partition_room, blocks->partition_count + 1,
                  sizeof *blocks->partitions))
            return NULL;
        memmove(blocks->partitions + place + 1, blocks->partitions + place,
                (blocks->partition_count - place) * sizeof *blocks->partitions);
        blocks->partitions[place] = partition;
        blocks->partition_count++;
    }
    uint8_t *at = records_of(blocks) + blocks->length;
    blocks->length += length;
    blocks->record_count++;
    return at;
}

/* Adds a Put for which there is room. */
static enum pagelog_outcome add_put(struct pagelog_blocks *blocks, uint32_t page, size_t offset,
                                    const uint8_t *bytes, size_t length) {
    uint8_t *at = add_record(blocks, page, PUT_HEAD_BYTES + length);
    if (!at) return PAGELOG_NO_MEMORY;
    at = pagelog_write_number(at, RECORD_PUT, 1);
    at = pagelog_write_number(at, page, 4);
    at = pagelog_write_number(at, offset, 2);
    at = pagelog_write_number(at, length, 2);
    memcpy(at, bytes, length);
    return PAGELOG_DONE;
}

/* Ends the block that is being filled where a record of `length` bytes, head included, has no room in it. */
static enum pagelog_outcome ensure_room(struct pagelog_blocks *blocks, uint32_t page, size_t length) {
    return room_for(blocks, page) < length ? pagelog_blocks_end(blocks) : PAGELOG_DONE;
}

static bool is_put(uint16_t offset, uint16_t length) {
    return length > 0 && (size_t)offset + length <= PAGELOG_PAGE_BYTES;
}

enum pagelog_outcome pagelog_blocks_put(struct pagelog_blocks *blocks, uint32_t page, uint16_t offset,
                                        const uint8_t *bytes, uint16_t length) {
    if (!is_put(offset, length)) return PAGELOG_MALFORMED;
    for (size_t done = 0; done < length;) {
        size_t left = length - done;
        size_t shortest = left < SHORTEST_PIECE ? left : SHORTEST_PIECE;
        enum pagelog_outcome outcome = ensure_room(blocks, page, PUT_HEAD_BYTES + shortest);
        if (outcome != PAGELOG_DONE) return outcome;
        size_t room = room_for(blocks, page) - PUT_HEAD_BYTES;
        size_t piece = left < room ? left : room;
        outcome = add_put(blocks, page, offset + done, bytes + done, piece);
        if (outcome != PAGELOG_DONE) return outcome;
        done += piece;
    }
    return PAGELOG_DONE;
}

uint64_t pagelog_blocks_room(struct pagelog_blocks *blocks, uint32_t page, uint16_t length) {
    enum pagelog_outcome outcome = ensure_room(blocks, page, PUT_HEAD_BYTES + (size_t)length);
    return outcome == PAGELOG_DONE ? blocks->next_lsn : 0;
}

enum pagelog_outcome pagelog_blocks_zero(struct pagelog_blocks *blocks, uint32_t page) {
    enum pagelog_outcome outcome = ensure_room(blocks, page, PAGELOG_ZERO_BYTES);
    if (outcome != PAGELOG_DONE) return outcome;
    uint8_t *at = add_record(blocks, page, PAGELOG_ZERO_BYTES);
    if (!at) return PAGELOG_NO_MEMORY;
    pagelog_write_number(pagelog_write_number(at, RECORD_ZERO, 1), page, 4);
    return PAGELOG_DONE;
}

/* Which of 64 bytes differ, a bit for each. */
static uint64_t differing_bytes(const uint8_t *old, const uint8_t *now) {
    uint64_t bits = 0;
#ifdef __SSE2__
    for (unsigned i = 0; i < 64; i += 16) {
        __m128i one = _mm_loadu_si128((const __m128i *)(old + i));
        __m128i other = _mm_loadu_si128((const __m128i *)(now + i));
        bits |= (uint64_t)(unsigned)_mm_movemask_epi8(_mm_cmpeq_epi8(one, other)) << i;
    }
    return ~bits;
#else
    for (unsigned i = 0; i < 64; i++)
        bits |= (uint64_t)(old[i] != now[i]) << i;
    return bits;
#endif
}

/* The bits of `now` with each one drawn out over the next PUT_HEAD_BYTES places; `before` has the 64 bits
 * before them, of which the last one that is set reaches farthest. */
static uint64_t drawn_out(uint64_t now, uint64_t before) {
    _Static_assert(PUT_HEAD_BYTES == 1 + 2 + 4 + 2, "the shifts below add up to it");
    unsigned behind = before ? (unsigned)__builtin_clzll(before) : 64;
    uint64_t reached = behind < PUT_HEAD_BYTES ? (UINT64_C(1) << (PUT_HEAD_BYTES - behind)) - 1 : 0;
    now |= now << 1;
    now |= now << 2;
    now |= now << 4;
    now |= now << 2;
    return now | reached;
}

/* A bit for each byte says whether it differs. Drawn out over as many places as a gap may have that is put
 * too, the bits of one Put are one run, and a run ends that many places after the Put's last byte. */
enum pagelog_outcome pagelog_blocks_difference(struct pagelog_blocks *blocks, uint32_t page,
                                               const uint8_t *old, const uint8_t *new_bytes) {
    uint64_t before = 0, drawn = 0;
    size_t start = 0;
    for (size_t at = 0; at <= PAGELOG_PAGE_BYTES; at += 64) {
        bool is_in_run = drawn >> 63;
        if (!is_in_run && at % 512 == 0 && at < PAGELOG_PAGE_BYTES &&
            memcmp(old + at, new_bytes + at, 512) == 0) {
            before = drawn = 0;
            at += 512 - 64;
            continue;
        }
        uint64_t now = at < PAGELOG_PAGE_BYTES ? differing_bytes(old + at, new_bytes + at) : 0;
        if (!is_in_run && now == 0) {
            before = drawn = 0;
            continue;
        }
        drawn = now == UINT64_MAX ? now : drawn_out(now, before);
        before = now;
        for (uint64_t turns = drawn ^ (drawn << 1 | is_in_run); turns; turns &= turns - 1) {
            size_t place = at + (size_t)__builtin_ctzll(turns);
            is_in_run = !is_in_run;
            if (is_in_run) {
                start = place;
                continue;
            }
            enum pagelog_outcome outcome = pagelog_blocks_put(
                blocks, page, (uint16_t)start, new_bytes + start, (uint16_t)(place - PUT_HEAD_BYTES - start));
            if (outcome != PAGELOG_DONE) return outcome;
        }
    }
    return PAGELOG_DONE;
}

bool pagelog_blocks_is_fresh(const struct pagelog_blocks *blocks) {
    return blocks->record_count == 0;
}

size_t pagelog_blocks_count(const struct pagelog_blocks *blocks) {
    return blocks->count;
}

void pagelog_blocks_drop(struct pagelog_blocks *blocks, size_t count) {
    if (count == 0) return;
    size_t gone = blocks->ends[count - 1], end = end_of(blocks);
    if (blocks->record_count > 0) end += USUAL_HEAD_BYTES + blocks->length;
    memmove(blocks->bytes, blocks->bytes + gone, end - gone);
    blocks->count -= count;
    for (size_t i = 0; i < blocks->count; i++)
        blocks->ends[i] = blocks->ends[i + count] - gone;
}

const uint8_t *pagelog_blocks_at(const struct pagelog_blocks *blocks, size_t index, size_t *length) {
    size_t start = index > 0 ? blocks->ends[index - 1] : 0;
    *length = blocks->ends[index] - start;
    return blocks->bytes + start;
}
