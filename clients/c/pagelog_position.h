/* Where a block is, counted in two ways that are never mixed: each is a type of its own, so that one in the
 * place of the other does not compile.
 *
 * A position counts the blocks of a database, over all runs of its services; an LSN counts those of one run's
 * log. The `shift` of a run is what its positions are more than its LSNs. A database without a name has one
 * run, and no shift.
 *
 * Plain numbers are at the borders: pagelog.h knows one service, whose LSNs they are; page 0 and the lines of
 * keepers have positions; and pagelog_file.h has what its callers have had since 0.1.0. */
#ifndef PAGELOG_POSITION_H
#define PAGELOG_POSITION_H

#include <stdbool.h>
#include <stdint.h>

/* 0: none, as before the first block. */
struct pagelog_position {
    uint64_t number;
};
struct pagelog_lsn {
    uint64_t number;
};

/* The LSN of a position; 0 of none, and where it is before the first one of the run. And back. */
static inline struct pagelog_lsn pagelog_lsn_in(int64_t shift, struct pagelog_position position) {
    int64_t lsn = (int64_t)position.number - shift;
    return (struct pagelog_lsn){position.number > 0 && lsn > 0 ? (uint64_t)lsn : 0};
}

static inline struct pagelog_position pagelog_position_in(int64_t shift, struct pagelog_lsn lsn) {
    return (struct pagelog_position){lsn.number + (uint64_t)shift};
}

/* What is asked of two of one kind, and of one of either: is_before(one, other) and the like, below. */
#define PAGELOG_COUNTED(kind)                                                                                \
    static inline bool kind##_is_before(struct kind one, struct kind other) {                                \
        return one.number < other.number;                                                                    \
    }                                                                                                        \
    static inline bool kind##_is_at(struct kind one, struct kind other) {                                    \
        return one.number == other.number;                                                                   \
    }                                                                                                        \
    static inline struct kind kind##_lower(struct kind one, struct kind other) {                             \
        return one.number < other.number ? one : other;                                                      \
    }                                                                                                        \
    static inline struct kind kind##_higher(struct kind one, struct kind other) {                            \
        return one.number > other.number ? one : other;                                                      \
    }                                                                                                        \
    static inline uint64_t kind##_distance(struct kind from, struct kind to) {                               \
        return to.number - from.number;                                                                      \
    }                                                                                                        \
    static inline struct kind kind##_plus(struct kind from, int64_t count) {                                 \
        return (struct kind){from.number + (uint64_t)count};                                                 \
    }
PAGELOG_COUNTED(pagelog_position)
PAGELOG_COUNTED(pagelog_lsn)

#define PAGELOG_OF_KIND(one, what)                                                                           \
    _Generic((one), struct pagelog_lsn                                                                       \
             : pagelog_lsn_##what, struct pagelog_position                                                   \
             : pagelog_position_##what)

#define is_before(one, other) PAGELOG_OF_KIND(one, is_before)(one, other)
#define is_at(one, other)     PAGELOG_OF_KIND(one, is_at)(one, other)
#define lower_of(one, other)  PAGELOG_OF_KIND(one, lower)(one, other)
#define higher_of(one, other) PAGELOG_OF_KIND(one, higher)(one, other)
#define distance(from, to)    PAGELOG_OF_KIND(from, distance)(from, to)
#define plus(one, count)      PAGELOG_OF_KIND(one, plus)(one, count)
#define next_of(one)          plus(one, 1)
#define last_before(one)      plus(one, -1)
#define is_none(one)          ((one).number == 0)

#endif
