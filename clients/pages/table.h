/* Who may read what: the principals and rows of a run's table, and the decision by them.
 *
 * The order is that of the service, as far as a page server has its rules: principal and token, epoch 1, no
 * primary, the operations of the role, the first row that matches. A `through` is a position here. */
#ifndef TABLE_H
#define TABLE_H

#include <stdbool.h>
#include <stdint.h>

enum { TOKEN_BYTES = 16, MOST_PRINCIPALS = 64, MOST_ROWS = 256 };
enum role { PRIMARY = 1, SECONDARY, PAGE_SERVER, OPERATOR };
enum op { WRITE = 1, OFFER, REPORT, GET, PULL, ADVANCE, STATUS, FAILOVER, SET_TABLE, AUDIT, TIDY };

struct principal {
    uint32_t id;
    uint8_t token[TOKEN_BYTES];
};

struct row {
    bool allows, has_who, has_role, has_range, has_through;
    uint32_t who;
    unsigned role, ops; /* the bit of each operation */
    unsigned low, high; /* partitions */
    uint64_t through;
};

struct table {
    unsigned principals, rows;
    struct principal principal[MOST_PRINCIPALS];
    struct row row[MOST_ROWS];
};

/* What is asked. Of an operation without partitions or a position the parts are not looked at. */
struct question {
    uint32_t principal, epoch;
    uint8_t token[TOKEN_BYTES];
    unsigned role, op;
    bool has_partitions, has_position;
    unsigned low, high;
    uint64_t position;
};

/* A denial of the service, or of section 0: none. */
struct denial {
    unsigned section, row;
    uint64_t value;
};

struct denial table_decide(const struct table *table, const struct question *question);

/* The highest position, up to `last`, at which the same is allowed that is allowed at its own: what rows
 * allow at a position they allow at each lower one. */
uint64_t table_reach(const struct table *table, const struct question *question, uint64_t last);

/* Reads a table from the lines that a control sends: `principal ID TOKEN` and `row ..`, as many as it says.
 */
bool table_read_principal(struct table *table, const char *line);
bool table_read_row(struct table *table, const char *line);

#endif
