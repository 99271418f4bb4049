#include "table.h"

#include <stdio.h>
#include <string.h>

static const struct denial allowed = {0};

/* What a page server does for a role; all else of the service's operations it has not. */
static const unsigned ops_of_role[] = {
    [SECONDARY] = 1u << PULL | 1u << GET | 1u << STATUS,
    [PAGE_SERVER] = 1u << PULL | 1u << STATUS,
    [OPERATOR] = 1u << STATUS,
};

/* In a time that does not tell how much of the token is right. */
static bool is_same_token(const uint8_t *token, const uint8_t *other) {
    unsigned differs = 0;
    for (int n = 0; n < TOKEN_BYTES; n++)
        differs |= token[n] ^ other[n];
    return differs == 0;
}

static bool is_listed(const struct table *table, const struct question *question) {
    for (unsigned n = 0; n < table->principals; n++) {
        if (table->principal[n].id == question->principal)
            return is_same_token(table->principal[n].token, question->token);
    }
    return false;
}

static bool has_range(const struct row *row, const struct question *question) {
    if (!row->has_range || !question->has_partitions) return true;
    if (row->allows) return row->low <= question->low && question->high <= row->high;
    return question->low <= row->high && row->low <= question->high;
}

static bool matches(const struct row *row, const struct question *question) {
    if (row->has_who && row->who != question->principal) return false;
    if (row->has_role && row->role != question->role) return false;
    if (!(row->ops & 1u << question->op)) return false;
    if (row->has_through && question->has_position && (question->position <= row->through) != row->allows)
        return false;
    return has_range(row, question);
}

struct denial table_decide(const struct table *table, const struct question *question) {
    if (!is_listed(table, question)) return (struct denial){1, 1, 0};
    if (question->epoch != 1) return (struct denial){1, question->epoch < 1 ? 2 : 3, 1};
    if (question->role == PRIMARY) return (struct denial){1, 4, 0};
    if (!(ops_of_role[question->role] & 1u << question->op)) return (struct denial){1, 5, 0};
    for (unsigned n = 0; n < table->rows; n++) {
        if (!matches(&table->row[n], question)) continue;
        return table->row[n].allows ? allowed : (struct denial){2, n + 1, 0};
    }
    return (struct denial){2, 0, 0};
}

uint64_t table_reach(const struct table *table, const struct question *question, uint64_t last) {
    struct question at = *question;
    uint64_t reach = question->position;
    for (unsigned n = 0; n <= table->rows; n++) {
        if (n < table->rows && !table->row[n].has_through) continue;
        at.position = n < table->rows ? table->row[n].through : last;
        if (at.position > reach && at.position <= last && table_decide(table, &at).section == 0)
            reach = at.position;
    }
    return reach;
}

bool table_read_principal(struct table *table, const char *line) {
    struct principal *made = &table->principal[table->principals];
    char token[2 * TOKEN_BYTES + 1];
    if (table->principals == MOST_PRINCIPALS || sscanf(line, "principal %u %32s", &made->id, token) != 2)
        return false;
    for (int n = 0; n < TOKEN_BYTES; n++) {
        unsigned byte;
        if (sscanf(token + 2 * n, "%2x", &byte) != 1) return false;
        made->token[n] = (uint8_t)byte;
    }
    table->principals++;
    return true;
}

bool table_read_row(struct table *table, const char *line) {
    struct row *made = &table->row[table->rows];
    int allows;
    long long who, role, low, high, through;
    if (table->rows == MOST_ROWS) return false;
    if (sscanf(line, "row %d %lld %lld %x %lld %lld %lld", &allows, &who, &role, &made->ops, &low, &high,
               &through) != 7)
        return false;
    made->allows = allows;
    made->has_who = who >= 0, made->has_role = role >= 0, made->has_range = low >= 0,
    made->has_through = through >= 0;
    made->who = (uint32_t)who, made->role = (unsigned)role, made->low = (unsigned)low,
    made->high = (unsigned)high;
    made->through = (uint64_t)through;
    table->rows++;
    return true;
}
