#include "control.h"

#include "bytes.h"

#include <errno.h>
#include <stdlib.h>
#include <string.h>

enum { LINE = 256, MOST_BYTES = 64 << 20 };

struct control {
    FILE *in, *out;
    struct store *store;
    struct server *server;
    const char *amiss; /* why it ends */
};

static bool is_amiss(struct control *control, const char *why) {
    control->amiss = why;
    return false;
}

static bool ended(struct control *control, enum store_end end) {
    static const char *const why[] = {
        [STORE_NOT_NEXT] = "not the next block",
        [STORE_NO_BLOCK] = "no block",
        [STORE_OTHER_CHAIN] = "another chain",
        [STORE_NO_MEMORY] = "no memory",
    };
    if (end == STORE_DONE) return true;
    return is_amiss(control, end == STORE_FAILED ? store_why(control->store) : why[end]);
}

static bool read_line(struct control *control, char line[LINE]) {
    if (!fgets(line, LINE, control->in)) return is_amiss(control, "the input ended within a command");
    return strchr(line, '\n') || is_amiss(control, "a line is too long");
}

static bool read_bytes(struct control *control, uint8_t *bytes, size_t length) {
    return fread(bytes, 1, length, control->in) == length ||
           is_amiss(control, "the input ended within a command");
}

static bool read_table(struct control *control, unsigned principals, unsigned rows) {
    char line[LINE];
    struct table *table = calloc(1, sizeof *table);
    bool is_good = table || is_amiss(control, "no memory");
    for (unsigned n = 0; is_good && n < principals + rows; n++) {
        is_good = read_line(control, line);
        if (!is_good) break;
        bool was_read = n < principals ? table_read_principal(table, line) : table_read_row(table, line);
        is_good = was_read || is_amiss(control, "no line of a table");
    }
    if (is_good)
        server_set_table(control->server, table);
    else
        free(table);
    return is_good;
}

static bool read_chain(struct control *control, const char *text, uint8_t chain[CHAIN_BYTES],
                       size_t *length) {
    *length = strcmp(text, "-") == 0 ? 0 : CHAIN_BYTES;
    if (*length && strlen(text) != 2 * CHAIN_BYTES) return is_amiss(control, "no digest");
    for (size_t n = 0; n < *length; n++) {
        unsigned byte;
        if (sscanf(text + 2 * n, "%2x", &byte) != 1) return is_amiss(control, "no digest");
        chain[n] = (uint8_t)byte;
    }
    return true;
}

static bool take_images(struct control *control, uint64_t position, unsigned count) {
    uint8_t image[4 + PAGE_BYTES];
    if (!store_is_empty(control->store)) return is_amiss(control, "it has begun already");
    for (unsigned n = 0; n < count; n++) {
        if (!read_bytes(control, image, sizeof image)) return false;
        if (!ended(control,
                   store_add_image(control->store, (uint32_t)number_at(image, 4), position, image + 4)))
            return false;
    }
    return true;
}

static bool begin_at(struct control *control, uint64_t position, const char *text) {
    uint8_t chain[CHAIN_BYTES] = {0};
    size_t length;
    if (!store_is_empty(control->store)) return is_amiss(control, "it has begun already");
    return read_chain(control, text, chain, &length) &&
           ended(control, store_begin_at(control->store, position, chain, length));
}

static bool add_blocks(struct control *control, const uint8_t *bytes, size_t length, unsigned count) {
    size_t at = 0;
    for (unsigned n = 0; n < count; n++) {
        if (length - at < 4) return is_amiss(control, "the blocks are cut");
        size_t block = (size_t)number_at(bytes + at, 4);
        at += 4;
        if (length - at < block) return is_amiss(control, "the blocks are cut");
        if (!ended(control, store_add(control->store, bytes + at, block))) return false;
        at += block;
    }
    return at == length || is_amiss(control, "bytes behind the blocks");
}

static bool take_blocks(struct control *control, unsigned count, size_t length, const char *text) {
    uint8_t chain[CHAIN_BYTES], *bytes = length <= MOST_BYTES ? malloc(length + 1) : NULL;
    size_t chain_length;
    bool is_good = bytes || is_amiss(control, "no memory");
    is_good =
        is_good && read_bytes(control, bytes, length) && read_chain(control, text, chain, &chain_length);
    is_good = is_good && add_blocks(control, bytes, length, count);
    is_good = is_good && ended(control, store_write(control->store, chain_length ? chain : NULL));
    free(bytes);
    if (is_good) server_tell(control->server);
    return is_good;
}

static bool obey(struct control *control, const char *line) {
    unsigned long long position, length;
    unsigned count, rows;
    char text[LINE];
    if (sscanf(line, "table %u %u", &count, &rows) == 2) return read_table(control, count, rows);
    if (strcmp(line, "closed\n") == 0) return server_set_table(control->server, NULL), true;
    if (sscanf(line, "images %llu %u", &position, &count) == 2) return take_images(control, position, count);
    if (sscanf(line, "begin %llu %s", &position, text) == 2) return begin_at(control, position, text);
    if (sscanf(line, "blocks %u %llu %s", &count, &length, text) == 3)
        return take_blocks(control, count, length, text);
    if (sscanf(line, "forget %llu", &position) == 1)
        return store_forget(control->store, position) || is_amiss(control, strerror(errno));
    if (strcmp(line, "flush\n") == 0) return ended(control, store_flush(control->store));
    return strcmp(line, "where\n") == 0 || is_amiss(control, "no command");
}

static void say_where(const struct control *control) {
    const struct store *store = control->store;
    const char *damage = store_damage(store);
    fprintf(control->out, "at %llu %llu %llu %llu %u%s%s\n", (unsigned long long)store_confirmed(store),
            (unsigned long long)store_written(store), (unsigned long long)store_persisted(store),
            (unsigned long long)store_oldest(store), server_connections(control->server), damage ? " " : "",
            damage ? damage : "");
    fflush(control->out);
}

int control_run(FILE *in, FILE *out, struct store *store, struct server *server) {
    struct control control = {in, out, store, server, NULL};
    char line[LINE];
    say_where(&control);
    while (fgets(line, LINE, in)) {
        if (!obey(&control, line)) {
            fprintf(out, "amiss %s\n", control.amiss);
            fflush(out);
            return 1;
        }
        say_where(&control);
    }
    return 0;
}
