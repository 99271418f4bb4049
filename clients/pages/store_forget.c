/* What of a store is forgotten: of a page what is older than the newest image at or below the oldest position
 * that is kept. */
#include "store_inside.h"

#include <errno.h>
#include <fcntl.h>
#include <stdio.h>
#include <stdlib.h>
#include <unistd.h>

/* Of one compaction, which goes through the rows in their order. */
struct forgetting {
    uint64_t oldest;
    uint8_t prefix[PAGE_PREFIX];
    bool is_whole; /* of the page of `prefix` an image at or below `oldest` has passed */
};

static const char *name_of(void *state) {
    (void)state;
    return "pagelog forget";
}

/* A row of changes at or below the oldest position is kept: what it changes is before it. */
static unsigned char is_forgotten(void *state, int level, const char *key, size_t length, const char *value,
                                  size_t value_length, char **new_value, size_t *new_length,
                                  unsigned char *is_changed) {
    struct forgetting *forgetting = state;
    (void)level, (void)new_value, (void)new_length;
    *is_changed = 0;
    if (length == BLOCK_KEY && key[0] == 'B')
        return number_at((const uint8_t *)key + 1, 8) < forgetting->oldest;
    if (length != PAGE_KEY || key[0] != 'P') return 0;
    if (memcmp(forgetting->prefix, key, PAGE_PREFIX) != 0) {
        memcpy(forgetting->prefix, key, PAGE_PREFIX);
        forgetting->is_whole = false;
    }
    if (forgetting->is_whole) return 1;
    uint64_t position = ~number_at((const uint8_t *)key + PAGE_PREFIX, 8);
    bool makes_whole = key[PAGE_KEY - 1] == IMAGE || (value_length > 0 && value[0]);
    if (position <= forgetting->oldest && makes_whole) forgetting->is_whole = true;
    return 0;
}

static rocksdb_compactionfilter_t *begin(void *state, rocksdb_compactionfiltercontext_t *context) {
    struct store *store = state;
    struct forgetting *forgetting = calloc(1, sizeof *forgetting);
    (void)context;
    if (!forgetting) return NULL; /* nothing is forgotten this time */
    forgetting->oldest = store_oldest(store);
    return rocksdb_compactionfilter_create(forgetting, free, is_forgotten, name_of);
}

static void nothing(void *state) {
    (void)state;
}

rocksdb_compactionfilterfactory_t *store_forgetter(struct store *store) {
    return rocksdb_compactionfilterfactory_create(store, nothing, begin, name_of);
}

/* The name of the file beside the folder of a store. NULL: no memory. */
static char *file_of(const char *folder, const char *ending) {
    char *name = NULL;
    return asprintf(&name, "%s.oldest%s", folder, ending) < 0 ? NULL : name;
}

uint64_t store_read_oldest(const char *folder) {
    char *name = file_of(folder, "");
    FILE *file = name ? fopen(name, "re") : NULL;
    unsigned long long found = 0;
    if (file && fscanf(file, "%llu", &found) != 1) found = 0;
    if (file) fclose(file);
    free(name);
    return found;
}

static bool write_whole(const char *name, const char *text) {
    int file = open(name, O_CREAT | O_TRUNC | O_WRONLY | O_CLOEXEC, 0600);
    if (file < 0) return false;
    size_t length = strlen(text);
    bool is_written = write(file, text, length) == (ssize_t)length && fsync(file) == 0;
    return close(file) == 0 && is_written;
}

/* A compaction is on the disk at once: so the position has to be there before one goes by it. */
bool store_forget(struct store *store, uint64_t oldest) {
    char text[32], *name = file_of(store->folder, ""), *fresh = file_of(store->folder, ".new");
    if (oldest <= store->oldest) {
        free(name);
        free(fresh);
        return true;
    }
    snprintf(text, sizeof text, "%llu\n", (unsigned long long)oldest);
    bool is_kept = name && fresh && write_whole(fresh, text) && rename(fresh, name) == 0;
    free(name);
    free(fresh);
    if (is_kept) atomic_store_explicit(&store->oldest, oldest, memory_order_release);
    return is_kept;
}
