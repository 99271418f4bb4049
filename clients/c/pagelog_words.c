/* What the answers of keepers say: words that have their place, and behind them others, KEY=VALUE. */
#include "pagelog_keepers.h"

#include <ctype.h>
#include <errno.h>
#include <stdio.h>
#include <stdlib.h>
#include <string.h>

size_t pagelog_split_words(char *line, char *words[PAGELOG_MOST_WORDS]) {
    size_t count = 0;
    char *rest = NULL;
    for (char *word = strtok_r(line, " ", &rest); word && count < PAGELOG_MOST_WORDS;
         word = strtok_r(NULL, " ", &rest))
        words[count++] = word;
    return count;
}

/* A generation, or the number of a position. */
static bool read_number(const char *word, uint64_t *number) {
    char *end;
    errno = 0;
    *number = strtoull(word, &end, 10);
    return isdigit((unsigned char)*word) && *end == 0 && errno == 0 && *number <= PAGELOG_LAST_LSN;
}

static bool read_shift(const char *word, int64_t *shift) {
    uint64_t size;
    bool is_negative = *word == '-';
    if (!read_number(word + is_negative, &size)) return false;
    *shift = is_negative ? -(int64_t)size : (int64_t)size;
    return true;
}

static bool copy_word(char *to, size_t room, const char *word) {
    if (strlen(word) >= room) return false;
    strcpy(to, word);
    return true;
}

/* The value of a key, of the words behind those that have their place; NULL where it is not there. One that
 * is not known is passed over. */
static const char *value_of(char **words, size_t count, const char *key) {
    size_t length = strlen(key);
    for (size_t i = 0; i < count; i++)
        if (strncmp(words[i], key, length) == 0 && words[i][length] == '=') return words[i] + length + 1;
    return NULL;
}

/* of=DATABASE/RUN; a keeper of version 1 says none. */
static bool read_identity(const char *of, char database[PAGELOG_IDENTITY_BYTES]) {
    size_t length = of ? strcspn(of, "/") : 0;
    if (length >= PAGELOG_IDENTITY_BYTES) return false;
    snprintf(database, PAGELOG_IDENTITY_BYTES, "%.*s", (int)length, of ? of : "");
    return true;
}

/* What it says of the time before this run: nothing where it does not. */
static void read_before(char **words, size_t count, struct pagelog_place *place) {
    const char *after = value_of(words, count, "after"), *copied = value_of(words, count, "copied");
    snprintf(place->after, sizeof place->after, "%s", after ? after : "");
    if (count < 10 || !read_number(words[9], &place->kept.number)) place->kept.number = 0;
    if (!copied || !read_number(copied, &place->copied.number)) place->copied.number = 0;
    const char *pages = value_of(words, count, "pages");
    uint64_t servers = 0;
    if (pages && !read_number(pages, &servers)) servers = 0;
    place->pages = servers < PAGELOG_MOST_PAGE_SERVERS ? (unsigned)servers : PAGELOG_MOST_PAGE_SERVERS;
    place->is_page_server = false;
}

/* at NAME GENERATION RUN ADDRESS ARCHIVED LINES BASE SHIFT KEPT .. of=DATABASE/RUN */
bool pagelog_read_place(char **words, size_t count, struct pagelog_place *place) {
    const char *ancestor = value_of(words, count, "ancestor");
    snprintf(place->ancestor, sizeof place->ancestor, "%s", ancestor ? ancestor : "");
    read_before(words, count, place);
    return count >= 9 && read_identity(value_of(words, count, "of"), place->database) &&
           strcmp(words[0], "at") == 0 && read_number(words[2], &place->generation) &&
           copy_word(place->run, sizeof place->run, words[3]) &&
           copy_word(place->address, sizeof place->address, words[4]) &&
           read_number(words[5], &place->archived.number) &&
           copy_word(place->lines, sizeof place->lines, words[6]) &&
           read_number(words[7], &place->base.number) && read_shift(words[8], &place->shift);
}

/* durable NAME GENERATION M, or over NAME GENERATION END */
bool pagelog_read_end(char **words, size_t count, struct pagelog_position position,
                      struct pagelog_fate *fate) {
    if (count < 4 || !read_number(words[3], &fate->end.number)) return false;
    fate->is_over = strcmp(words[0], "over") == 0;
    return fate->is_over || (strcmp(words[0], "durable") == 0 && !is_before(fate->end, position));
}

/* The same of this very run, or lost NAME GENERATION WHY by=N */
bool pagelog_read_fate(char **words, size_t count, struct pagelog_position position, const char *of,
                       struct pagelog_fate *fate) {
    const char *told = value_of(words, count, "of");
    *fate = (struct pagelog_fate){0};
    if (!told || strcmp(told, of) != 0) return false;
    if (count < 4 || strcmp(words[0], "lost") != 0) return pagelog_read_end(words, count, position, fate);
    fate->is_over = true;
    fate->loss = strcmp(words[3], "dropped") == 0   ? PAGELOG_DROPPED
                 : strcmp(words[3], "another") == 0 ? PAGELOG_ANOTHER
                                                    : PAGELOG_SUPERSEDED;
    return true;
}

/* pages NAME, and of each ADDRESS RUN POSITION OLDEST */
size_t pagelog_read_page_servers(char **words, size_t count,
                                 struct pagelog_page_server found[PAGELOG_MOST_PAGE_SERVERS]) {
    size_t read = 0;
    for (size_t at = 2; at + 4 <= count && read < PAGELOG_MOST_PAGE_SERVERS; at += 4) {
        struct pagelog_page_server *server = &found[read];
        bool is_one = copy_word(server->address, sizeof server->address, words[at]) &&
                      copy_word(server->run, sizeof server->run, words[at + 1]) &&
                      read_number(words[at + 2], &server->position.number) &&
                      read_number(words[at + 3], &server->oldest.number);
        if (!is_one) break;
        read++;
    }
    return read;
}
