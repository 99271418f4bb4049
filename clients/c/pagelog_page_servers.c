/* Which page servers a database has, as its keepers list them. */
#include "pagelog_keepers.h"

#include <stdio.h>
#include <string.h>

static void ask_for_page_servers(const struct pagelog_keepers *keepers, char line[PAGELOG_QUESTION_BYTES]) {
    snprintf(line, PAGELOG_QUESTION_BYTES, "pages %s of=%s\n", keepers->name, keepers->own.database);
}

/* Takes an answer; false where it is another one. */
static bool take_list(char **words, size_t length,
                      struct pagelog_page_server found[PAGELOG_MOST_PAGE_SERVERS], size_t *count) {
    if (length < 2 || strcmp(words[0], "pages") != 0) return false;
    *count = pagelog_read_page_servers(words, length, found);
    return true;
}

enum pagelog_outcome pagelog_page_servers(struct pagelog_keepers *keepers,
                                          struct pagelog_page_server found[PAGELOG_MOST_PAGE_SERVERS],
                                          size_t *count) {
    char line[PAGELOG_QUESTION_BYTES], answer[PAGELOG_LINE_BYTES], *words[PAGELOG_MOST_WORDS];
    bool is_told = false;
    ask_for_page_servers(keepers, line);
    *count = 0;
    for (size_t i = 0; i < keepers->count && *count == 0; i++) {
        size_t length =
            pagelog_keepers_ask(keepers, &keepers->keepers[i], line, PAGELOG_ANSWER_MS, answer, words);
        is_told |= take_list(words, length, found, count);
    }
    return is_told ? PAGELOG_DONE : PAGELOG_LOST;
}

enum pagelog_outcome pagelog_page_servers_soon(struct pagelog_keepers *keepers, uint64_t ms,
                                               struct pagelog_page_server found[PAGELOG_MOST_PAGE_SERVERS],
                                               size_t *count) {
    char line[PAGELOG_QUESTION_BYTES], answer[PAGELOG_LINE_BYTES], *words[PAGELOG_MOST_WORDS];
    uint64_t until = pagelog_after(ms);
    bool is_told = false;
    *count = 0;
    ask_for_page_servers(keepers, line);
    pagelog_keepers_ask_all(keepers);
    while (*count == 0 && pagelog_keepers_next(keepers, line, until, answer)) {
        size_t length = pagelog_split_words(answer, words);
        is_told |= take_list(words, length, found, count);
    }
    pagelog_keepers_stop(keepers, line, true);
    return is_told ? PAGELOG_DONE : PAGELOG_LOST;
}
