/* What the files share that ask keepers, and who uses pagelog_place.h does not see. */
#ifndef PAGELOG_KEEPERS_H
#define PAGELOG_KEEPERS_H

#include "pagelog_inside.h"
#include "pagelog_line.h"

enum {
    PAGELOG_ANSWER_MS = 1000, /* for a connect and an answer that comes at once */
    PAGELOG_MOST_WORDS = 64,  /* also those of keys that are not known */
    PAGELOG_QUESTION_BYTES = PAGELOG_PLACE_BYTES + PAGELOG_OF_BYTES + 80,
};

/* What the keepers have answered to a question for the place. */
struct told {
    size_t answers, unknown, old; /* how many; that have no database of the name; that are of version 1 */
    bool is_found, is_other;      /* a place of this database, of another one of its name */
    uint64_t until;               /* when no more answers are waited for */
    uint64_t wanted;              /* after an answer of a lower generation others are waited for longer */
};

struct pagelog_keepers {
    struct pagelog_waiter waiter;
    char name[PAGELOG_PLACE_BYTES];
    struct pagelog_line
        keepers[PAGELOG_MOST_KEEPERS + 1]; /* the last one: of the lines that a place has named */
    size_t count;
    struct pagelog_tls *tls;
    struct pagelog_proof proof; /* of whose token, and of what is asked now */
    struct pagelog_place own;   /* of the database that was opened */
    bool has_own;
    const char *reason; /* why the last question for the place was denied */
    struct told told;   /* of the question that nobody waits for; and the place that it has found */
    struct pagelog_place found;
    bool are_gone; /* it was refused by all of them, and none was silent */
};

/* ---- Asking (pagelog_keepers.c) ---- */

/* Asks all of them one question, before which nothing is proved. The calls below are given its text. */
void pagelog_keepers_ask_all(struct pagelog_keepers *keepers);

/* One round of a poll, of so many milliseconds at most: those that are asked send and read. Returns how many
 * had something to do; -1 where nobody is asked. */
int pagelog_keepers_poll(struct pagelog_keepers *keepers, const char *line, uint64_t ms);

/* Takes an answer that has come. */
bool pagelog_keepers_take(struct pagelog_keepers *keepers, char answer[PAGELOG_LINE_BYTES]);

/* The next answer; false once all have answered or are gone, or at the deadline. */
bool pagelog_keepers_next(struct pagelog_keepers *keepers, const char *line, uint64_t deadline,
                          char answer[PAGELOG_LINE_BYTES]);

/* Nobody waits for the answers any more. One that has the whole question gives its answer all the same. */
void pagelog_keepers_stop(struct pagelog_keepers *keepers, const char *line, bool is_answered_at_once);

/* The keeper of these lines, which is given a place of its own where it is none of those that were named. */
struct pagelog_line *pagelog_keepers_find(struct pagelog_keepers *keepers, const char *lines);

/* Has a keeper told, before its next question, whose token this is. */
void pagelog_keepers_prove_to(struct pagelog_keepers *keepers, struct pagelog_line *keeper, const char *of);

/* The answer of one keeper. One that does not come would be mixed with later ones: the connection is left. */
size_t pagelog_keepers_ask(struct pagelog_keepers *keepers, struct pagelog_line *keeper, const char *line,
                           uint64_t ms, char answer[PAGELOG_LINE_BYTES], char *words[PAGELOG_MOST_WORDS]);

/* ---- Answers (pagelog_words.c) ---- */

/* Cuts an answer into its words; how many. The calls below read what these say: false where it is not that.
 */
size_t pagelog_split_words(char *line, char *words[PAGELOG_MOST_WORDS]);
bool pagelog_read_place(char **words, size_t count, struct pagelog_place *place);
size_t pagelog_read_page_servers(char **words, size_t count,
                                 struct pagelog_page_server found[PAGELOG_MOST_PAGE_SERVERS]);

/* How far a generation is durable, where that is the position, or it is over; and the same of a run, `of`,
 * which may be lost. */
bool pagelog_read_end(char **words, size_t count, struct pagelog_position position,
                      struct pagelog_fate *fate);
bool pagelog_read_fate(char **words, size_t count, struct pagelog_position position, const char *of,
                       struct pagelog_fate *fate);

/* ---- Fates (pagelog_fate.c) ---- */

/* Why the run that this is a client of is lost, as soon as one of the keepers says that. They are asked side
 * by side: one that is silent holds up nobody. */
enum pagelog_loss pagelog_keepers_ask_loss(struct pagelog_keepers *keepers);

#endif
