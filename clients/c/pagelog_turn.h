/* Whose turn it is to write a named database: what a keeper says of it, over a connection of its own
 * (clients/python/src/pagelog/keeper/turns.py). Turns keep writers out of each other's way, and no more: what
 * is written is kept whole by epochs. So whoever cannot ask may go on without one, in the end.
 *
 * A turn ends with its connection. One that is kept may be used again and again without a word, until it is
 * wanted back, which its holder has to look for. */
#ifndef PAGELOG_TURN_H
#define PAGELOG_TURN_H

#include "pagelog_line.h"

struct pagelog_turn {
    struct pagelog_line line;
    char name[PAGELOG_PLACE_BYTES], lines[PAGELOG_PLACE_BYTES]; /* of the database; of the keeper */
    uint64_t generation;                                        /* in which it is asked for */
    uint32_t written; /* the epoch that its holder has written in, as is told with `back`; 0: in none */
    uint32_t epoch;   /* the last one that was written in before it was granted; 0: that was not told */
    char of[PAGELOG_OF_BYTES];  /* the database and the run */
    struct pagelog_proof proof; /* that it is a principal's */
    uint64_t looked;            /* when what the keeper has said was read last */
    bool is_asked;              /* no answer has come yet */
    bool is_soon; /* it was asked for `now`, and another keeps it, who may not use it: the answer is not known
                     yet */
    bool is_held;
    bool is_used;    /* it was asked for, and not given back since */
    bool has_newest; /* its holder has all that was written before */
    bool is_mine; /* such a one was held when its line or its generation ended: whoever had it comes first */
    uint64_t mine_in;      /* in this generation alone; 0: in the next one that it is asked for in */
    bool is_same;          /* the turn before was this one's too: nobody has written since */
    bool is_kept;          /* it may be used again */
    bool is_wanted;        /* another waits for it */
    bool is_unheard;       /* that was said, and is not answered yet */
    bool has_heartbeat;    /* it is answered at any time, by pagelog_turn_heartbeat */
    bool takes_slices;     /* who asks now writes one transaction after the other */
    uint64_t slice;        /* until when the one that is held is used without a word; 0: it is no slice */
    uint64_t given;        /* when it was given back last, or would have been; 0: it was asked for since */
    unsigned gaps;         /* how often in a row it was asked for right after that */
    uint64_t led;          /* when this place was asked for first */
    uint64_t shunned;      /* until when a keeper that has not answered is left alone */
    uint64_t patient;      /* until when another keeper may have it, since it was lost here; 0: it was not */
    uint64_t most_patient; /* and until when that may begin anew */
};

/* A turn that was not asked for yet; its line is by this TLS, or without where it is NULL. */
void pagelog_turn_begin(struct pagelog_turn *turn, const char *name, struct pagelog_tls *tls);

/* Whose token is proved to keepers before it is asked for. */
void pagelog_turn_prove(struct pagelog_turn *turn, uint32_t principal,
                        const uint8_t token[PAGELOG_TOKEN_BYTES]);

/* For the end of it, and for a child of fork(): closes the connection. */
void pagelog_turn_leave(struct pagelog_turn *turn);

/* Asks the keeper of this place. DONE: the turn is held, as one that was kept is. CONFLICT: another has it;
 * this one waits in the queue, unless it was to be `now` and is not `is_soon`. LOST: nobody answers, or that
 * keeper has not the database. */
enum pagelog_outcome pagelog_turn_ask(struct pagelog_turn *turn, const struct pagelog_place *place, bool now);

/* What has come of it since, without waiting: as above. */
enum pagelog_outcome pagelog_turn_look(struct pagelog_turn *turn);

/* Whether a turn that is LOST may soon be had of another keeper, in the next generation. Not for who had it:
 * nobody else has. */
bool pagelog_turn_may_come(const struct pagelog_turn *turn);

/* Answers a keeper that wants back a turn which is held: it is in use, or given back. */
void pagelog_turn_heartbeat(struct pagelog_turn *turn);

/* As that, of a turn which is kept, unless it was looked after a moment ago. */
void pagelog_turn_hold(struct pagelog_turn *turn);

/* Gives it back, or waits for it no more, in the generation that its holder is in: one of another has ended
 * with that, and who asks next says that it was its own. One that is kept stays, unless it is wanted; a slice
 * for its time, where one transaction has come right after the other. */
void pagelog_turn_give(struct pagelog_turn *turn, uint64_t generation);

#endif
