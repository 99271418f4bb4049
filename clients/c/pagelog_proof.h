/* What a client proves over the lines of keepers: that it has the token of a principal of a database's newest
 * table (docs/LINES.md). A keeper asks for it before it does what costs or tells. */
#ifndef PAGELOG_PROOF_H
#define PAGELOG_PROOF_H

#include "pagelog_place.h"

enum {
    PAGELOG_NONCE_BYTES = 33, /* with the 0 at its end */
    PAGELOG_OF_BYTES = PAGELOG_IDENTITY_BYTES + PAGELOG_RUN_BYTES,
    PAGELOG_PROOF_BYTES = PAGELOG_PLACE_BYTES + PAGELOG_OF_BYTES + 128,
};

/* Whose token it is, and of which database and run something is to be asked. */
struct pagelog_proof {
    bool is_there; /* else there is nothing to be proved with */
    uint32_t principal;
    uint8_t token[PAGELOG_TOKEN_BYTES];
    char name[PAGELOG_PLACE_BYTES], of[PAGELOG_OF_BYTES];
};

/* The nonce of a keeper's answer to the greeting; empty where it has said none. */
void pagelog_read_nonce(const char *answer, char nonce[PAGELOG_NONCE_BYTES]);

/* Writes the line that proves it over the connection of this nonce. Returns its length, with its end. */
size_t pagelog_write_proof(const struct pagelog_proof *proof, const char *nonce,
                           char line[PAGELOG_PROOF_BYTES]);

/* Whether this was proved already: `proved` is the `of` of what was proved last, or empty. One proof is for
 * all runs of a database. */
bool pagelog_was_proved(const struct pagelog_proof *proof, const char *proved);

#endif
