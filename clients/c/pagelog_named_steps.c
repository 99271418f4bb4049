/* The steps of a file of a named database: what it is to the run that it is in, and what it has heard of the
 * service there. The two functions here make them. One from the state of a line to that of a column is made
 * when
 *
 *   NOWHERE has no place yet, ARRIVING has come to one and not looked yet what is there of it, HERE has
 *   looked. PostgreSQL has gone on without the run of who is LEFT_BEHIND or OUT, and each move is to another
 *   one. LEFT_BEHIND has lost nothing by that; OUT has, or had not looked, and moves before it reads:
 *
 *                ARRIVING            HERE                    LEFT_BEHIND         OUT
 *   NOWHERE      it has a place      -                       -                   -
 *   ARRIVING     it goes elsewhere   it has looked, or lost  -                   keepers say so
 *   HERE         it goes elsewhere   it has looked, or lost  keepers say so      it has lost by that
 *   LEFT_BEHIND  it goes elsewhere   it has lost             keepers say it on   -
 *   OUT          it goes elsewhere   it has lost             -                   keepers say it on
 *
 *   UNHEARD has not been answered in this run, UNLISTED was told that the table has no such principal, LISTED
 *   was answered, which no refusal in this run undoes:
 *
 *                UNHEARD              UNLISTED               LISTED
 *   UNHEARD      in another run       it is refused          it is answered
 *   UNLISTED     in another run       -                      it is answered
 *   LISTED       in another run       -                      it is answered
 *
 * A loss is told HERE, before the file may be OUT by it. Nobody comes to NOWHERE. */
#include "pagelog_move.h"

/* To which others each state may go: a bit for each of them. */
static const uint8_t whereabouts[] = {
    [NOWHERE] = 1 << ARRIVING,
    [ARRIVING] = 1 << ARRIVING | 1 << HERE | 1 << OUT,
    [HERE] = 1 << ARRIVING | 1 << HERE | 1 << LEFT_BEHIND | 1 << OUT,
    [LEFT_BEHIND] = 1 << ARRIVING | 1 << HERE | 1 << LEFT_BEHIND,
    [OUT] = 1 << ARRIVING | 1 << HERE | 1 << OUT,
};
static const uint8_t listings[] = {
    [UNHEARD] = 1 << UNHEARD | 1 << UNLISTED | 1 << LISTED,
    [UNLISTED] = 1 << UNHEARD | 1 << LISTED,
    [LISTED] = 1 << UNHEARD | 1 << LISTED,
};

void pagelog_go(struct pagelog_file *file, enum whereabouts to) {
    struct named *named = file->source.named;
    pagelog_assert(whereabouts[named->where] >> to & 1);
    named->where = to;
}

void pagelog_hear(struct pagelog_file *file, enum listing to) {
    struct named *named = file->source.named;
    pagelog_assert(listings[named->listing] >> to & 1);
    if (to == UNLISTED) named->refused = pagelog_now();
    named->listing = to;
}
