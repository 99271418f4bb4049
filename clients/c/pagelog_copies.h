/* The page servers of a database, as one reader asks them for pages: the nearest first, another one beside it
 * once that is silent, and none that has another history than the reader.
 *
 *   - What is read are pages as a transaction left them that the reader has read, with the blocks after it
 * laid over them (pagelog_held.h). That a page server has this very transaction, in page 0 at its position,
 * proves its history up to there; where it has another one nothing of it is believed.
 *   - None is waited for long: who gets no pages here asks the service.
 *   - Used by one thread at a time, and by the process that has made it. */
#ifndef PAGELOG_COPIES_H
#define PAGELOG_COPIES_H

#include "pagelog_held.h"
#include "pagelog_place.h"

struct pagelog_copies;

/* Of a reader with this principal, database and TLS; none is known yet. NULL where memory runs out. */
struct pagelog_copies *pagelog_copies_new(const struct pagelog_options *reader);
void pagelog_copies_free(struct pagelog_copies *copies);

/* For a child of fork(): closes the descriptors there, and nothing else. */
void pagelog_copies_abandon(struct pagelog_copies *copies);

/* Those that there are now. What is known of one that stays is kept. `keepers` and `token` are those of the
 * reader, by which its token at each is made. */
void pagelog_copies_set(struct pagelog_copies *copies, const struct pagelog_page_server *servers,
                        size_t count, const struct pagelog_keepers *keepers,
                        const uint8_t token[PAGELOG_TOKEN_BYTES]);

/* The reader has another history from now on: nothing is proved any more. */
void pagelog_copies_doubt(struct pagelog_copies *copies);

/* Pages, 64 at most, as the last transaction that is held left them. False where no page server has them and
 * answers soon; then the bytes are undefined. It takes a second at most, and where all are silent 100 ms
 * after the last one was asked. */
bool pagelog_copies_get(struct pagelog_copies *copies, const struct pagelog_held *held, const uint32_t *pages,
                        size_t count, uint8_t *bytes);

#endif
