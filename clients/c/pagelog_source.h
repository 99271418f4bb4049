/* Where a file has its log: at an address (pagelog_addressed.c), or under a name, wherever the keepers of
 * that name say it is by then (pagelog_move.h). The file asks by the table below, and of what a name needs it
 * knows nothing.
 *
 * A call of the second kind goes on in the next run of the database where the one that it was in is over: a
 * position stays what it is. What it finds there of the transaction that is read is a step of
 * the file: GONE where that is not there, OVER where commits are lost that were acknowledged. */
#ifndef PAGELOG_SOURCE_H
#define PAGELOG_SOURCE_H

#include "pagelog_file.h"
#include "pagelog_position.h"

struct mark;
struct named;
struct wanted;

struct source_calls {
    /* As pagelog_file_connect. */
    enum pagelog_outcome (*connect)(struct pagelog_file *file, char *peer, size_t room);

    /* Connects, and takes the newest transaction, or the one of `at`. */
    enum pagelog_outcome (*open)(struct pagelog_file *file);

    /* Brings the file to the newest transaction, as far as that is due. */
    enum pagelog_outcome (*begin)(struct pagelog_file *file);

    /* Makes the file the writer of an epoch before a commit, if it is not; and in the name of this operator.
     */
    enum pagelog_outcome (*reserve)(struct pagelog_file *file);
    enum pagelog_outcome (*take_over)(struct pagelog_file *file, uint32_t operator_principal,
                                      const uint8_t operator_token[PAGELOG_TOKEN_BYTES]);
    bool (*may_commit)(const struct pagelog_file *file);

    /* Pages at a position. */
    enum pagelog_outcome (*get)(struct pagelog_file *file, struct pagelog_position position,
                                struct wanted wanted, uint8_t *out);

    /* Pages as the transaction that is read has them, PAGELOG_COPY_PAGES at most, of who has copies: the
     * file's until the next call. NULL: they are to be got. */
    const uint8_t *(*copied)(struct pagelog_file *file, const uint32_t *pages, size_t count);

    /* Blocks from a position on, and up to which may be read; and that all up to this mark were pulled. */
    enum pagelog_outcome (*pull)(struct pagelog_file *file, struct pagelog_position from,
                                 struct pagelog_reply *pulled);
    struct pagelog_position (*limit)(const struct pagelog_file *file);
    void (*note_pulled)(struct pagelog_file *file, const struct mark *mark);

    /* Appends the blocks that were ended. */
    enum pagelog_outcome (*append)(struct pagelog_file *file);

    /* What has become of such an append that is in doubt, the last of which has this mark. */
    enum pagelog_outcome (*settle_doubt)(struct pagelog_file *file, const struct mark *mark);

    /* After a commit that was not done, and of which something may be in the log: how the file goes on. */
    void (*fall_back)(struct pagelog_file *file, enum pagelog_outcome outcome, bool may_be_there);

    /* Where the database is, as far as is known; NULL: nowhere yet, or nobody says it. */
    const struct pagelog_place *(*place)(const struct pagelog_file *file);

    /* As the calls of pagelog_file.h, of what the source has. */
    bool (*is_no_more)(const struct pagelog_file *file);
    void (*describe)(const struct pagelog_file *file, struct pagelog_file_state *state);
    void (*set_waiting)(struct pagelog_file *file, bool (*goes_on)(void *argument), void *argument);
    void (*abandon)(struct pagelog_file *file);
    void (*free)(struct pagelog_file *file);

    /* Whether nothing of before is to be read any more after a loss: the file is GONE then, else OPEN. */
    bool is_gone_after_loss;

    /* Whether who is FENCED begins again, and may write then; else it is that until it takes over. */
    bool begins_again;
};

struct source {
    const struct source_calls *calls;
    int64_t shift;       /* of the run that the file is in */
    const char *name;    /* of the database, as its keepers know it; NULL: it has none */
    struct named *named; /* what a name needs; NULL: as above */
};

/* Gives the file a source by address; and in its place one by name, by the options: false where memory runs
 * out or they cannot be read. */
void pagelog_make_addressed(struct pagelog_file *file);
bool pagelog_make_named(struct pagelog_file *file);

#endif
