/* A line to a keeper: one connection, over which lines of text go both ways. It greets the keeper, and learns
 * its version; of all else it knows not what it means (docs/LINES.md). One to a page server greets nobody,
 * and its bytes are requests and replies, which who uses it reads. */
#ifndef PAGELOG_LINE_H
#define PAGELOG_LINE_H

#include "pagelog_place.h"
#include "pagelog_proof.h"
#include "pagelog_secure.h"

enum { PAGELOG_LINE_BYTES = 1024 };

/* Of the lines. Keepers of version 1 name no database, and no run in what they say is durable. */
enum { PAGELOG_LINES_VERSION = 2 };

struct pagelog_line {
    char host[PAGELOG_PLACE_BYTES], port[16];
    int socket;                    /* -1: none */
    unsigned connects;             /* how many connections were begun */
    struct pagelog_tls *tls;       /* NULL: none is spoken */
    struct pagelog_secure *secure; /* NULL: none yet */
    bool is_shaking, awaits_shake; /* its handshake is not done; and waits for bytes of the keeper */
    bool is_connecting;            /* it is not open yet, or its handshake is not done */
    bool is_asked;                 /* its answer is awaited */
    uint64_t until;                /* when the address that is connecting has had its share of the time */
    unsigned refused;            /* addresses of its host that have refused the connect that is being made */
    bool is_silent;              /* one of them has not even refused it in time */
    uint64_t heard;              /* when something came last */
    bool is_believed;            /* the question was begun without a look whether the connection has ended */
    char why[PAGELOG_WHY_BYTES]; /* what was wrong with TLS, of the last question; empty: nothing */
    unsigned unheard;            /* answers before that, which nobody waits for any more */
    bool is_bare;                /* no greeting goes before the question */
    size_t greeted;              /* bytes of the greeting that have left */
    unsigned version;            /* the keeper's; 0: it has not answered the greeting yet */
    const struct pagelog_proof *proof; /* what is to be proved before the question; NULL: nothing */
    char nonce[PAGELOG_NONCE_BYTES];   /* of the keeper; empty: it has said none */
    char proved[PAGELOG_OF_BYTES];     /* what was proved last over this connection */
    char proving[PAGELOG_PROOF_BYTES]; /* the line that does */
    size_t proving_length, proving_sent;
    size_t sent; /* bytes of the question that have left */
    char input[PAGELOG_LINE_BYTES];
    size_t length;
};

/* Splits "HOST:PORT" or "[HOST]:PORT"; false where it is none. */
bool pagelog_line_set_address(struct pagelog_line *line, const char *text, size_t length);

/* Closes it; what it has not answered is answered by nobody. */
void pagelog_line_leave(struct pagelog_line *line);

/* What is waited for of its socket, where the question has so many bytes: POLLIN or POLLOUT. */
short pagelog_line_events(const struct pagelog_line *line, size_t length);

/* Whether something has come that no poll tells of. */
bool pagelog_line_holds(const struct pagelog_line *line);

/* Begins a question: connects where it is not connected, or no longer. */
void pagelog_line_ask(struct pagelog_line *line);

/* The same of a question that may be asked twice: where something came a moment ago it looks not whether the
 * connection has ended since. If it has, it connects once more, and the question is asked again. */
void pagelog_line_ask_on(struct pagelog_line *line);

/* When there is something to do about it at the latest, though nothing comes: at `deadline`, or where its
 * host has an address that is silent before that. Then it is to be lost. */
uint64_t pagelog_line_ends(const struct pagelog_line *line, uint64_t deadline);

/* The connection is gone: it was refused, and the next address is tried; or it had ended before the question,
 * which is asked again; or that goes unanswered. */
void pagelog_line_lose(struct pagelog_line *line);

/* Whether something is to be sent before anything comes: of a question before which something is to be proved
 * nothing leaves until the greeting was answered. */
bool pagelog_line_has_more(const struct pagelog_line *line, size_t length);

/* Sends what has not left of the question. False where the connection is gone. */
bool pagelog_line_send(struct pagelog_line *line, const char *text, size_t length);

/* Reads what has come, without waiting. False where the connection is gone, or what came is no line. */
bool pagelog_line_read(struct pagelog_line *line);

/* Takes the next answer, without its end; false where it has not come. */
bool pagelog_line_take(struct pagelog_line *line, char text[PAGELOG_LINE_BYTES]);

#endif
