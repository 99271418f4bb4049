/* TLS 1.3 of a server: the certificate that it shows, and whose certificates it wants of clients. */
#ifndef SHOWN_H
#define SHOWN_H

#include "pagelog_secure.h"

struct shown_settings {
    const char *file;     /* a certificate, with the chain above it, and its key */
    const char *clients;  /* the authorities whose clients are let in; NULL: who comes needs no certificate */
    const char *identity; /* the common name that such a client's certificate has */
};

struct shown;

/* NULL: `why` has a sentence. */
struct shown *shown_new(const struct shown_settings *settings, char *why, size_t room);
void shown_free(struct shown *shown);

/* Begins the handshake with a client, by the files as they are now; where they have changed and cannot be
 * used, by what was read before, which is said once. Of any thread. NULL: no memory. */
struct pagelog_secure *shown_begin(struct shown *shown, int socket);

/* Whether a client whose handshake is done is let in. */
bool shown_lets_in(const struct shown *shown, const struct pagelog_secure *secure);

#endif
