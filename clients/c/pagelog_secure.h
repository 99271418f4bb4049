/* One connection by TLS: the bytes of a socket that somebody else opens, waits for and closes. Nothing here
 * waits, but a receive that is asked to. */
#ifndef PAGELOG_SECURE_H
#define PAGELOG_SECURE_H

#include "pagelog_tls.h"

#include <sys/types.h>

enum { PAGELOG_WHY_BYTES = 256 }; /* of a sentence, with the 0 at its end */

struct pagelog_secure;

/* Begins a handshake with who is to be `host`. NULL: there is no memory, or `tls` is another process's. */
struct pagelog_secure *pagelog_secure_begin(struct pagelog_tls *tls, int socket, const char *host,
                                            const char *port);

enum pagelog_shake { SHAKE_DONE, SHAKE_READS, SHAKE_WRITES, SHAKE_FAILED };

/* Goes on with the handshake: until it is done or has failed, or waits for the socket to be read or written.
 */
enum pagelog_shake pagelog_secure_shake(struct pagelog_secure *secure);

/* What was wrong with the handshake, or with what came after it, for a person; empty where nothing was. A
 * peer that refuses this client's certificate says so after the handshake. */
const char *pagelog_secure_why(const struct pagelog_secure *secure);

/* As send(), with MSG_NOSIGNAL and MSG_DONTWAIT beside `flags`. */
ssize_t pagelog_secure_send(struct pagelog_secure *secure, const void *bytes, size_t length, int flags);

/* As recv(), where `flags` are MSG_DONTWAIT, or 0: it waits for the first bytes then, as long as the socket
 * does. */
ssize_t pagelog_secure_receive(struct pagelog_secure *secure, void *bytes, size_t room, int flags);

/* Whether a receive has something to return, or an end, that no poll of the socket tells of. */
bool pagelog_secure_holds(struct pagelog_secure *secure);

/* Whether the peer has ended it, as far as what has come says. */
bool pagelog_secure_has_ended(struct pagelog_secure *secure);

/* Frees it, and sends nothing. A child of fork() leaves it as it is: another thread of the parent may have
 * been amid a call. */
void pagelog_secure_end(struct pagelog_secure *secure);

#endif
