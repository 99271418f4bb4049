/* A build without TLS (make TLS=): who asks for it is refused, so that nothing is ever sent in its place. */
#include "pagelog_secure.h"

#ifdef PAGELOG_NO_TLS

#include <errno.h>
#include <stdio.h>

struct pagelog_tls *pagelog_tls_new(const struct pagelog_tls_files *files, char *why, size_t room) {
    (void)files;
    snprintf(why, room, "sslmode: this build has no TLS");
    return NULL;
}

void pagelog_tls_free(struct pagelog_tls *tls) {
    (void)tls;
}

/* None of these is called, as there is no pagelog_tls; each would refuse. */

struct pagelog_secure *pagelog_secure_begin(struct pagelog_tls *tls, int socket, const char *host,
                                            const char *port) {
    (void)tls, (void)socket, (void)host, (void)port;
    return NULL;
}

enum pagelog_shake pagelog_secure_shake(struct pagelog_secure *secure) {
    (void)secure;
    return SHAKE_FAILED;
}

const char *pagelog_secure_why(const struct pagelog_secure *secure) {
    (void)secure;
    return "";
}

ssize_t pagelog_secure_send(struct pagelog_secure *secure, const void *bytes, size_t length, int flags) {
    (void)secure, (void)bytes, (void)length, (void)flags;
    errno = EPROTO;
    return -1;
}

ssize_t pagelog_secure_receive(struct pagelog_secure *secure, void *bytes, size_t room, int flags) {
    (void)secure, (void)bytes, (void)room, (void)flags;
    errno = EPROTO;
    return -1;
}

bool pagelog_secure_holds(struct pagelog_secure *secure) {
    (void)secure;
    return true;
}

bool pagelog_secure_has_ended(struct pagelog_secure *secure) {
    (void)secure;
    return true;
}

void pagelog_secure_end(struct pagelog_secure *secure) {
    (void)secure;
}

#endif
