/* What the files of TLS share, and no other does. */
#ifndef PAGELOG_TLS_INSIDE_H
#define PAGELOG_TLS_INSIDE_H

#include "pagelog_secure.h"

#include <openssl/ssl.h>
#include <pthread.h>
#include <sys/stat.h>

enum { SESSIONS = 32, PEER_BYTES = 280, PATH_BYTES = 256, FILES = 3 };

/* A file as it was when it was read. */
struct pagelog_seen {
    dev_t device;
    ino_t number;
    off_t size;
    struct timespec changed;
};

/* The newest session with a peer, "HOST:PORT". One that is taken up again is not verified again, so it is
 * never taken for another host. */
struct pagelog_session {
    char peer[PEER_BYTES];
    SSL_SESSION *session;
};

struct pagelog_tls {
    pid_t process;
    char paths[FILES][PATH_BYTES]; /* in the order of pagelog_tls_files; empty: none */
    BIO_METHOD *method;
    pthread_mutex_t lock; /* for what follows */
    struct pagelog_seen seen[FILES];
    SSL_CTX *context; /* of these files */
    struct pagelog_session sessions[SESSIONS];
    unsigned next; /* the one that is given up for a new peer */
};

struct pagelog_secure {
    struct pagelog_tls *tls;
    pid_t process;
    SSL *ssl;
    int socket;
    int more;        /* flags of the next sends */
    int error;       /* errno of the last failed call of the system */
    bool may_wait;   /* the next receive from the socket may */
    bool has_ended;  /* it was read to its end */
    bool is_drained; /* what OpenSSL holds is no whole record: it wants more of the socket */
    bool is_over;    /* nothing more comes, whatever the socket says */
    char peer[PEER_BYTES], why[PAGELOG_WHY_BYTES];
};

/* The BIO of a connection: OpenSSL's own would wait, and raise SIGPIPE. NULL where memory runs out. */
BIO_METHOD *pagelog_bio_method(void);

/* An SSL of the files as they are now, with the session that is known of the peer. NULL without memory. */
SSL *pagelog_tls_begin(struct pagelog_tls *tls, const char *peer);

#endif
