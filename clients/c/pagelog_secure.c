/* One connection by TLS. */
#ifndef PAGELOG_NO_TLS

#include "pagelog_tls_inside.h"

#include <arpa/inet.h>
#include <errno.h>
#include <openssl/bio.h>
#include <openssl/err.h>
#include <openssl/x509v3.h>
#include <stdio.h>
#include <stdlib.h>
#include <string.h>
#include <sys/socket.h>
#include <unistd.h>

/* ---- The socket: never a signal, and no wait that was not asked for ---- */

static bool is_passing(int error) {
    return error == EAGAIN || error == EWOULDBLOCK || error == EINTR;
}

static int bio_write(BIO *bio, const char *bytes, int length) {
    struct pagelog_secure *secure = BIO_get_data(bio);
    ssize_t count = send(secure->socket, bytes, (size_t)length, secure->more | MSG_NOSIGNAL | MSG_DONTWAIT);
    BIO_clear_retry_flags(bio);
    if (count < 0 && is_passing(errno)) BIO_set_retry_write(bio);
    if (count < 0) secure->error = errno;
    return (int)count;
}

/* Once it has waited it waits no more: the rest of a record may come a byte at a time. */
static int bio_read(BIO *bio, char *bytes, int room) {
    struct pagelog_secure *secure = BIO_get_data(bio);
    ssize_t count = recv(secure->socket, bytes, (size_t)room, secure->may_wait ? 0 : MSG_DONTWAIT);
    secure->may_wait = false;
    secure->has_ended = count == 0;
    BIO_clear_retry_flags(bio);
    if (count < 0 && is_passing(errno)) BIO_set_retry_read(bio);
    if (count < 0) secure->error = errno;
    return (int)count;
}

static long bio_control(BIO *bio, int command, long number, void *pointer) {
    const struct pagelog_secure *secure = BIO_get_data(bio);
    (void)number, (void)pointer;
    if (command == BIO_CTRL_EOF) return secure->has_ended;
    return command == BIO_CTRL_FLUSH;
}

BIO_METHOD *pagelog_bio_method(void) {
    BIO_METHOD *method = BIO_meth_new(BIO_TYPE_SOURCE_SINK, "pagelog");
    if (!method) return NULL;
    BIO_meth_set_write(method, bio_write);
    BIO_meth_set_read(method, bio_read);
    BIO_meth_set_ctrl(method, bio_control);
    return method;
}

/* ---- What went wrong ---- */

static void note(struct pagelog_secure *secure, const char *reason) {
    if (*secure->why) return; /* what was wrong first */
    snprintf(secure->why, sizeof secure->why, "TLS with %.100s: %s", secure->peer, reason);
}

/* Notes why a call of OpenSSL has failed for good. That an open connection has ended is no news. */
static void note_failure(struct pagelog_secure *secure, int error, bool is_open) {
    unsigned long code = ERR_peek_error();
    const char *reason = code ? ERR_reason_error_string(code) : NULL;
    bool is_end = ERR_GET_REASON(code) == SSL_R_UNEXPECTED_EOF_WHILE_READING;
    long verdict = SSL_get_verify_result(secure->ssl);
    if (!is_open && verdict != X509_V_OK) reason = X509_verify_cert_error_string(verdict);
    if (!is_open && error == SSL_ERROR_SYSCALL && !reason) reason = strerrordesc_np(secure->error);
    if (is_open && (is_end || error != SSL_ERROR_SSL)) return;
    note(secure, reason ? reason : "the peer has ended it");
}

/* What a call that has moved nothing returns: 0 at the end, or -1 and errno. */
static ssize_t fail(struct pagelog_secure *secure) {
    int error = SSL_get_error(secure->ssl, 0);
    bool is_waiting = error == SSL_ERROR_WANT_READ || error == SSL_ERROR_WANT_WRITE;
    if (!is_waiting) note_failure(secure, error, true);
    ERR_clear_error();
    secure->is_drained = is_waiting;
    secure->is_over = secure->is_over || !is_waiting;
    errno = is_waiting ? EAGAIN : EPROTO;
    return error == SSL_ERROR_ZERO_RETURN ? 0 : -1;
}

/* ---- A connection ---- */

/* Has the certificate compared with the host: no name but those of its subjectAltName counts. */
static bool expect_host(SSL *ssl, const char *host) {
    unsigned char address[sizeof(struct in6_addr)];
    SSL_set_hostflags(ssl, X509_CHECK_FLAG_NO_PARTIAL_WILDCARDS | X509_CHECK_FLAG_NEVER_CHECK_SUBJECT);
    if (inet_pton(AF_INET, host, address) == 1 || inet_pton(AF_INET6, host, address) == 1)
        return X509_VERIFY_PARAM_set1_ip_asc(SSL_get0_param(ssl), host) == 1;
    return SSL_set1_host(ssl, host) == 1 && SSL_set_tlsext_host_name(ssl, host) == 1;
}

struct pagelog_secure *pagelog_secure_begin(struct pagelog_tls *tls, int socket, const char *host,
                                            const char *port) {
    struct pagelog_secure *secure = tls->process == getpid() ? calloc(1, sizeof *secure) : NULL;
    if (!secure) return NULL;
    *secure =
        (struct pagelog_secure){.tls = tls, .process = tls->process, .socket = socket, .is_drained = true};
    int length =
        snprintf(secure->peer, sizeof secure->peer, strchr(host, ':') ? "[%s]:%s" : "%s:%s", host, port);
    bool is_whole = length > 0 && (size_t)length < sizeof secure->peer;
    ERR_clear_error();
    secure->ssl = is_whole && *host ? pagelog_tls_begin(tls, secure->peer) : NULL;
    BIO *bio = secure->ssl ? BIO_new(tls->method) : NULL;
    if (bio) {
        BIO_set_data(bio, secure);
        BIO_set_init(bio, 1);
        SSL_set_bio(secure->ssl, bio, bio);
        SSL_set_app_data(secure->ssl, secure);
        SSL_set_connect_state(secure->ssl);
    }
    bool is_good = bio && expect_host(secure->ssl, host);
    ERR_clear_error();
    if (is_good) return secure;
    pagelog_secure_end(secure);
    return NULL;
}

enum pagelog_shake pagelog_secure_shake(struct pagelog_secure *secure) {
    ERR_clear_error();
    int done = SSL_do_handshake(secure->ssl);
    int error = done == 1 ? SSL_ERROR_NONE : SSL_get_error(secure->ssl, done);
    bool is_waiting = error == SSL_ERROR_WANT_READ || error == SSL_ERROR_WANT_WRITE;
    if (done != 1 && !is_waiting) note_failure(secure, error, false);
    ERR_clear_error();
    secure->is_drained = done != 1; /* once it is done, what comes after it may have come with it */
    if (done == 1) return SHAKE_DONE;
    if (!is_waiting) return SHAKE_FAILED;
    return error == SSL_ERROR_WANT_READ ? SHAKE_READS : SHAKE_WRITES;
}

const char *pagelog_secure_why(const struct pagelog_secure *secure) {
    return secure->why;
}

/* A peer that has ended may have said why before. */
static void hear_last(struct pagelog_secure *secure) {
    char byte;
    size_t count;
    if (*secure->why || SSL_peek_ex(secure->ssl, &byte, 1, &count)) return;
    note_failure(secure, SSL_get_error(secure->ssl, 0), true);
    ERR_clear_error();
}

ssize_t pagelog_secure_send(struct pagelog_secure *secure, const void *bytes, size_t length, int flags) {
    size_t all = 0, count;
    secure->more = flags;
    ERR_clear_error();
    while (all < length && SSL_write_ex(secure->ssl, (const char *)bytes + all, length - all, &count))
        all += count;
    if (all > 0 || length == 0) {
        ERR_clear_error();
        return (ssize_t)all;
    }
    bool was_drained = secure->is_drained;
    ssize_t result = fail(secure);
    secure->is_drained = was_drained && errno == EAGAIN;
    if (errno != EAGAIN) hear_last(secure);
    errno = secure->is_over ? EPROTO : EAGAIN;
    return result < 0 ? result : -1;
}

ssize_t pagelog_secure_receive(struct pagelog_secure *secure, void *bytes, size_t room, int flags) {
    size_t all = 0, count;
    secure->may_wait = !(flags & MSG_DONTWAIT);
    secure->is_drained = false;
    ERR_clear_error();
    while (all < room && !secure->is_drained &&
           SSL_read_ex(secure->ssl, (char *)bytes + all, room - all, &count)) {
        all += count;
        secure->may_wait = false;
        secure->is_drained = !SSL_has_pending(secure->ssl);
    }
    secure->may_wait = false;
    if (all == room || secure->is_drained) return (ssize_t)all;
    ssize_t result = fail(secure);
    return all > 0 ? (ssize_t)all : result;
}

bool pagelog_secure_holds(struct pagelog_secure *secure) {
    char byte;
    size_t count;
    if (secure->is_over) return true;
    if (secure->is_drained || !SSL_has_pending(secure->ssl)) return false;
    ERR_clear_error();
    if (SSL_peek_ex(secure->ssl, &byte, 1, &count)) return true;
    fail(secure); /* what it holds was a ticket, a new key, or a part of a record */
    return secure->is_over;
}

bool pagelog_secure_has_ended(struct pagelog_secure *secure) {
    char byte;
    size_t count;
    ERR_clear_error();
    if (SSL_peek_ex(secure->ssl, &byte, 1, &count)) {
        secure->is_drained = false; /* it may have been read just now: no poll tells of it any more */
        return false;
    }
    return fail(secure) == 0 || errno != EAGAIN;
}

void pagelog_secure_end(struct pagelog_secure *secure) {
    if (!secure || secure->process != getpid()) return;
    if (secure->ssl) SSL_set_shutdown(secure->ssl, SSL_SENT_SHUTDOWN | SSL_RECEIVED_SHUTDOWN);
    SSL_free(secure->ssl); /* without that the session would count as bad */
    ERR_clear_error();
    free(secure);
}

#endif
