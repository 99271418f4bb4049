/* The files of TLS, and the sessions with peers. */
#ifndef PAGELOG_NO_TLS

#include "pagelog_tls_inside.h"

#include <errno.h>
#include <openssl/err.h>
#include <openssl/x509_vfy.h>
#include <stdio.h>
#include <stdlib.h>
#include <string.h>
#include <unistd.h>

enum { READ_AHEAD = 65536 }; /* bytes that are taken from a socket at once */

enum file { CA, CERTIFICATE, KEY, NONE };
static const char *const words[FILES] = {"sslrootcert", "sslcert", "sslkey"};

/* Of a key that has a passphrase: nobody is asked for it. */
static int no_passphrase(char *text, int room, int writes, void *argument) {
    (void)text, (void)room, (void)writes, (void)argument;
    return -1;
}

/* ---- Sessions: all with the lock ---- */

static struct pagelog_session *find_session(struct pagelog_tls *tls, const char *peer) {
    for (size_t i = 0; i < SESSIONS; i++)
        if (strcmp(tls->sessions[i].peer, peer) == 0) return &tls->sessions[i];
    return NULL;
}

static void forget_sessions(struct pagelog_tls *tls) {
    for (size_t i = 0; i < SESSIONS; i++) {
        SSL_SESSION_free(tls->sessions[i].session);
        tls->sessions[i] = (struct pagelog_session){.session = NULL};
    }
}

/* A session that a peer has given, which is kept if the files are the same still. */
static int keep_session(SSL *ssl, SSL_SESSION *session) {
    const struct pagelog_secure *secure = SSL_get_app_data(ssl);
    struct pagelog_tls *tls = secure->tls;
    pthread_mutex_lock(&tls->lock);
    bool is_current = SSL_get_SSL_CTX(ssl) == tls->context;
    struct pagelog_session *kept = is_current ? find_session(tls, secure->peer) : NULL;
    if (is_current && !kept) kept = &tls->sessions[tls->next++ % SESSIONS];
    if (kept) {
        SSL_SESSION_free(kept->session);
        kept->session = session;
        strcpy(kept->peer, secure->peer);
    }
    pthread_mutex_unlock(&tls->lock);
    return kept != NULL;
}

/* Whether the certificate that the session stands for has not ended since. */
static bool is_in_time(SSL_SESSION *session) {
    X509 *certificate = SSL_SESSION_get0_peer(session);
    return certificate && X509_cmp_current_time(X509_get0_notAfter(certificate)) > 0;
}

/* ---- Files ---- */

static struct pagelog_seen look_at(const char *path) {
    struct stat told;
    if (!*path || stat(path, &told) != 0) return (struct pagelog_seen){.size = -1};
    return (struct pagelog_seen){told.st_dev, told.st_ino, told.st_size, told.st_mtim};
}

static bool is_same(const struct pagelog_seen *one, const struct pagelog_seen *other) {
    return one->device == other->device && one->number == other->number && one->size == other->size &&
           one->changed.tv_sec == other->changed.tv_sec && one->changed.tv_nsec == other->changed.tv_nsec;
}

/* Whether others may read a key: as libpq, a group may where the system's administrator says so. */
static bool is_shared(const char *path) {
    struct stat told;
    if (stat(path, &told) != 0 || !S_ISREG(told.st_mode)) return false;
    return told.st_mode & (told.st_uid == 0 ? 027 : 077);
}

static void prepare(SSL_CTX *context) {
    SSL_CTX_set_min_proto_version(context, TLS1_3_VERSION);
    SSL_CTX_set_max_proto_version(context, TLS1_3_VERSION);
    SSL_CTX_set_verify(context, SSL_VERIFY_PEER, NULL);
    SSL_CTX_set_mode(context, SSL_MODE_ENABLE_PARTIAL_WRITE | SSL_MODE_ACCEPT_MOVING_WRITE_BUFFER |
                                  SSL_MODE_AUTO_RETRY | SSL_MODE_RELEASE_BUFFERS);
    SSL_CTX_set_read_ahead(context, 1);
    SSL_CTX_set_default_read_buffer_len(context, READ_AHEAD);
    SSL_CTX_set_default_passwd_cb(context, no_passphrase);
    SSL_CTX_set_session_cache_mode(context, SSL_SESS_CACHE_CLIENT | SSL_SESS_CACHE_NO_INTERNAL);
    SSL_CTX_sess_set_new_cb(context, keep_session);
}

/* Why a file cannot be read; NULL where it can. */
static const char *unreadable(const char *path) {
    return access(path, R_OK) == 0 ? NULL : strerrordesc_np(errno);
}

/* Reads the files: the one that is wrong, and `*reason`, or NONE. */
static enum file read_files(const struct pagelog_tls *tls, SSL_CTX *context, const char **reason) {
    const char *certificate = tls->paths[CERTIFICATE], *key = tls->paths[KEY];
    *reason = unreadable(tls->paths[CA]);
    if (SSL_CTX_load_verify_file(context, tls->paths[CA]) != 1) return CA;
    if (!*certificate) return NONE;
    *reason = unreadable(certificate);
    if (SSL_CTX_use_certificate_chain_file(context, certificate) != 1) return CERTIFICATE;
    *reason = "others may read it";
    if (is_shared(key)) return KEY;
    *reason = unreadable(key);
    bool is_read = SSL_CTX_use_PrivateKey_file(context, key, SSL_FILETYPE_PEM) == 1;
    return is_read && SSL_CTX_check_private_key(context) == 1 ? NONE : KEY;
}

/* A context of the files as they are; NULL, and why, where they cannot be used. */
static SSL_CTX *make_context(const struct pagelog_tls *tls, char *why, size_t room) {
    const char *reason;
    ERR_clear_error(); /* whoever else of this process uses OpenSSL has nothing of ours, nor we of theirs */
    SSL_CTX *context = SSL_CTX_new(TLS_client_method());
    if (!context) {
        snprintf(why, room, "sslrootcert: out of memory");
        return NULL;
    }
    prepare(context);
    enum file wrong = read_files(tls, context, &reason);
    if (wrong != NONE) {
        if (!reason) reason = ERR_reason_error_string(ERR_peek_last_error());
        snprintf(why, room, "%s: %s: %s", words[wrong], tls->paths[wrong], reason ? reason : "not readable");
        SSL_CTX_free(context);
        context = NULL;
    }
    ERR_clear_error();
    return context;
}

/* Reads files that have changed again. With the lock. */
static void refresh(struct pagelog_tls *tls) {
    char why[PAGELOG_WHY_BYTES];
    bool has_changed = false;
    for (size_t i = 0; i < FILES; i++) {
        struct pagelog_seen now = look_at(tls->paths[i]);
        has_changed |= !is_same(&now, &tls->seen[i]);
        tls->seen[i] = now;
    }
    SSL_CTX *context = has_changed ? make_context(tls, why, sizeof why) : NULL;
    if (!context) return;
    SSL_CTX_free(tls->context);
    tls->context = context;
    forget_sessions(tls);
}

SSL *pagelog_tls_begin(struct pagelog_tls *tls, const char *peer) {
    pthread_mutex_lock(&tls->lock);
    refresh(tls);
    SSL *ssl = SSL_new(tls->context);
    struct pagelog_session *kept = ssl ? find_session(tls, peer) : NULL;
    if (kept && is_in_time(kept->session)) SSL_set_session(ssl, kept->session);
    pthread_mutex_unlock(&tls->lock);
    return ssl;
}

/* ---- Whom to believe ---- */

/* Takes the paths; the one that is wrong, and `*reason`, or NONE. */
static enum file take_paths(struct pagelog_tls *tls, const struct pagelog_tls_files *files,
                            const char **reason) {
    const char *const paths[FILES] = {files->sslrootcert, files->sslcert, files->sslkey};
    for (size_t i = 0; i < FILES; i++) {
        *reason = "its path is empty, or too long";
        if (paths[i] && (!*paths[i] || strlen(paths[i]) >= PATH_BYTES)) return (enum file)i;
        if (paths[i]) strcpy(tls->paths[i], paths[i]);
    }
    *reason = "it is missing";
    if (!paths[CA]) return CA;
    if (!paths[CERTIFICATE] != !paths[KEY]) return paths[KEY] ? CERTIFICATE : KEY;
    return NONE;
}

struct pagelog_tls *pagelog_tls_new(const struct pagelog_tls_files *files, char *why, size_t room) {
    const char *reason;
    /* At the end of a process threads of ours may still be at work: nothing is taken away below them. */
    OPENSSL_init_ssl(OPENSSL_INIT_NO_ATEXIT, NULL);
    struct pagelog_tls *tls = calloc(1, sizeof *tls);
    if (tls) tls->method = pagelog_bio_method();
    if (!tls || !tls->method) {
        snprintf(why, room, "sslrootcert: out of memory");
        free(tls);
        return NULL;
    }
    pthread_mutex_init(&tls->lock, NULL);
    tls->process = getpid();
    enum file wrong = take_paths(tls, files, &reason);
    if (wrong != NONE) snprintf(why, room, "%s: %s", words[wrong], reason);
    for (size_t i = 0; i < FILES; i++)
        tls->seen[i] = look_at(tls->paths[i]); /* before they are read: a later change is not missed */
    if (wrong == NONE) tls->context = make_context(tls, why, room);
    if (tls->context) return tls;
    pagelog_tls_free(tls);
    return NULL;
}

void pagelog_tls_free(struct pagelog_tls *tls) {
    if (!tls) return;
    forget_sessions(tls);
    SSL_CTX_free(tls->context);
    BIO_meth_free(tls->method);
    pthread_mutex_destroy(&tls->lock);
    free(tls);
}

#endif
