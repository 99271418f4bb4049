#include "shown.h"

#include "pagelog_tls_inside.h"

#include <errno.h>
#include <openssl/bio.h>
#include <openssl/err.h>
#include <openssl/x509.h>
#include <stdio.h>
#include <stdlib.h>
#include <string.h>
#include <unistd.h>

enum shown_file { PAIR, AUTHORITIES, SHOWN_FILES };

struct shown {
    struct shown_settings settings;
    BIO_METHOD *method;
    struct pagelog_tls process; /* of what is shared with clients a connection asks for the process alone */
    pthread_mutex_t lock;       /* for what follows */
    struct stat seen[SHOWN_FILES];
    SSL_CTX *context; /* of these files */
};

/* ---- Files ---- */

/* Of a key that has a passphrase: nobody is asked for it. */
static int no_passphrase(char *text, int room, int writes, void *argument) {
    (void)text, (void)room, (void)writes, (void)argument;
    return -1;
}

static struct stat look_at(const char *path) {
    struct stat told;
    if (!path || stat(path, &told) != 0) return (struct stat){.st_size = -1};
    return told;
}

static bool is_same(const struct stat *one, const struct stat *other) {
    return one->st_dev == other->st_dev && one->st_ino == other->st_ino && one->st_size == other->st_size &&
           one->st_mtim.tv_sec == other->st_mtim.tv_sec && one->st_mtim.tv_nsec == other->st_mtim.tv_nsec;
}

/* A session that is taken up again would pass by the client's certificate: there is none. */
static void prepare(SSL_CTX *context) {
    SSL_CTX_set_min_proto_version(context, TLS1_3_VERSION);
    SSL_CTX_set_max_proto_version(context, TLS1_3_VERSION);
    SSL_CTX_set_mode(context, SSL_MODE_ENABLE_PARTIAL_WRITE | SSL_MODE_ACCEPT_MOVING_WRITE_BUFFER |
                                  SSL_MODE_AUTO_RETRY | SSL_MODE_RELEASE_BUFFERS);
    SSL_CTX_set_read_ahead(context, 1);
    SSL_CTX_set_default_passwd_cb(context, no_passphrase);
    SSL_CTX_set_options(context, SSL_OP_NO_TICKET);
    SSL_CTX_set_num_tickets(context, 0);
    SSL_CTX_set_session_cache_mode(context, SSL_SESS_CACHE_OFF);
}

static bool want_clients(SSL_CTX *context, const char *file) {
    STACK_OF(X509_NAME) *names = SSL_load_client_CA_file(file);
    if (!names) return false;
    SSL_CTX_set_client_CA_list(context, names);
    SSL_CTX_set_verify(context, SSL_VERIFY_PEER | SSL_VERIFY_FAIL_IF_NO_PEER_CERT, NULL);
    return SSL_CTX_load_verify_file(context, file) == 1;
}

/* Reads the files: the one that is wrong, or NULL. */
static const char *read_files(const struct shown_settings *settings, SSL_CTX *context) {
    const char *file = settings->file;
    bool is_good = SSL_CTX_use_certificate_chain_file(context, file) == 1 &&
                   SSL_CTX_use_PrivateKey_file(context, file, SSL_FILETYPE_PEM) == 1 &&
                   SSL_CTX_check_private_key(context) == 1;
    if (!is_good) return file;
    return !settings->clients || want_clients(context, settings->clients) ? NULL : settings->clients;
}

/* A context of the files as they are; NULL, and why, where they cannot be used. */
static SSL_CTX *make_context(const struct shown_settings *settings, char *why, size_t room) {
    ERR_clear_error();
    SSL_CTX *context = SSL_CTX_new(TLS_server_method());
    const char *wrong = "TLS";
    if (context) {
        prepare(context);
        wrong = read_files(settings, context);
    }
    if (wrong) {
        const char *reason = ERR_reason_error_string(ERR_peek_last_error());
        snprintf(why, room, "%s: %s", wrong, reason ? reason : "it cannot be used");
        SSL_CTX_free(context);
        context = NULL;
    }
    ERR_clear_error();
    return context;
}

/* Reads files that have changed again. With the lock. */
static void refresh(struct shown *shown) {
    const char *const files[SHOWN_FILES] = {shown->settings.file, shown->settings.clients};
    char why[PAGELOG_WHY_BYTES];
    bool has_changed = false;
    for (size_t n = 0; n < SHOWN_FILES; n++) {
        struct stat now = look_at(files[n]);
        has_changed |= !is_same(&now, &shown->seen[n]);
        shown->seen[n] = now;
    }
    if (!has_changed) return;
    SSL_CTX *context = make_context(&shown->settings, why, sizeof why);
    if (!context) {
        fprintf(stderr, "pagelog-pages: %s; what was read before stays in force\n", why);
        return;
    }
    SSL_CTX_free(shown->context);
    shown->context = context;
}

struct shown *shown_new(const struct shown_settings *settings, char *why, size_t room) {
    OPENSSL_init_ssl(OPENSSL_INIT_NO_ATEXIT, NULL);
    struct shown *shown = calloc(1, sizeof *shown);
    if (shown) shown->method = pagelog_bio_method();
    if (!shown || !shown->method) {
        snprintf(why, room, "out of memory");
        free(shown);
        return NULL;
    }
    pthread_mutex_init(&shown->lock, NULL);
    shown->settings = *settings;
    shown->process.process = getpid();
    shown->seen[PAIR] = look_at(settings->file); /* before they are read: a later change is not missed */
    shown->seen[AUTHORITIES] = look_at(settings->clients);
    shown->context = make_context(settings, why, room);
    if (shown->context) return shown;
    shown_free(shown);
    return NULL;
}

void shown_free(struct shown *shown) {
    if (!shown) return;
    SSL_CTX_free(shown->context);
    BIO_meth_free(shown->method);
    pthread_mutex_destroy(&shown->lock);
    free(shown);
}

/* ---- A connection ---- */

static SSL *newest(struct shown *shown) {
    pthread_mutex_lock(&shown->lock);
    refresh(shown);
    SSL *made = SSL_new(shown->context);
    pthread_mutex_unlock(&shown->lock);
    return made;
}

struct pagelog_secure *shown_begin(struct shown *shown, int socket) {
    struct pagelog_secure *secure = calloc(1, sizeof *secure);
    if (!secure) return NULL;
    *secure = (struct pagelog_secure){
        .tls = &shown->process, .process = shown->process.process, .socket = socket, .is_drained = true};
    ERR_clear_error();
    secure->ssl = newest(shown);
    BIO *bio = secure->ssl ? BIO_new(shown->method) : NULL;
    if (!bio) {
        pagelog_secure_end(secure);
        return NULL;
    }
    BIO_set_data(bio, secure);
    BIO_set_init(bio, 1);
    SSL_set_bio(secure->ssl, bio, bio);
    SSL_set_accept_state(secure->ssl);
    return secure;
}

/* Whether the subject has this common name, and no other. */
static bool has_name(const X509_NAME *subject, const char *name) {
    int at = X509_NAME_get_index_by_NID(subject, NID_commonName, -1);
    if (at < 0 || X509_NAME_get_index_by_NID(subject, NID_commonName, at) >= 0) return false;
    unsigned char *text = NULL;
    int length = ASN1_STRING_to_UTF8(&text, X509_NAME_ENTRY_get_data(X509_NAME_get_entry(subject, at)));
    bool is_it = length >= 0 && (size_t)length == strlen(name) && memcmp(text, name, (size_t)length) == 0;
    OPENSSL_free(text);
    return is_it;
}

bool shown_lets_in(const struct shown *shown, const struct pagelog_secure *secure) {
    if (!shown->settings.clients) return true;
    const X509 *certificate = SSL_get0_peer_certificate(secure->ssl);
    bool is_verified = certificate && SSL_get_verify_result(secure->ssl) == X509_V_OK;
    bool lets_in = is_verified && has_name(X509_get_subject_name(certificate), shown->settings.identity);
    ERR_clear_error();
    return lets_in;
}
