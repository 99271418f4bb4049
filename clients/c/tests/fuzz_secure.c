/* A connection by TLS under libFuzzer (clients/c/fuzz): the input says what the peer sends, in which pieces
 * it comes, what is spoiled on the way, and when the client sends and receives. With FUZZ_OPEN nothing is
 * spoiled and nothing ends: then one connection serves a thousand inputs, and a run takes no handshake.
 *
 * What is received is what was sent, in order, up to where that ends; what is said to be held can be
 * received, and what is not is told of by a poll; and of what was spoiled nothing is received. */
#include "../pagelog_secure.h"

#include <errno.h>
#include <fcntl.h>
#include <openssl/err.h>
#include <openssl/pem.h>
#include <openssl/ssl.h>
#include <openssl/x509v3.h>
#include <stdint.h>
#include <stdio.h>
#include <stdlib.h>
#include <string.h>
#include <sys/socket.h>
#include <unistd.h>

enum { MOST = 1 << 16, PIECE = 16384 };
#ifdef FUZZ_OPEN
enum { UNIT = 4, INPUTS = 1000 };
#else
enum { UNIT = 64 };
#endif

static SSL_CTX *context;
static struct pagelog_tls *tls;

struct pair {
    struct pagelog_secure *client;
    SSL *peer;
    BIO *in, *out; /* of the peer */
    int sockets[2];
    size_t sent, received; /* bytes of the peer's that it has sent, and that the client has received */
    bool is_shaken, is_spoiled, is_over;
};

static void must(const char *what, bool holds) {
    if (holds) return;
    fprintf(stderr, "fuzz_secure: %s\n", what);
    abort();
}

/* ---- Certificates: one that is its own CA ---- */

static void make_certificate(const char *path, EVP_PKEY *key) {
    X509 *made = X509_new();
    X509_NAME *name = X509_get_subject_name(made);
    X509_set_version(made, 2);
    ASN1_INTEGER_set(X509_get_serialNumber(made), 1);
    X509_gmtime_adj(X509_getm_notBefore(made), -3600);
    X509_gmtime_adj(X509_getm_notAfter(made), 1L << 30);
    X509_set_pubkey(made, key);
    X509_NAME_add_entry_by_txt(name, "CN", MBSTRING_ASC, (const unsigned char *)"fuzz", -1, -1, 0);
    X509_set_issuer_name(made, name);
    X509_EXTENSION *host = X509V3_EXT_conf_nid(NULL, NULL, NID_subject_alt_name, "DNS:localhost");
    X509_add_ext(made, host, -1);
    X509_EXTENSION_free(host);
    must("it is signed", X509_sign(made, key, EVP_sha256()) > 0);
    FILE *file = fopen(path, "w");
    must("it is written", file && PEM_write_X509(file, made) == 1 && fclose(file) == 0);
    must("it is used", SSL_CTX_use_certificate(context, made) == 1);
    X509_free(made);
}

#ifdef FUZZ_OPEN
/* OpenSSL takes and gives back memory all the time: here nobody looks at that but the other target. */
void *__libc_malloc(size_t), *__libc_realloc(void *, size_t), __libc_free(void *);

static void *take(size_t size, const char *file, int line) {
    (void)file, (void)line;
    return __libc_malloc(size);
}

static void *take_more(void *memory, size_t size, const char *file, int line) {
    (void)file, (void)line;
    return __libc_realloc(memory, size);
}

static void give(void *memory, const char *file, int line) {
    (void)file, (void)line;
    __libc_free(memory);
}
#endif

int LLVMFuzzerInitialize(int *count, char ***words) {
    char path[] = "fuzz-secure-XXXXXX", why[256];
#ifdef FUZZ_OPEN
    must("nobody has memory yet", CRYPTO_set_mem_functions(take, take_more, give) == 1);
#endif
    int file = mkstemp(path);
    EVP_PKEY *key = EVP_EC_gen("P-256");
    (void)count, (void)words;
    must("a file", file >= 0);
    close(file);
    context = SSL_CTX_new(TLS_server_method());
    SSL_CTX_set_min_proto_version(context, TLS1_3_VERSION);
    make_certificate(path, key);
    must("the key is used", SSL_CTX_use_PrivateKey(context, key) == 1);
    EVP_PKEY_free(key);
    tls = pagelog_tls_new(&(struct pagelog_tls_files){.sslrootcert = path}, why, sizeof why);
    must("the CA is read", tls != NULL);
    unlink(path);
    return 0;
}

/* ---- What the input says ---- */

static uint8_t byte_at(size_t number) {
    return (uint8_t)(number * 167 + (number >> 8) * 13);
}

static void write_some(struct pair *pair, size_t length) {
    static uint8_t bytes[PIECE];
    for (size_t i = 0; i < length; i++)
        bytes[i] = byte_at(pair->sent + i);
    if (pair->sent + length > MOST || length == 0 || !SSL_is_init_finished(pair->peer)) return;
    if (SSL_write(pair->peer, bytes, (int)length) > 0) pair->sent += length;
}

/* Carries so many bytes to the client, one of which may be turned. */
static void deliver(struct pair *pair, size_t length, unsigned turned) {
    static uint8_t bytes[PIECE];
    int count = BIO_read(pair->out, bytes, (int)(length < PIECE ? length : PIECE));
    if (count <= 0) return;
    if (turned) {
        bytes[turned % (unsigned)count] ^= (uint8_t)(1u << turned % 8);
        pair->is_spoiled = true;
    }
    if (send(pair->sockets[1], bytes, (size_t)count, MSG_NOSIGNAL | MSG_DONTWAIT) != count)
        pair->is_spoiled = true;
}

/* Has the peer hear what the client has sent. */
static void hear(struct pair *pair) {
    static uint8_t bytes[PIECE];
    ssize_t count;
    while ((count = recv(pair->sockets[1], bytes, sizeof bytes, MSG_DONTWAIT)) > 0)
        BIO_write(pair->in, bytes, (int)count);
    if (!SSL_is_init_finished(pair->peer))
        SSL_do_handshake(pair->peer);
    else
        while (SSL_read(pair->peer, bytes, sizeof bytes) > 0)
            continue;
    ERR_clear_error();
}

static void receive_some(struct pair *pair, size_t room) {
    static uint8_t bytes[MOST];
    bool held = pagelog_secure_holds(pair->client);
    ssize_t count = pagelog_secure_receive(pair->client, bytes, room, MSG_DONTWAIT);
    must("what is held can be received", !held || count >= 0 || errno != EAGAIN);
    for (ssize_t i = 0; i < count; i++)
        must("it is what was sent",
             pair->received + (size_t)i < pair->sent && bytes[i] == byte_at(pair->received + (size_t)i));
    if (count > 0) pair->received += (size_t)count;
    if (count == 0 || (count < 0 && errno != EAGAIN)) pair->is_over = true;
}

static void shake(struct pair *pair) {
    enum pagelog_shake found = pagelog_secure_shake(pair->client);
    pair->is_shaken = found == SHAKE_DONE;
    pair->is_over = found == SHAKE_FAILED;
    if (pair->is_over) must("it says why", *pagelog_secure_why(pair->client));
}

static void do_one(struct pair *pair, unsigned what, unsigned more) {
    static const uint8_t question[256];
    switch (what % 10) {
    case 0:
        return write_some(pair, more * UNIT);
    case 1:
        if (SSL_is_init_finished(pair->peer)) SSL_key_update(pair->peer, (int)(more % 2));
        break;
    case 2:
        if (SSL_is_init_finished(pair->peer)) SSL_new_session_ticket(pair->peer);
        break;
    case 3:
        return deliver(pair, 1 + more * 37, 0);
    case 4:
        return deliver(pair, PIECE, 0);
    case 5:
        return deliver(pair, 1 + more * 37, 1 + more);
    case 6:
        if (pair->is_shaken) receive_some(pair, 1 + more * (more % 2 ? 1 : 250));
        return;
    case 7:
        if (pair->is_shaken && pagelog_secure_send(pair->client, question, more, 0) < 0 && errno != EAGAIN)
            pair->is_over = true;
        return;
    case 8:
        if (pair->is_shaken && pagelog_secure_has_ended(pair->client))
            must("it has ended", pair->is_spoiled || pair->received < MOST);
        return;
    default:
        if (more % 4 == 0) SSL_shutdown(pair->peer);
        if (more % 4 == 1) shutdown(pair->sockets[1], SHUT_WR);
    }
    SSL_do_handshake(pair->peer); /* which sends what there is */
    ERR_clear_error();
}

static void begin(struct pair *pair, const char *port) {
    *pair = (struct pair){.peer = SSL_new(context), .in = BIO_new(BIO_s_mem()), .out = BIO_new(BIO_s_mem())};
    must("sockets", socketpair(AF_UNIX, SOCK_STREAM | SOCK_NONBLOCK, 0, pair->sockets) == 0);
    SSL_set_bio(pair->peer, pair->in, pair->out);
    SSL_set_accept_state(pair->peer);
    pair->client = pagelog_secure_begin(tls, pair->sockets[0], "localhost", port);
    must("it is begun", pair->client != NULL);
}

static void end(struct pair *pair) {
    pagelog_secure_end(pair->client);
    SSL_set_shutdown(pair->peer, SSL_SENT_SHUTDOWN | SSL_RECEIVED_SHUTDOWN);
    SSL_free(pair->peer);
    ERR_clear_error();
    close(pair->sockets[0]);
    close(pair->sockets[1]);
}

#ifdef FUZZ_OPEN
static void step(struct pair *pair) {
    if (!pair->is_shaken) shake(pair);
    hear(pair);
    deliver(pair, PIECE, 0);
}

/* As a client waits: for its socket, unless it holds something that no poll tells of. */
static void hear_what_is_there(struct pair *pair) {
    char byte;
    bool is_readable = recv(pair->sockets[0], &byte, 1, MSG_PEEK | MSG_DONTWAIT) > 0;
    if (is_readable || pagelog_secure_holds(pair->client)) receive_some(pair, MOST);
}

/* All that the peer has sent is received, and nothing else is to come. */
static void drain(struct pair *pair) {
    while (pair->received < pair->sent) {
        size_t received = pair->received, pending = BIO_ctrl_pending(pair->out);
        deliver(pair, PIECE, 0);
        hear_what_is_there(pair);
        bool has_moved = received != pair->received || pending != BIO_ctrl_pending(pair->out);
        must("it goes on", !pair->is_over && has_moved);
    }
    while (BIO_ctrl_pending(pair->out) > 0) {
        deliver(pair, PIECE, 0);
        hear_what_is_there(pair);
    }
    must("nothing more is there", pair->received == pair->sent && !pair->is_over);
    pair->received = pair->sent = 0;
}

int LLVMFuzzerTestOneInput(const uint8_t *input, size_t size) {
    static struct pair pair;
    static unsigned inputs;
    if (!pair.client) begin(&pair, "1");
    while (!pair.is_shaken)
        step(&pair);
    for (size_t at = 0; at + 1 < size; at += 2) {
        unsigned what = input[at] % 10;
        if (what != 5 && what != 9) do_one(&pair, what, input[at + 1]);
        if (what == 7) hear(&pair);
    }
    drain(&pair);
    hear(&pair);
    if (++inputs % INPUTS) return 0;
    end(&pair);
    pair.client = NULL;
    return 0;
}
#else
int LLVMFuzzerTestOneInput(const uint8_t *input, size_t size) {
    struct pair pair;
    begin(&pair, size % 2 ? "1" : "2");
    for (size_t at = 0; at + 1 < size && !pair.is_over; at += 2) {
        if (!pair.is_shaken) shake(&pair);
        hear(&pair);
        if (!pair.is_over) do_one(&pair, input[at], input[at + 1]);
    }
    end(&pair);
    return 0;
}
#endif
