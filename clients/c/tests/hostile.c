/* A server that means harm, and the client that asks it, in one process, for SECONDS seconds.
 *
 *   hostile SECONDS SEED
 *   hostile SECONDS SEED serve        the server alone, until its standard input ends: it prints its address
 *   hostile SECONDS SEED ADDRESS CA   the client alone, by TLS, and until it has been let in once
 *
 * The server answers as the service does, more or less, and then spoils some of it: bits are turned, replies
 * cut, made too long, left out, given twice, or are random bytes. The client makes calls of every kind.
 * Nothing is expected of their outcomes but that each call ends; the sanitizers see what it does to memory
 * meanwhile, and at the end what it has kept.
 */
#include "../pagelog_common.h"
#include "../pagelog_file.h"
#include "../pagelog_tls.h"

#include <arpa/inet.h>
#include <pthread.h>
#include <sched.h>
#include <stdio.h>
#include <stdlib.h>
#include <string.h>
#include <sys/socket.h>
#include <unistd.h>

enum { ROOM = 1 << 17, CALLS = 10 };

struct server {
    int listener;
    uint64_t state; /* of its random numbers */
};

/* The next random number (xorshift). */
static uint64_t next(uint64_t *state) {
    *state ^= *state << 13;
    *state ^= *state >> 7;
    *state ^= *state << 17;
    return *state;
}

static uint64_t below(uint64_t *state, uint64_t most) {
    return next(state) % most;
}

static void fill(uint64_t *state, uint8_t *bytes, size_t length) {
    for (size_t i = 0; i < length; i++)
        bytes[i] = (uint8_t)next(state);
}

/* ---- The server ---- */

/* An end mark that may be one. */
static void write_mark(uint64_t *state, uint8_t *page) {
    memcpy(page, "plfile01", 8);
    pagelog_write_number(page + 8, below(state, 8), 8);
    pagelog_write_number(page + 16, below(state, 2) ? below(state, 100000) : next(state), 8);
}

static size_t write_block(uint64_t *state, uint8_t *to, uint64_t lsn) {
    uint8_t *at = pagelog_write_number(to, lsn, 8);
    unsigned count = (unsigned)below(state, 6);
    at = pagelog_write_number(at, count > 0, 2);
    if (count > 0) at = pagelog_write_number(at, 0, 2);
    at = pagelog_write_number(at, count, 2);
    for (unsigned i = 0; i < count; i++) {
        bool is_mark = i + 1 == count && below(state, 2), is_zero = !is_mark && below(state, 4) == 0;
        at = pagelog_write_number(at, is_zero ? 2 : 1, 1);
        at = pagelog_write_number(at, is_mark ? 0 : below(state, 10), 4);
        if (is_zero) continue;
        size_t length = is_mark ? 40 : 1 + below(state, 100);
        at = pagelog_write_number(at, is_mark ? 0 : below(state, 8000), 2);
        at = pagelog_write_number(at, length, 2);
        fill(state, at, length);
        if (is_mark) {
            write_mark(state, at);
            pagelog_write_number(at + 8, lsn, 8);
        }
        at += length;
    }
    return (size_t)(at - to);
}

static size_t write_blocks(uint64_t *state, uint8_t *to, uint64_t from) {
    unsigned count = (unsigned)below(state, 5);
    uint8_t *at = pagelog_write_number(to, PAGELOG_REPLY_BLOCKS, 1);
    at = pagelog_write_number(at, from + count, 8);
    at = pagelog_write_number(at, count, 2);
    for (unsigned i = 0; i < count; i++) {
        size_t length = write_block(state, at + 4, from + i);
        at = pagelog_write_number(at, length, 4) + length;
    }
    return (size_t)(at - to);
}

/* In the epoch that was asked in, mostly: the client believes no other. */
static size_t write_status(uint64_t *state, const uint8_t *request, uint8_t *to) {
    uint64_t asked = pagelog_read_number(request + 25, 4);
    uint8_t *at = pagelog_write_number(to, PAGELOG_REPLY_STATUS, 1);
    at = pagelog_write_number(at, below(state, 8) ? asked : below(state, 4), 4);
    at = pagelog_write_number(at, 2, 4);
    at = pagelog_write_number(at, below(state, 10), 8);
    at = pagelog_write_number(at, 0, 8);
    return (size_t)(pagelog_write_number(at, 0, 8) - to);
}

static size_t write_page(uint64_t *state, uint8_t *to, uint64_t lsn) {
    pagelog_write_number(pagelog_write_number(to, PAGELOG_REPLY_PAGE, 1), lsn, 8);
    memset(to + 9, 0, PAGELOG_PAGE_BYTES);
    if (below(state, 3) > 0) write_mark(state, to + 9);
    return 9 + PAGELOG_PAGE_BYTES;
}

static size_t write_denial(uint64_t *state, uint8_t *to) {
    uint8_t *at = pagelog_write_number(to, PAGELOG_REPLY_DENIED, 1);
    at = pagelog_write_number(at, 1 + below(state, 3), 1);
    at = pagelog_write_number(at, below(state, 10), 2);
    return (size_t)(pagelog_write_number(at, below(state, 10), 8) - to);
}

/* The body of a reply to a request; at times one of another kind. */
static size_t write_reply(uint64_t *state, const uint8_t *request, uint8_t *to) {
    unsigned operation = below(state, 12) == 0 ? (unsigned)below(state, 12) : request[29];
    if (below(state, 8) == 0) return write_denial(state, to);
    if (below(state, 20) == 0) {
        to[0] = (uint8_t)(PAGELOG_REPLY_NO_MEMORY + below(state, 5));
        to[1] = 3;
        return to[0] == PAGELOG_REPLY_MALFORMED ? 2 : 1;
    }
    switch (operation) {
    case PAGELOG_GET:
        return write_page(state, to, pagelog_read_number(request + 34, 8));
    case PAGELOG_PULL:
        return write_blocks(state, to, pagelog_read_number(request + 34, 8));
    case PAGELOG_STATUS:
        return write_status(state, request, to);
    case PAGELOG_AUDIT:
        memset(to, 0, 3 + 53);
        to[0] = PAGELOG_REPLY_ENTRIES;
        to[2] = (uint8_t)below(state, 3);
        return 3 + 53u * to[2];
    }
    to[0] = PAGELOG_REPLY_DONE;
    return 1;
}

/* Spoils a frame, or leaves it; its new length. */
static size_t spoil(uint64_t *state, uint8_t *frame, size_t length) {
    switch (below(state, 40)) {
    case 0:
        frame[below(state, length)] ^= (uint8_t)(1u << below(state, 8));
        return length;
    case 1:
        return below(state, length);
    case 2:
        fill(state, frame, length);
        return length;
    case 3:
        pagelog_write_number(frame, PAGELOG_REPLY_BYTES + below(state, 1000), 4);
        return length;
    case 4:
        memmove(frame + length, frame, length);
        return 2 * length;
    case 5:
        pagelog_write_number(frame, length - 4 + below(state, 3), 4);
        return length + below(state, 3);
    case 6:
        fill(state, frame + 4, length - 4);
        return length;
    }
    return length;
}

static bool read_exactly(int fd, uint8_t *to, size_t length) {
    for (size_t done = 0; done < length;) {
        ssize_t count = recv(fd, to + done, length - done, 0);
        if (count <= 0) return false;
        done += (size_t)count;
    }
    return true;
}

/* Answers a connection until it ends, or until the server has enough of it. */
static void converse(struct server *server, int fd) {
    uint8_t *request = malloc(ROOM), *reply = malloc(2 * ROOM + 16);
    uint8_t head[4];
    while (request && reply && read_exactly(fd, head, 4)) {
        size_t length = (size_t)pagelog_read_number(head, 4);
        if (length < 30 || length > ROOM || !read_exactly(fd, request, length)) break;
        size_t body = write_reply(&server->state, request, reply + 4);
        pagelog_write_number(reply, body, 4);
        size_t sent = spoil(&server->state, reply, 4 + body);
        if (below(&server->state, 60) == 0) break;
        if (sent > 0 && send(fd, reply, sent, MSG_NOSIGNAL) < 0) break;
    }
    free(request);
    free(reply);
    close(fd);
}

static void *serve(void *argument) {
    struct server *server = argument;
    for (;;) {
        int fd = accept(server->listener, NULL, NULL);
        if (fd < 0) return NULL;
        converse(server, fd);
    }
}

/* ---- The client ---- */

static void append_some(struct pagelog *log, uint64_t *state) {
    struct pagelog_blocks *blocks = pagelog_blocks_new();
    uint8_t bytes[PAGELOG_PAGE_BYTES] = {1};
    if (!blocks) return;
    pagelog_blocks_restart(blocks, pagelog_end(log) + 1);
    for (unsigned i = 0; i < 1 + below(state, 12); i++)
        pagelog_blocks_put(blocks, (uint32_t)below(state, 200000), 0, bytes, PAGELOG_PAGE_BYTES);
    pagelog_blocks_end(blocks);
    unsigned copies = 2 + (unsigned)below(state, 5);
    if (below(state, 2)) {
        pagelog_append_unwaited(log, blocks, copies);
        for (unsigned i = 0; i < 20 && !pagelog_append_is_due(log); i++)
            sched_yield();
    }
    pagelog_append(log, blocks, copies);
    pagelog_blocks_free(blocks);
}

static void use_file(const struct pagelog_options *service, uint64_t *state) {
    struct pagelog_file_options options = {.service = *service,
                                           .reads_only = below(state, 2),
                                           .has_operator = below(state, 2),
                                           .unwaited = below(state, 2) * (unsigned)below(state, 65),
                                           .may_be_stale = below(state, 2)};
    struct pagelog_file *file = pagelog_file_new(&options);
    uint8_t *bytes = calloc(1, 70000);
    size_t count;
    if (file && bytes && pagelog_file_open(file) == PAGELOG_DONE) {
        for (unsigned i = 0; i < 4; i++) {
            pagelog_file_begin(file);
            if (pagelog_file_size(file) < 1000000)
                pagelog_file_read(file, below(state, 20000), bytes, 60000, &count);
            pagelog_file_write(file, below(state, 100000), bytes, 1 + below(state, 60000));
            pagelog_file_resize(file, below(state, 200000));
            pagelog_file_commit(file);
        }
    }
    pagelog_file_free(file);
    free(bytes);
}

static void take_page(void *argument, uint64_t lsn, uint32_t page, const uint8_t *bytes) {
    (void)lsn, (void)page;
    memcpy(argument, bytes, PAGELOG_PAGE_BYTES);
}

static void make_call(struct pagelog *log, const struct pagelog_options *options, uint64_t *state) {
    struct pagelog_reply reply;
    struct pagelog_audit_line line;
    struct pagelog_request audit = {.role = PAGELOG_OPERATOR, .operation = PAGELOG_AUDIT, .lsn = 1, .max = 3};
    const uint32_t pages[3] = {1, 2, 70000};
    static uint8_t out[3 * PAGELOG_PAGE_BYTES], taken[PAGELOG_PAGE_BYTES];
    pagelog_set_taker(log, take_page, taken);
    if (below(state, 2)) pagelog_tidy_up(log, 1, below(state, 2) ? options->token : NULL);
    switch (below(state, CALLS)) {
    case 0:
        pagelog_status(log, 1 + (enum pagelog_role)below(state, 4), &reply);
        break;
    case 1:
        pagelog_get(log, PAGELOG_SECONDARY, below(state, 20), pages, 3, out);
        break;
    case 2:
        if (pagelog_pull(log, 1 + below(state, 9), 1 + (unsigned)below(state, 16), &reply) == PAGELOG_DONE) {
            size_t at = 0, length;
            const uint8_t *block;
            struct pagelog_records records;
            struct pagelog_record record;
            while ((block = pagelog_next_block(&reply, &at, &length))) {
                pagelog_records_begin(&records, block);
                while (pagelog_records_next(&records, &record))
                    if (record.length > 0) memcpy(out, record.bytes, record.length);
            }
        }
        break;
    case 3:
        pagelog_take_over(log, 1, options->token, (uint32_t)below(state, 3));
        break;
    case 4:
        pagelog_join(log);
        break;
    case 5:
    case 6:
        append_some(log, state);
        break;
    case 7:
        use_file(options, state);
        break;
    case 8:
        pagelog_get_ahead(log, PAGELOG_SECONDARY, below(state, 20), pages, 1 + below(state, 3), out);
        break;
    default:
        if (pagelog_send(log, &audit) == PAGELOG_DONE && pagelog_receive(log, &reply) == PAGELOG_DONE)
            for (unsigned i = 0; i < reply.count; i++)
                pagelog_read_audit_line(reply.bytes + 53 * i, &line);
    }
}

/* Bodies that never were on a wire: those of the server, spoiled, in memory of just their length. */
static void decode_some(uint64_t *state, uint8_t *room) {
    uint8_t request[64] = {0};
    struct pagelog_reply reply;
    request[29] = (uint8_t)(1 + below(state, 11));
    size_t length = spoil(state, room, 4 + write_reply(state, request, room + 4));
    length = length > 4 ? length - 4 : 0;
    uint8_t *body = malloc(length ? length : 1);
    if (!body) return;
    memcpy(body, room + 4, length);
    pagelog_decode_reply(body, length, &reply);
    pagelog_block_fault(body, length);
    free(body);
}

static int listen_somewhere(char *address, size_t room) {
    struct sockaddr_in name = {.sin_family = AF_INET, .sin_addr.s_addr = htonl(INADDR_LOOPBACK)};
    socklen_t size = sizeof name;
    int fd = socket(AF_INET, SOCK_STREAM, 0);
    if (fd < 0 || bind(fd, (struct sockaddr *)&name, size) || listen(fd, 64) ||
        getsockname(fd, (struct sockaddr *)&name, &size))
        return -1;
    snprintf(address, room, "127.0.0.1:%u", ntohs(name.sin_port));
    return fd;
}

/* Serves until nobody wants it any more. */
static int serve_alone(struct server *server, const char *address) {
    pthread_t thread;
    if (server->listener < 0 || pthread_create(&thread, NULL, serve, server)) return 2;
    printf("%s\n", address);
    fflush(stdout);
    while (getchar() != EOF)
        continue;
    return 0;
}

int main(int count, char **words) {
    uint64_t seconds = count > 1 ? strtoull(words[1], NULL, 10) : 1,
             seed = count > 2 ? strtoull(words[2], NULL, 10) : 1;
    uint64_t state = seed * 2654435761u + 1, end = pagelog_now() + 1000 * seconds, objects = 0, calls = 0;
    char address[40];
    struct server server = {.listener = listen_somewhere(address, sizeof address), .state = state + 7};
    struct pagelog_options options = {
        .address = address, .principal = 2, .connect_ms = 50, .reply_ms = 8, .patience_ms = 10};
    uint8_t *room = malloc(2 * ROOM + 16);
    pthread_t thread;
    char why[256];
    if (count == 4 && strcmp(words[3], "serve") == 0) return serve_alone(&server, address);
    if (count == 5) {
        options = (struct pagelog_options){
            .address = words[3], .principal = 2, .connect_ms = 20000, .reply_ms = 50, .patience_ms = 10};
        options.tls = pagelog_tls_new(&(struct pagelog_tls_files){.sslrootcert = words[4]}, why, sizeof why);
        if (!options.tls) return 2;
    }
    if (server.listener < 0 || !room || pthread_create(&thread, NULL, serve, &server)) return 2;
    for (bool is_in = !options.tls; pagelog_now() < end || !is_in;) {
        struct pagelog *log = pagelog_new(&options);
        if (!log) return 2;
        is_in = is_in || pagelog_connect(log) == PAGELOG_DONE;
        for (unsigned i = 0; i < 12; i++, calls++)
            make_call(log, &options, &state);
        for (unsigned i = 0; i < 200; i++)
            decode_some(&state, room);
        pagelog_free(log);
        objects++;
    }
    pagelog_tls_free(options.tls);
    shutdown(server.listener, SHUT_RDWR);
    pthread_join(thread, NULL);
    close(server.listener);
    free(room);
    printf("%llu calls of %llu objects, %llu bodies\n", (unsigned long long)calls,
           (unsigned long long)objects, (unsigned long long)(200 * objects));
    return 0;
}
