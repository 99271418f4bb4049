/* Requests over so many connections of one thread, with or without TLS: how
 * long one takes, and how many a second there are.
 *
 *   secured ADDRESS status|get CONNECTIONS MILLISECONDS [CA|- [TOKEN]]
 *
 * `status`: one in flight on each connection. `get`: pages, 64 in flight on one
 * connection, or one on each of several. It prints the median of rounds in ns,
 * and requests a second. */
#include "../clients/c/pagelog_inside.h"
#include "../clients/c/pagelog_tls.h"

#include <stdio.h>
#include <stdlib.h>

enum { MOST = 1024, ROUNDS = 1 << 20, AT_ONCE = 64 };

static void must(const char *what, int holds) {
    if (holds) return;
    fprintf(stderr, "secured: %s\n", what);
    exit(1);
}

static int by_size(const void *one, const void *other) {
    uint64_t a = *(const uint64_t *)one, b = *(const uint64_t *)other;
    return (a > b) - (a < b);
}

static void ask_all(struct pagelog *logs[], size_t count, const struct pagelog_request *request) {
    struct pagelog_reply reply;
    for (size_t i = 0; i < count; i++) {
        must("send", pagelog_send(logs[i], request) == PAGELOG_DONE);
        pagelog_push(logs[i]);
    }
    for (size_t i = 0; i < count; i++)
        must("receive", pagelog_receive(logs[i], &reply) == PAGELOG_DONE);
}

int main(int words, char **word) {
    static struct pagelog *logs[MOST];
    static uint64_t took[ROUNDS];
    static uint8_t pages[AT_ONCE * PAGELOG_PAGE_BYTES];
    char why[256] = "";
    must("secured ADDRESS status|get CONNECTIONS MILLISECONDS [CA|- [TOKEN]]", words >= 5);
    bool is_secure = words > 5 && strcmp(word[5], "-") != 0;
    size_t count = strtoull(word[3], NULL, 10), rounds = 0, each = count;
    struct pagelog_tls_files files = {.sslrootcert = is_secure ? word[5] : NULL};
    struct pagelog_options options = {.address = word[1], .principal = 3};
    memset(options.token, 0x33, PAGELOG_TOKEN_BYTES);
    for (size_t i = 0; words > 6 && i < PAGELOG_TOKEN_BYTES; i++)
        must("a token", sscanf(word[6] + 2 * i, "%2hhx", &options.token[i]) == 1);
    if (is_secure) must("the CA is read", (options.tls = pagelog_tls_new(&files, why, sizeof why)) != NULL);
    must("connections", count > 0 && count <= MOST);
    for (size_t i = 0; i < count; i++)
        must("connect", (logs[i] = pagelog_new(&options)) && pagelog_connect(logs[i]) == PAGELOG_DONE);
    struct pagelog_request status = {.role = PAGELOG_SECONDARY, .operation = PAGELOG_STATUS};
    struct pagelog_request get = {.role = PAGELOG_SECONDARY, .operation = PAGELOG_GET, .lsn = 1, .page = 1};
    uint32_t numbers[AT_ONCE];
    bool is_get = strcmp(word[2], "get") == 0, is_deep = is_get && count == 1;
    for (size_t i = 0; i < AT_ONCE; i++)
        numbers[i] = 1;
    if (is_deep) each = AT_ONCE;
    struct pagelog_reply reply;
    for (size_t i = 0; i < count; i++) /* it learns the epoch */
        must("status", pagelog_status(logs[i], PAGELOG_SECONDARY, &reply) == PAGELOG_DONE);
    uint64_t began = pagelog_now_ns(), until = began + strtoull(word[4], NULL, 10) * 1000000, now = began;
    while (now < until && rounds < ROUNDS) {
        if (is_deep)
            must("get", pagelog_get(logs[0], PAGELOG_SECONDARY, 1, numbers, AT_ONCE, pages) == PAGELOG_DONE);
        else
            ask_all(logs, count, is_get ? &get : &status);
        uint64_t ended = pagelog_now_ns();
        took[rounds++] = ended - now;
        now = ended;
    }
    qsort(took, rounds, sizeof *took, by_size);
    printf("%llu %.0f\n", (unsigned long long)took[rounds / 2],
           1e9 * (double)(rounds * each) / (double)(now - began));
    for (size_t i = 0; i < count; i++)
        pagelog_free(logs[i]);
    return 0;
}
