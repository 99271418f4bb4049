/* pagelog-pages: keeps the pages of one database at every position, and answers for them.
 *
 *   pagelog-pages --folder FOLDER --listen HOST:PORT [--secure HOST:PORT --tls FILE [--clients FILE
 *     --identity ID]] [--cache MIB] [--memtable MIB] [--workers N] [--readers N] [--connections N]
 *     [--wait MS] [--silent S] [--direct]
 *   pagelog-pages --version
 *
 * At --secure it speaks TLS, with the certificate and the key of a file; with `--listen -` there alone. With
 * --clients who comes there shows a certificate of these authorities, with the common name ID.
 *
 * `pagelogctl pages` starts it, gives it the table, images and archived blocks on its standard input, and
 * ends it by closing that. It prints `listening ADDRESS`, with --secure also that one's, and then where it
 * is, after each command, and what was found damaged; or `amiss WHY`, and ends. */
#include "control.h"
#include "shown.h"

#include <arpa/inet.h>
#include <getopt.h>
#include <netdb.h>
#include <signal.h>
#include <stdlib.h>
#include <string.h>
#include <sys/resource.h>
#include <sys/socket.h>
#include <unistd.h>

/* That of the project, which scripts/version.py compares. */
static const char VERSION[] = "0.2.0";

enum { MIB = 1 << 20, BACKLOG = 128, DAY = 86400 };

struct settings {
    struct store_settings store;
    struct server_settings server;
    struct shown_settings shown;
    const char *listen, *secure;
};

static int fail(const char *what, const char *why) {
    fprintf(stderr, "pagelog-pages: %s: %s\n", what, why);
    return 1;
}

/* Who has started it says it. */
static int amiss(char *why) {
    printf("amiss %s\n", why);
    free(why);
    return 1;
}

static bool read_number(const char *text, unsigned long most, unsigned long *number) {
    char *end;
    *number = strtoul(text, &end, 10);
    return *text >= '0' && *text <= '9' && *end == '\0' && *number >= 1 && *number <= most;
}

static bool set_number(struct settings *settings, int option, unsigned long number) {
    switch (option) {
    case 'c':
        return settings->store.cache = number * MIB, true;
    case 'm':
        return settings->store.memtable = number * MIB, true;
    case 'w':
        return settings->server.workers = (unsigned)number, number <= 64;
    case 'n':
        return settings->server.connections = (unsigned)number, true;
    case 'r':
        return settings->server.readers = (unsigned)number, number <= 64;
    case 't':
        return settings->server.wait_ms = (unsigned)number, number <= 60000;
    case 'q':
        return settings->server.silent_ms = (int64_t)number * 1000, number <= DAY;
    default:
        return false;
    }
}

/* Takes an option that has a text; false: it is none. */
static bool set_text(struct settings *settings, int option, const char *text) {
    const char **const texts[] = {
        ['f'] = &settings->store.folder, ['l'] = &settings->listen,        ['s'] = &settings->secure,
        ['p'] = &settings->shown.file,   ['a'] = &settings->shown.clients, ['i'] = &settings->shown.identity,
    };
    bool is_one = option >= 0 && (size_t)option < sizeof texts / sizeof *texts && texts[option];
    if (is_one) *texts[option] = text;
    return is_one;
}

/* Whether what is said of TLS is whole. */
static bool has_all(const struct settings *settings) {
    const struct shown_settings *shown = &settings->shown;
    bool has_place = strcmp(settings->listen, "-") != 0 || settings->secure;
    return has_place && !settings->secure == !shown->file && !shown->clients == !shown->identity &&
           (shown->file || !shown->clients);
}

/* Connections are at most half of the descriptors that there may be: they leave the others to the store. */
static void bound_connections(struct settings *settings) {
    struct rlimit most;
    if (getrlimit(RLIMIT_NOFILE, &most) == 0 && settings->server.connections > most.rlim_cur / 2)
        settings->server.connections = (unsigned)(most.rlim_cur / 2);
}

static bool read_arguments(int count, char **words, struct settings *settings) {
    static const struct option options[] = {
        {"folder", required_argument, NULL, 'f'},
        {"listen", required_argument, NULL, 'l'},
        {"secure", required_argument, NULL, 's'},
        {"tls", required_argument, NULL, 'p'},
        {"clients", required_argument, NULL, 'a'},
        {"identity", required_argument, NULL, 'i'},
        {"cache", required_argument, NULL, 'c'},
        {"memtable", required_argument, NULL, 'm'},
        {"workers", required_argument, NULL, 'w'},
        {"readers", required_argument, NULL, 'r'},
        {"connections", required_argument, NULL, 'n'},
        {"wait", required_argument, NULL, 't'},
        {"silent", required_argument, NULL, 'q'},
        {"direct", no_argument, NULL, 'd'},
        {NULL, 0, NULL, 0},
    };
    int option;
    unsigned long number;
    while ((option = getopt_long(count, words, "", options, NULL)) != -1) {
        if (set_text(settings, option, optarg)) continue;
        if (option == 'd')
            settings->store.direct = true;
        else if (option == '?' || !read_number(optarg, 1 << 20, &number) ||
                 !set_number(settings, option, number))
            return false;
    }
    return optind == count && settings->store.folder && settings->listen && has_all(settings);
}

/* Listens at HOST:PORT, or returns -1. */
static int listen_at(const char *address) {
    struct addrinfo hints = {.ai_family = AF_UNSPEC, .ai_socktype = SOCK_STREAM, .ai_flags = AI_PASSIVE},
                    *found = NULL;
    const char *colon = strrchr(address, ':');
    char host[256];
    int one = 1, listener = -1;
    if (!colon || (size_t)(colon - address) >= sizeof host) return -1;
    bool has_brackets = address[0] == '[' && colon[-1] == ']';
    snprintf(host, sizeof host, "%.*s", (int)(colon - address - 2 * has_brackets), address + has_brackets);
    if (getaddrinfo(host, colon + 1, &hints, &found) != 0) return -1;
    listener = socket(found->ai_family, SOCK_STREAM | SOCK_NONBLOCK | SOCK_CLOEXEC, 0);
    if (listener >= 0) setsockopt(listener, SOL_SOCKET, SO_REUSEADDR, &one, sizeof one);
    bool is_bound = listener >= 0 && bind(listener, found->ai_addr, found->ai_addrlen) == 0 &&
                    listen(listener, BACKLOG) == 0;
    freeaddrinfo(found);
    if (is_bound) return listener;
    if (listener >= 0) close(listener);
    return -1;
}

static void say_address(int listener, const char *end) {
    struct sockaddr_storage at;
    socklen_t length = sizeof at;
    char host[NI_MAXHOST], port[NI_MAXSERV];
    if (listener < 0) {
        printf("-%s", end);
        return;
    }
    getsockname(listener, (struct sockaddr *)&at, &length);
    getnameinfo((struct sockaddr *)&at, length, host, sizeof host, port, sizeof port,
                NI_NUMERICHOST | NI_NUMERICSERV);
    printf(at.ss_family == AF_INET6 ? "[%s]:%s%s" : "%s:%s%s", host, port, end);
}

static void say_addresses(const struct server_settings *server) {
    printf("listening ");
    say_address(server->listener, server->shown ? " " : "\n");
    if (server->shown) say_address(server->secure_listener, "\n");
}

/* Opens what it listens at; NULL, or what it cannot listen at. */
static const char *listen_everywhere(struct settings *settings) {
    struct server_settings *server = &settings->server;
    server->listener = server->secure_listener = -1;
    bool is_plain = strcmp(settings->listen, "-") != 0;
    if (is_plain && (server->listener = listen_at(settings->listen)) < 0) return settings->listen;
    if (settings->secure && (server->secure_listener = listen_at(settings->secure)) < 0)
        return settings->secure;
    return NULL;
}

int main(int count, char **words) {
    struct settings settings = {
        .store = {.cache = 256 * MIB, .memtable = 32 * MIB},
        .server = {.workers = 8, .readers = 8, .connections = 1024, .wait_ms = 100, .silent_ms = 60000},
    };
    char *why, why_not[PAGELOG_WHY_BYTES];
    if (count == 2 && strcmp(words[1], "--version") == 0)
        return printf("pagelog-pages, version %s, %s\n", VERSION, BUILT_FROM) < 0;
    if (!read_arguments(count, words, &settings)) {
        fputs("usage: pagelog-pages --folder FOLDER --listen HOST:PORT [--secure HOST:PORT --tls FILE\n"
              "                     [--clients FILE --identity ID]] [--cache MIB] [--memtable MIB] "
              "[--workers N] [--readers N]\n"
              "                     [--connections N] [--wait MS] [--silent S] [--direct]\n"
              "       pagelog-pages --version\n",
              stderr);
        return 2;
    }
    bound_connections(&settings);
    signal(SIGPIPE, SIG_IGN);
    if (settings.secure && !(settings.server.shown = shown_new(&settings.shown, why_not, sizeof why_not)))
        return fail("TLS", why_not);
    struct store *store = store_open(&settings.store, &why);
    if (!store) return amiss(why);
    settings.server.store = store;
    const char *nowhere = listen_everywhere(&settings);
    if (nowhere) return fail(nowhere, "nothing can listen there");
    struct server *server = server_start(&settings.server);
    if (!server) return fail("threads", "none could be started");
    say_addresses(&settings.server);
    int status = control_run(stdin, stdout, store, server);
    server_stop(server);
    store_close(store);
    shown_free(settings.server.shown);
    return status;
}
