/* A host with two addresses, of which the first is silent, as of a machine that is gone: the other has its
 * share of the time of each connect.
 *
 *   addresses SILENT-PORT SERVICE KEEPER
 *
 * It is linked so that getaddrinfo comes by here: each address of IPv4 has the port at 127.0.0.1 before it.
 */
#include "../pagelog_turn.h"

#include <arpa/inet.h>
#include <netdb.h>
#include <stdio.h>
#include <stdlib.h>
#include <string.h>

int __wrap_getaddrinfo(const char *host, const char *port, const struct addrinfo *hints,
                       struct addrinfo **found);
void __wrap_freeaddrinfo(struct addrinfo *found);

static struct sockaddr_in addresses[2];
static struct addrinfo made[2];

int __wrap_getaddrinfo(const char *host, const char *port, const struct addrinfo *hints,
                       struct addrinfo **found) {
    (void)hints;
    addresses[0].sin_addr.s_addr = htonl(INADDR_LOOPBACK);
    addresses[1].sin_addr.s_addr = inet_addr(host);
    addresses[1].sin_port = htons((uint16_t)atoi(port));
    for (size_t i = 0; i < 2; i++) {
        addresses[i].sin_family = AF_INET;
        made[i] = (struct addrinfo){.ai_family = AF_INET,
                                    .ai_socktype = SOCK_STREAM,
                                    .ai_addrlen = sizeof addresses[i],
                                    .ai_addr = (struct sockaddr *)&addresses[i],
                                    .ai_next = i == 0 ? &made[1] : NULL};
    }
    *found = made;
    return 0;
}

void __wrap_freeaddrinfo(struct addrinfo *found) {
    (void)found;
}

static void expect(const char *what, bool holds) {
    if (holds) return;
    fprintf(stderr, "%s\n", what);
    exit(1);
}

static void look_at_service(const char *address) {
    struct pagelog_options options = {.address = address, .connect_ms = 2000, .patience_ms = 1};
    struct pagelog *log = pagelog_new(&options);
    expect("the service is reached", log && pagelog_connect(log) == PAGELOG_DONE);
    pagelog_free(log);
}

/* Where the machine is slow the second address may be late as well: then it is asked again. */
static void look_at_keeper(const char *address) {
    struct pagelog_keepers *keepers = pagelog_keepers_new(address, "shop", NULL);
    struct pagelog_place place;
    enum pagelog_outcome outcome = PAGELOG_LOST;
    for (int tries = 0; keepers && tries < 5 && outcome != PAGELOG_DONE; tries++)
        outcome = pagelog_where(keepers, 0, &place);
    expect("the keeper is reached", outcome == PAGELOG_DONE && place.generation == 1);
    pagelog_keepers_free(keepers);
}

static void take_turn(const char *address) {
    struct pagelog_turn turn;
    struct pagelog_place place = {
        .generation = 1, .database = "00000000-0000-4000-8000-000000000001", .run = "run1"};
    enum pagelog_outcome outcome = PAGELOG_LOST;
    snprintf(place.lines, sizeof place.lines, "%s", address);
    uint8_t token[PAGELOG_TOKEN_BYTES];
    memset(token, 0x22, sizeof token);
    pagelog_turn_begin(&turn, "shop", NULL);
    for (int tries = 0; tries < 5 && outcome != PAGELOG_DONE; tries++) {
        pagelog_turn_leave(&turn);
        pagelog_turn_begin(&turn, "shop", NULL);
        pagelog_turn_prove(&turn, 2, token);
        outcome = pagelog_turn_ask(&turn, &place, true);
    }
    expect("the turn is had", outcome == PAGELOG_DONE);
    pagelog_turn_leave(&turn);
}

int main(int count, char **words) {
    expect("a port and two addresses", count == 4);
    addresses[0].sin_port = htons((uint16_t)atoi(words[1]));
    look_at_service(words[2]);
    look_at_keeper(words[3]);
    take_turn(words[3]);
    return 0;
}
