/* A statement's answer and a service's, which one turn of the thread hears, in this order: a client waits for
 * the block that the statement has archived, and was asked for with a pull that has found nothing behind it.
 * Prints what the client is told. */
#include "fast_path_referee.c"

#include <stdio.h>
#include <sys/eventfd.h>
#include <sys/socket.h>

enum { MINUTE_MS = 60000, PULL = 64 };

static struct way *made_way(struct plane *plane, int service) {
    struct way *way = calloc(1, sizeof *way);
    if (way == NULL) exit(1);
    way->kind = SERVICE;
    way->plane = plane;
    way->name = strdup("shop");
    way->of = strdup("of=1/r");
    way->log = strdup("1");
    way->run = strdup("r");
    way->start = (struct way_start){.generation = 7, .service = service, .pull_len = PULL};
    way->start.service_ms = way->start.idle_ms = way->start.referee_ms = MINUTE_MS;
    way->asks = calloc(1, PULL);
    begin_way(way);
    return way;
}

/* As the thread does at the end of a turn. */
static void see_all(struct plane *plane) {
    while (plane->active != NULL) {
        struct way *way = plane->active;
        plane->active = way->next_active;
        way->is_active = false;
        advance(way);
    }
}

int main(void) {
    static const unsigned char nothing_above[] = {0, 0, 0, 12, 5, 3, 0, 1, 0, 0, 0, 0, 0, 0, 0, 1};
    struct plane *plane = plane_new(eventfd(0, EFD_NONBLOCK));
    int service[2], client[2];
    if (plane == NULL || socketpair(AF_UNIX, SOCK_STREAM, 0, service) != 0) return 1;
    if (socketpair(AF_UNIX, SOCK_STREAM, 0, client) != 0) return 1;
    struct way *way = made_way(plane, service[0]);
    struct line *line = calloc(1, sizeof *line);
    if (line == NULL) return 1;
    way->phase = KEEPING; /* the first block is on its way */
    way->batch.blocks = way->batch.reached = 1;
    way->batch.chain_len = WAY_DIGEST;
    line->kind = LINE;
    line->way = way;
    line->descriptor = client[0];
    line->position = 1;
    line->is_named = true;
    take_order(way, line, false, 0);
    way->rung = true; /* by another, whose block is not hardened yet */
    set_active(way);
    see_all(plane);
    if (!way->is_ahead || write(service[1], nothing_above, sizeof nothing_above) < 0) return 1;
    enter(way);
    go_on_pulling(way);
    see_all(plane);
    char said[200] = {0};
    ssize_t length = recv(client[1], said, sizeof said - 1, MSG_DONTWAIT);
    printf("%.*s", length < 0 ? 0 : (int)length, said);
    return 0;
}
