// Loaded before the C library, lets a program wait now and then at a call of the system, as on a machine that has much else to do:
// one call in DELAY_ONE_IN, by the seed DELAY_SEED, for up to DELAY_MOST microseconds, mostly for much less. scripts/slow builds it.
#define _GNU_SOURCE
#include <dlfcn.h>
#include <errno.h>
#include <poll.h>
#include <stdint.h>
#include <stdlib.h>
#include <sys/epoll.h>
#include <sys/socket.h>
#include <time.h>
#include <unistd.h>

static uint64_t seed = 1, one_in = 200, most = 20000;
static __thread uint64_t state;

static uint64_t number_of(const char *name, uint64_t otherwise) {
    const char *text = getenv(name);
    return text && *text ? strtoull(text, NULL, 10) : otherwise;
}

__attribute__((constructor)) static void begin(void) {
    seed = number_of("DELAY_SEED", seed);
    one_in = number_of("DELAY_ONE_IN", one_in);
    most = number_of("DELAY_MOST", most);
}

// xorshift64*, of each thread its own.
static uint64_t next(void) {
    if (!state) state = (seed * 0x9e3779b97f4a7c15u) ^ ((uint64_t)gettid() << 17) ^ 0x2545f4914f6cdd1du;
    state ^= state >> 12;
    state ^= state << 25;
    state ^= state >> 27;
    return state * 0x2545f4914f6cdd1du >> 16;
}

static void wait_sometimes(void) {
    if (!one_in || next() % one_in || !most) return;
    int known = errno;
    uint64_t microseconds = next() % most >> next() % 6;
    struct timespec time = {(time_t)(microseconds / 1000000), (long)(microseconds % 1000000 * 1000)};
    nanosleep(&time, NULL);
    errno = known;
}

#define DELAYED_IF(condition, type, name, parameters, arguments)       \
    type name parameters {                                             \
        static type(*real) parameters;                                 \
        if (!real) real = (type(*) parameters)dlsym(RTLD_NEXT, #name); \
        if (condition) wait_sometimes();                               \
        return real arguments;                                         \
    }
#define DELAYED(type, name, parameters, arguments) DELAYED_IF(1, type, name, parameters, arguments)

DELAYED(ssize_t, read, (int file, void *to, size_t count), (file, to, count))
DELAYED(ssize_t, write, (int file, const void *from, size_t count), (file, from, count))
DELAYED(ssize_t, send, (int file, const void *from, size_t count, int flags), (file, from, count, flags))
DELAYED(ssize_t, recv, (int file, void *to, size_t count, int flags), (file, to, count, flags))
DELAYED(ssize_t, sendmsg, (int file, const struct msghdr *message, int flags), (file, message, flags))
DELAYED(ssize_t, recvmsg, (int file, struct msghdr *message, int flags), (file, message, flags))
DELAYED(int, connect, (int file, const struct sockaddr *to, socklen_t size), (file, to, size))
DELAYED(int, accept4, (int file, struct sockaddr *from, socklen_t *size, int flags), (file, from, size, flags))
// Who polls awake does not sleep, however slow the machine is.
DELAYED_IF(timeout != 0, int, poll, (struct pollfd * files, nfds_t count, int timeout), (files, count, timeout))
DELAYED_IF(timeout != 0, int, epoll_wait, (int file, struct epoll_event *events, int count, int timeout), (file, events, count, timeout))
DELAYED(int, fsync, (int file), (file))
DELAYED(int, fdatasync, (int file), (file))
DELAYED(int, shutdown, (int file, int how), (file, how))
DELAYED(int, close, (int file), (file))
