// Loaded before the C library, counts how often a program polls without waiting: its calls of epoll_wait with no timeout. The file of
// COUNT_POLLS has the count, a long, at every moment, also after a program that ends without its destructors.
#define _GNU_SOURCE
#include <dlfcn.h>
#include <fcntl.h>
#include <stdatomic.h>
#include <stdlib.h>
#include <sys/epoll.h>
#include <sys/mman.h>
#include <unistd.h>

typedef int (*waiter)(int, struct epoll_event *, int, int);

static atomic_long *polls;
static waiter next_wait;

__attribute__((constructor)) static void begins(void) {
    int file = open(getenv("COUNT_POLLS"), O_RDWR | O_CREAT | O_TRUNC, 0600);
    if (file < 0 || ftruncate(file, sizeof *polls)) abort();
    polls = mmap(NULL, sizeof *polls, PROT_READ | PROT_WRITE, MAP_SHARED, file, 0);
    if (polls == MAP_FAILED) abort();
    close(file);
    next_wait = (waiter)dlsym(RTLD_NEXT, "epoll_wait");
}

int epoll_wait(int poll, struct epoll_event *events, int most, int timeout) {
    if (timeout == 0) atomic_fetch_add(polls, 1);
    return next_wait(poll, events, most, timeout);
}
