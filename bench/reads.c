/* Reads of files that pass by the system's cache, for bench/page_servers.py.
 *
 *   reads THREADS COUNT FILE ..
 *     Each thread reads 8 KiB COUNT times, at places of the files that are drawn. Prints the reads a second of all, and of
 *     one the 50th and 99th percentile, in microseconds.
 */
#include <fcntl.h>
#include <pthread.h>
#include <stdio.h>
#include <stdlib.h>
#include <time.h>
#include <unistd.h>

enum { PAGE = 8192, SECTOR = 4096, MOST_FILES = 4096, MOST_THREADS = 256 };

static int files[MOST_FILES], file_count;
static off_t sectors[MOST_FILES]; /* where a page may begin */
static long count;

static double now(void) {
    struct timespec t;
    clock_gettime(CLOCK_MONOTONIC, &t);
    return t.tv_sec + t.tv_nsec / 1e9;
}

static void fail(const char *what) {
    perror(what);
    exit(1);
}

struct reader {
    pthread_t thread;
    unsigned short chance[3];
    double *times;
};

static void *reads(void *given) {
    struct reader *reader = given;
    void *room;
    if (posix_memalign(&room, SECTOR, PAGE)) fail("memory");
    for (long n = 0; n < count; n++) {
        int file = nrand48(reader->chance) % file_count;
        off_t at = nrand48(reader->chance) % sectors[file] * SECTOR;
        double began = now();
        if (pread(files[file], room, PAGE, at) != PAGE) fail("read");
        reader->times[n] = now() - began;
    }
    free(room);
    return NULL;
}

static int in_order(const void *one, const void *other) {
    double a = *(const double *)one, b = *(const double *)other;
    return a < b ? -1 : a > b;
}

static void open_file(const char *name) {
    int file = open(name, O_RDONLY | O_DIRECT);
    off_t size = file < 0 ? 0 : lseek(file, 0, SEEK_END);
    if (file < 0) fail(name);
    if (size < PAGE || file_count == MOST_FILES) return;
    files[file_count] = file;
    sectors[file_count++] = (size - PAGE) / SECTOR + 1;
}

int main(int words, char **word) {
    static struct reader readers[MOST_THREADS];
    int threads = words > 3 ? atoi(word[1]) : 0;
    if (threads < 1 || threads > MOST_THREADS) return 2;
    count = atol(word[2]);
    for (int n = 3; n < words; n++) open_file(word[n]);
    if (file_count == 0) return 2;
    double *times = malloc(threads * count * sizeof *times), began = now();
    for (int n = 0; n < threads; n++) {
        readers[n] = (struct reader){.chance = {n, getpid(), 1}, .times = times + n * count};
        if (pthread_create(&readers[n].thread, NULL, reads, &readers[n])) fail("thread");
    }
    for (int n = 0; n < threads; n++) pthread_join(readers[n].thread, NULL);
    double took = now() - began;
    qsort(times, threads * count, sizeof *times, in_order);
    printf("%.0f %.1f %.1f\n", threads * count / took, 1e6 * times[threads * count / 2], 1e6 * times[threads * count * 99 / 100]);
    return 0;
}
