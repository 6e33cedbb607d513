/* Counts the device calls of the program that it is preloaded into, in the file that NEWSD_COUNTS names: syncs, writes and the
 * octets written, and the nanoseconds that all of these took. With NEWSD_NO_SYNC a sync answers at once and does nothing. With
 * NEWSD_SYNC_MICROS=n a sync takes n microseconds more, as that of a slower device. */
#define _GNU_SOURCE
#define COUNTS 4
#include "counts.h"

#include <dlfcn.h>
#include <sys/types.h>
#include <time.h>

enum { SYNCS, WRITES, OCTETS, NANOSECONDS };

static int (*real_sync)(int);
static ssize_t (*real_write)(int, const void *, size_t, off_t);
static int is_idle;
static long more_micros;

__attribute__((constructor)) static void find_calls(void) {
    real_sync = (int (*)(int))dlsym(RTLD_NEXT, "fdatasync");
    real_write = (ssize_t(*)(int, const void *, size_t, off_t))dlsym(RTLD_NEXT, "pwrite");
    is_idle = getenv("NEWSD_NO_SYNC") != NULL;
    const char *micros = getenv("NEWSD_SYNC_MICROS");
    more_micros = micros ? atol(micros) : 0;
}

static uint64_t now(void) {
    struct timespec time;
    clock_gettime(CLOCK_MONOTONIC, &time);
    return (uint64_t)time.tv_sec * 1000000000 + (uint64_t)time.tv_nsec;
}

int fdatasync(int file) {
    uint64_t start = now();
    int answer = is_idle ? 0 : real_sync(file);
    struct timespec more = {.tv_sec = more_micros / 1000000, .tv_nsec = more_micros % 1000000 * 1000};
    if (!is_idle && more_micros > 0) nanosleep(&more, NULL);
    add(SYNCS, 1);
    add(NANOSECONDS, now() - start);
    return answer;
}

ssize_t pwrite(int file, const void *octets, size_t count, off_t at) {
    uint64_t start = now();
    ssize_t answer = real_write(file, octets, count, at);
    add(WRITES, 1);
    add(OCTETS, count);
    add(NANOSECONDS, now() - start);
    return answer;
}
