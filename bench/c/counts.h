/* Counts of a program that this is preloaded into, in the file that NEWSD_COUNTS names: COUNTS numbers, each a uint64_t. Without the
 * file they are lost. A file that includes this defines COUNTS and _GNU_SOURCE first. */
#include <fcntl.h>
#include <stdint.h>
#include <stdlib.h>
#include <sys/mman.h>
#include <unistd.h>

static uint64_t none[COUNTS], *counts = none;

__attribute__((constructor)) static void find_counts(void) {
    const char *path = getenv("NEWSD_COUNTS");
    int file = path ? open(path, O_RDWR) : -1;
    if (file < 0) return;
    void *at = mmap(NULL, sizeof none, PROT_READ | PROT_WRITE, MAP_SHARED, file, 0);
    if (at != MAP_FAILED) counts = at;
    close(file);
}

static void add(int which, uint64_t count) {
    __atomic_fetch_add(&counts[which], count, __ATOMIC_RELAXED);
}
