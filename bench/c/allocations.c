/* Counts the allocations of the program that it is preloaded into, in the file that NEWSD_COUNTS names, a uint64_t. */
#define _GNU_SOURCE
#define COUNTS 1
#include "counts.h"

extern void *__libc_malloc(size_t);
extern void *__libc_calloc(size_t, size_t);
extern void *__libc_realloc(void *, size_t);
extern void *__libc_memalign(size_t, size_t);

void *malloc(size_t size) {
    add(0, 1);
    return __libc_malloc(size);
}

void *calloc(size_t many, size_t size) {
    add(0, 1);
    return __libc_calloc(many, size);
}

void *realloc(void *at, size_t size) {
    add(0, 1);
    return __libc_realloc(at, size);
}

void *aligned_alloc(size_t align, size_t size) {
    add(0, 1);
    return __libc_memalign(align, size);
}

int posix_memalign(void **at, size_t align, size_t size) {
    add(0, 1);
    *at = __libc_memalign(align, size);
    return *at == NULL;
}
