/* Entries of 72 octets, as the notes of changes, that are pushed one after the other onto a vector whose room doubles: doubling ENTRIES.
   Beside each entry an octet string is allocated. Before, a large block was freed, as an answer that was made whole. A line for each
   growth of more than 64 KiB: the octets before, and the us of a processor that it took. */
#include <stdio.h>
#include <stdlib.h>
#include <string.h>
#include <time.h>

enum { ENTRY = 72, STRING = 24, SHOWN = 64 << 10, FREED = 31 << 20 };

static double processor(void)
{
    struct timespec at;
    clock_gettime(CLOCK_THREAD_CPUTIME_ID, &at);
    return 1e6 * at.tv_sec + 1e-3 * at.tv_nsec;
}

/* where the compiler can't see what becomes of it */
static void *volatile kept;

int main(int argc, char **argv)
{
    size_t many = argc > 1 ? strtoull(argv[1], 0, 10) : 1, room = 4;
    kept = malloc(FREED);
    memset(kept, 1, FREED);
    free(kept);
    char *entries = malloc(room * ENTRY);
    for (size_t at = 0; at < many && entries; at++) {
        if (at == room) {
            double before = processor();
            entries = realloc(entries, 2 * room * ENTRY);
            if (!entries)
                break;
            if (room * ENTRY > SHOWN)
                printf("%zu %.0f\n", room * ENTRY, processor() - before);
            room *= 2;
        }
        memset(entries + at * ENTRY, 1, ENTRY);
        kept = malloc(STRING);
    }
    return entries == 0;
}
