/* Preloaded into `newsd`: right before it locks its first file, the file that BY names is renamed to the path that OVER names. It includes
   no header, so that a compiler without those of the C library will do. */

extern char *getenv(const char *);
extern int rename(const char *, const char *);
extern long syscall(long, ...);

enum { FLOCK = 73 };

int flock(int file, int operation) {
    static int calls;
    if (calls++ == 0 && rename(getenv("BY"), getenv("OVER")) != 0) {
        return -1;
    }
    return (int)syscall(FLOCK, file, operation);
}
