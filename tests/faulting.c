/* Preloaded into `newsd`: as long as the file that NEWSD_FAULTS names is there, each write at a place of a file fails with the error of
   the number NEWSD_ERROR. It includes no header, so that a compiler without those of the C library will do. */

typedef unsigned long size_t;
typedef long ssize_t;

extern char *getenv(const char *);
extern int access(const char *, int), atoi(const char *), *__errno_location(void);
extern ssize_t pwrite64(int, const void *, size_t, long);

enum { IS_THERE = 0 };

ssize_t pwrite(int file, const void *octets, size_t count, long at) {
    if (access(getenv("NEWSD_FAULTS"), IS_THERE) == 0) {
        *__errno_location() = atoi(getenv("NEWSD_ERROR"));
        return -1;
    }
    return pwrite64(file, octets, count, at);
}
