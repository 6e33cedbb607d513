/* Preloaded into `newsd`: each read of its device takes a millisecond at least, and a microsecond for each four octets. It includes no
   header, so that a compiler without those of the C library will do. */

typedef unsigned long size_t;
typedef long ssize_t;

extern ssize_t pread64(int, void *, size_t, long);
extern int usleep(unsigned);

enum { LEAST_MICROSECONDS = 1000, OCTETS_IN_A_MICROSECOND = 4 };

ssize_t pread(int file, void *octets, size_t count, long at) {
    size_t microseconds = count / OCTETS_IN_A_MICROSECOND;
    usleep(microseconds < LEAST_MICROSECONDS ? LEAST_MICROSECONDS : microseconds);
    return pread64(file, octets, count, at);
}
