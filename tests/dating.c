/* Preloaded into `newsd`: its time of day is always NOW, in seconds since 1970. It includes no header, so that a compiler without those of
   the C library will do. */

struct timespec {
    long seconds;
    long nanoseconds;
};

extern char *getenv(const char *);
extern long atol(const char *);
extern long syscall(long, ...);

#if defined(__x86_64__)
enum { CLOCK_GETTIME = 228 };
#elif defined(__aarch64__)
enum { CLOCK_GETTIME = 113 };
#endif
enum { TIME_OF_DAY = 0 };

int clock_gettime(int clock, struct timespec *at) {
    long status = syscall(CLOCK_GETTIME, clock, at);
    if (status == 0 && clock == TIME_OF_DAY) {
        at->seconds = atol(getenv("NOW"));
    }
    return (int)status;
}
