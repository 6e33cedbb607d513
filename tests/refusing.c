/* Preloaded into `newsd`: refuses it memory, one request at a time.

   Where NEWSD_REFUSED_REQUEST counts a request of the process from 1, that one is refused, and the file that NEWSD_REFUSED names is made.

   Where NEWSD_REFUSALS names a folder, the program is `newsd sim`, and it is refused memory while it plays the lines of a script, each time
   in a copy of the process. Standard input holds the lines of the script, a line `;`, those of a probe, a line `;`, and those of a probe of
   the device. The process itself plays the script and is refused nothing. Each copy writes what it prints into a file of the folder, and
   the file `list` there gets a line for it: its name, the number of the script's line that was due or played, the octets that were asked
   for, and how it ended. By the first letter of their names:

     b   the last line of the probes is played in place of the line
     s   both probes are played in place of the line
     p   one request of the line is refused, and the probe follows
     a   one request of the line is refused, the line is played again, and the probe follows; none where copy p ended the program
     n   every request of the line is refused, and both probes follow

   There are copies b and s of the place after the last line, too. The lines before the one that NEWSD_REFUSALS_FROM counts from 0 get no
   copies. In copies p and a whose number NEWSD_REFUSALS_DEVICE divides the probe of the device follows, too. At last a copy plays lines for a session that isn't there until its output is written, and exits then: to
   give its memory back would take longer than all that it plays.

   It includes no header, so that a compiler without those of the C library will do. */

typedef unsigned long size_t;
typedef long ssize_t;

extern void *__libc_malloc(size_t), *__libc_realloc(void *, size_t), *__libc_calloc(size_t, size_t);
extern char *getenv(const char *);
extern int atoi(const char *), fork(void), waitpid(int, int *, int), open(const char *, int, ...), close(int), dup2(int, int);
extern int snprintf(char *, size_t, const char *, ...), *__errno_location(void);
extern long syscall(long, ...);
extern unsigned alarm(unsigned);
extern void _exit(int) __attribute__((noreturn)), *memcpy(void *, const void *, size_t);

#if defined(__x86_64__)
enum { READ = 0, WRITE = 1 };
#elif defined(__aarch64__)
enum { READ = 63, WRITE = 64 };
#endif
enum { TO_WRITE_MADE_EMPTY = 01 | 0100 | 01000, NO_MEMORY = 12 };
enum { MOST_OCTETS = 1 << 20, MOST_LINES = 8192, MOST_PADS = 4096, MOST_NAME = 4096, SECONDS = 60 };
enum { BAD_INPUT = 90, TOO_LONG_OUTPUT = 91, NOT_WRITTEN = 92 };

static const char pad[] = "line 99\n";

/* the lines with their ends, how many they are, and the first line of each probe */
static char text[MOST_OCTETS];
static struct { size_t start, length; } lines[MOST_LINES];
static int count, probe, device;

/* the line that is played, how much of it was handed out, what comes after it, and the line before which it all ends */
static int line = -1, stop, requests;
static size_t given;
static enum { NEXT_LINE, SAME_LINE, PROBE } after;
static int is_over, is_copy, is_padding, refuses_all, last_status;

/* what the process wrote to its output so far */
static char written[MOST_OCTETS];
static size_t written_length;

static const char *folder;
static int list, first, of_device = 1;

static void read_lines(void) {
    size_t length = 0;
    int parts[2] = {0, 0}, found = 0;
    for (ssize_t n; length < MOST_OCTETS && (n = syscall(READ, 0, text + length, MOST_OCTETS - length)) > 0;) length += n;
    for (size_t start = 0, end; start < length; start = end) {
        for (end = start; end < length && text[end] != '\n';) end++;
        if (end == length || count == MOST_LINES) _exit(BAD_INPUT);
        end++;
        if (end - start == 2 && text[start] == ';' && found < 2) {
            parts[found++] = count;
        } else {
            lines[count].start = start;
            lines[count++].length = end - start;
        }
    }
    if (found < 2) _exit(BAD_INPUT);
    probe = parts[0];
    device = parts[1];
}

static void begin(void) {
    static int has_begun;
    char name[MOST_NAME];
    if (has_begun) return;
    has_begun = 1;
    folder = getenv("NEWSD_REFUSALS");
    if (!folder) return;
    if (getenv("NEWSD_REFUSALS_FROM")) first = atoi(getenv("NEWSD_REFUSALS_FROM"));
    if (getenv("NEWSD_REFUSALS_DEVICE")) of_device = atoi(getenv("NEWSD_REFUSALS_DEVICE"));
    read_lines();
    snprintf(name, sizeof name, "%s/list", folder);
    list = open(name, TO_WRITE_MADE_EMPTY, 0644);
    if (list < 0 || of_device < 1) _exit(BAD_INPUT);
}

/* Makes a copy of the process, whose outputs are files, and waits for its end. Answers 1 in the copy. */
static int is_in_copy(char kind, int number, size_t size) {
    char name[MOST_NAME];
    int status = -1, child = fork();
    if (child == 0) {
        is_copy = 1;
        stop = (kind == 'p' || kind == 'a') && number % of_device ? device : count;
        alarm(SECONDS);
        for (int stream = 1; stream <= 2; stream++) {
            snprintf(name, sizeof name, "%s/%c%d.%s", folder, kind, number, stream == 1 ? "out" : "err");
            int file = open(name, TO_WRITE_MADE_EMPTY, 0644);
            if (file < 0 || dup2(file, stream) < 0) _exit(NOT_WRITTEN);
            close(file);
        }
        if (syscall(WRITE, 1, written, written_length) != (ssize_t)written_length) _exit(NOT_WRITTEN);
        return 1;
    }
    if (child > 0) waitpid(child, &status, 0);
    last_status = status;
    int length = snprintf(name, sizeof name, "%c%d %d %lu %d\n", kind, number, line + 1, size, status);
    if (syscall(WRITE, list, name, (size_t)length) != length) _exit(NOT_WRITTEN);
    return 0;
}

/* Goes on to the next line to be played. */
static void step(void) {
    given = 0;
    refuses_all = 0;
    if (after == PROBE) line = probe;
    else if (after == NEXT_LINE) line++;
    after = after == SAME_LINE ? PROBE : NEXT_LINE;
    if (is_copy) {
        is_padding = line == stop;
        return;
    }
    if (line >= first && is_in_copy('b', line + 1, 0)) {
        line = count - 1;
    } else if (line >= first && is_in_copy('s', line + 1, 0)) {
        line = probe;
    } else if (line >= first && line < probe && is_in_copy('n', line + 1, 0)) {
        refuses_all = 1;
        after = PROBE;
    } else {
        is_over = line == probe;
    }
}

ssize_t read(int file, void *into, size_t most) {
    begin();
    if (file != 0 || !folder) return syscall(READ, file, into, most);
    if (!is_over && !is_padding && (line < 0 || given == lines[line].length)) step();
    if (is_over) return 0;
    if (is_padding) {
        static int pads;
        if (pads++ == MOST_PADS) _exit(NOT_WRITTEN);
        memcpy(into, pad, sizeof pad - 1);
        return sizeof pad - 1;
    }
    size_t n = lines[line].length - given;
    if (n > most) n = most;
    memcpy(into, text + lines[line].start + given, n);
    given += n;
    return n;
}

ssize_t write(int file, const void *octets, size_t length) {
    ssize_t done = syscall(WRITE, file, octets, length);
    if (file != 1 || !folder) return done;
    if (is_padding) _exit(done == (ssize_t)length ? 0 : NOT_WRITTEN);
    if (!is_copy && done > 0) {
        if (written_length + done > MOST_OCTETS) _exit(TOO_LONG_OUTPUT);
        memcpy(written + written_length, octets, done);
        written_length += done;
    }
    return done;
}

/* Whether this is the one request of the process that is refused. */
static int is_alone(void) {
    static int wanted = -1, asked;
    if (wanted < 0) wanted = getenv("NEWSD_REFUSED_REQUEST") ? atoi(getenv("NEWSD_REFUSED_REQUEST")) : 0;
    return wanted && ++asked == wanted && close(open(getenv("NEWSD_REFUSED"), TO_WRITE_MADE_EMPTY, 0644)) == 0;
}

static int is_refused(size_t size) {
    if (refuses_all || is_alone()) return 1;
    if (!folder || is_copy || is_over || line < first || line < 0) return 0;
    requests++;
    if (is_in_copy('p', requests, size)) {
        after = PROBE;
        return 1;
    }
    if (last_status == 0 && is_in_copy('a', requests, size)) {
        after = SAME_LINE;
        return 1;
    }
    return 0;
}

static void *none(void) {
    *__errno_location() = NO_MEMORY;
    return 0;
}

void *malloc(size_t size) { return is_refused(size) ? none() : __libc_malloc(size); }
void *calloc(size_t many, size_t size) { return is_refused(many * size) ? none() : __libc_calloc(many, size); }
void *realloc(void *block, size_t size) { return is_refused(size) ? none() : __libc_realloc(block, size); }
