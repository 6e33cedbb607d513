/* A load on a news server of this machine: load PORT SESSIONS SECONDS post LIMIT
 *                                          load PORT SESSIONS SECONDS ask REQUEST line|block [FIRST]
 * Each session is a thread that waits for each reply before it sends again, at most 30 seconds. Posts have about 1,000 octets of an id
 * each, and all sessions together make at most LIMIT of them. FIRST is asked once by each, and answered by a line. The load ends in time, or earlier: after its last post, or at SIGTERM.
 * A time is that from the first octet sent to the last one read.
 * Prints one line: replies, replies a second, and microseconds: the mean, the median, the 99th of 100 and the slowest. */
#define _GNU_SOURCE
#include <arpa/inet.h>
#include <errno.h>
#include <netinet/tcp.h>
#include <pthread.h>
#include <signal.h>
#include <stdio.h>
#include <stdlib.h>
#include <string.h>
#include <time.h>
#include <unistd.h>

enum { SESSIONS = 64, ROOM = 1 << 20, MOST = 2000000, BODY = 800, TEXT = 2048, PATIENCE = 30 };

struct session {
    int socket, number;
    size_t held, length;
    char *room, text[TEXT];
    double *micros;
    long count;
};

static int port, is_post, is_block;
static const char *request, *first;
static long run, posts_left;
static double end_of_time;
static volatile sig_atomic_t is_over;

static void fail(const char *what) {
    fprintf(stderr, "load: %s\n", what);
    exit(1);
}

static double now(void) {
    struct timespec time;
    clock_gettime(CLOCK_MONOTONIC, &time);
    return time.tv_sec * 1e6 + time.tv_nsec * 1e-3;
}

static void send_all(struct session *s, const char *text, size_t count) {
    while (count) {
        ssize_t sent = write(s->socket, text, count);
        if (sent < 0 && errno == EINTR) continue;
        if (sent <= 0) fail("the server takes no more");
        text += sent;
        count -= (size_t)sent;
    }
}

static void fail_on_reply(const struct session *s) {
    size_t count = 0;
    while (count < s->held && s->room[count] != '\r') count++;
    fprintf(stderr, "load: an unexpected reply to session %d, request %ld: %.*s\n", s->number, s->count, (int)count, s->room);
    exit(1);
}

/* Reads up to this end, which a reply has, and forgets what was read. */
static void read_to(struct session *s, const char *end, const char *code) {
    for (;;) {
        char *at = memmem(s->room, s->held, end, strlen(end));
        if (at) {
            if (memcmp(s->room, code, strlen(code))) fail_on_reply(s);
            size_t used = (size_t)(at - s->room) + strlen(end);
            memmove(s->room, s->room + used, s->held - used);
            s->held -= used;
            return;
        }
        if (s->held == ROOM) fail("a reply is too long");
        ssize_t count = read(s->socket, s->room + s->held, ROOM - s->held);
        if (count < 0 && errno == EINTR) continue;
        if (count < 0) fail("no reply in time");
        if (count == 0) fail("the server ends");
        s->held += (size_t)count;
    }
}

/* Writes the session's next article. */
static void make_article(struct session *s) {
    char body[BODY + 1];
    memset(body, 'x', BODY);
    for (int at = 70; at + 1 < BODY; at += 72) memcpy(body + at, "\r\n", 2);
    body[BODY] = 0;
    s->length = (size_t)snprintf(s->text, sizeof s->text,
        "Path: p!not-for-mail\r\nDate: Sun, 09 Sep 2001 01:46:40 +0000\r\nMessage-ID: <%ld.%d.%ld@load.example>\r\n"
        "From: a@example.org\r\nNewsgroups: x.a\r\nSubject: load\r\n\r\n%s\r\n.\r\n", run, s->number, s->count, body);
}

static void post(struct session *s) {
    send_all(s, "POST\r\n", 6);
    read_to(s, "\r\n", "340");
    send_all(s, s->text, s->length);
    read_to(s, "\r\n", "240");
}

static void ask(struct session *s) {
    send_all(s, request, strlen(request));
    send_all(s, "\r\n", 2);
    /* DATE is answered by 111 */
    read_to(s, is_block ? "\r\n.\r\n" : "\r\n", strcmp(request, "DATE") ? "2" : "1");
}

/* Whether a session has another request. A post that it may make is taken from those that are left. */
static int goes_on(const struct session *s, double moment) {
    if (is_over || moment >= end_of_time || s->count == MOST) return 0;
    return !is_post || __atomic_sub_fetch(&posts_left, 1, __ATOMIC_RELAXED) >= 0;
}

static void *play(void *given) {
    struct session *s = given;
    struct sockaddr_in address = {.sin_family = AF_INET, .sin_port = htons((uint16_t)port), .sin_addr.s_addr = htonl(INADDR_LOOPBACK)};
    struct timeval patience = {.tv_sec = PATIENCE};
    int one = 1;
    s->socket = socket(AF_INET, SOCK_STREAM, 0);
    setsockopt(s->socket, IPPROTO_TCP, TCP_NODELAY, &one, sizeof one);
    setsockopt(s->socket, SOL_SOCKET, SO_RCVTIMEO, &patience, sizeof patience);
    setsockopt(s->socket, SOL_SOCKET, SO_SNDTIMEO, &patience, sizeof patience);
    if (connect(s->socket, (void *)&address, sizeof address)) fail("no connection");
    read_to(s, "\r\n", "200");
    if (first) {
        send_all(s, first, strlen(first));
        send_all(s, "\r\n", 2);
        read_to(s, "\r\n", "2");
    }
    while (goes_on(s, now())) {
        if (is_post) make_article(s);
        double start = now();
        if (is_post) post(s); else ask(s);
        s->micros[s->count++] = now() - start;
    }
    send_all(s, "QUIT\r\n", 6);
    close(s->socket);
    return NULL;
}

static void stop(int signal) {
    (void)signal;
    is_over = 1;
}

static int compare(const void *a, const void *b) {
    double x = *(const double *)a, y = *(const double *)b;
    return x < y ? -1 : x > y;
}

int main(int count, char **words) {
    if (count < 6 || count > 8) fail("PORT SESSIONS SECONDS post LIMIT | ask REQUEST line|block [FIRST]");
    port = atoi(words[1]);
    int sessions = atoi(words[2]);
    is_post = !strcmp(words[4], "post");
    if (is_post != (count == 6) || sessions < 1 || sessions > SESSIONS) fail("bad words");
    if (is_post) {
        posts_left = atol(words[5]);
    } else {
        request = words[5];
        is_block = !strcmp(words[6], "block");
        first = count == 8 ? words[7] : NULL;
    }
    signal(SIGTERM, stop);
    struct timespec time;
    clock_gettime(CLOCK_REALTIME, &time);
    run = time.tv_sec % 1000000 * 1000 + time.tv_nsec / 1000000;
    static struct session all[SESSIONS];
    pthread_t threads[SESSIONS];
    double start = now();
    end_of_time = start + atof(words[3]) * 1e6;
    for (int i = 0; i < sessions; i++) {
        all[i] = (struct session){.number = i, .room = malloc(ROOM), .micros = malloc(sizeof(double) * MOST)};
        pthread_create(&threads[i], NULL, play, &all[i]);
    }
    long total = 0;
    for (int i = 0; i < sessions; i++) {
        pthread_join(threads[i], NULL);
        total += all[i].count;
    }
    double seconds = (now() - start) / 1e6, *micros = malloc(sizeof(double) * (size_t)(total + 1));
    double sum = 0;
    long at = 0;
    for (int i = 0; i < sessions; i++)
        for (long k = 0; k < all[i].count; k++) sum += micros[at++] = all[i].micros[k];
    qsort(micros, (size_t)total, sizeof(double), compare);
    if (!total) fail("no reply in time");
    printf("%ld %.1f %.1f %.1f %.1f %.1f\n", total, total / seconds, sum / total, micros[total / 2], micros[total * 99 / 100],
        micros[total - 1]);
    return 0;
}
