/* A server that only answers lines: what a server with a thread for each caller could answer at best. It greets each caller, and answers
   each line of a caller by the reply to DATE. It prints its port, and ends when its standard input does. */
#include <arpa/inet.h>
#include <netinet/tcp.h>
#include <pthread.h>
#include <stdio.h>
#include <stdlib.h>
#include <string.h>
#include <sys/socket.h>
#include <unistd.h>

enum { WAITING = 128 };

static const char GREETING[] = "200 limit\r\n", REPLY[] = "111 20260101000000\r\n";

static int send_all(int caller, const char *octets, size_t count)
{
    while (count > 0) {
        ssize_t sent = send(caller, octets, count, MSG_NOSIGNAL);
        if (sent <= 0)
            return 0;
        octets += sent;
        count -= (size_t)sent;
    }
    return 1;
}

static void *serve(void *given)
{
    int caller = (int)(long)given, yes = 1;
    char said[4096], replies[sizeof said * (sizeof REPLY - 1)];
    setsockopt(caller, IPPROTO_TCP, TCP_NODELAY, &yes, sizeof yes);
    int goes_on = send_all(caller, GREETING, sizeof GREETING - 1);
    while (goes_on) {
        ssize_t came = recv(caller, said, sizeof said, 0);
        size_t count = 0;
        for (ssize_t k = 0; k < came; k++)
            if (said[k] == '\n') {
                memcpy(replies + count, REPLY, sizeof REPLY - 1);
                count += sizeof REPLY - 1;
            }
        goes_on = came > 0 && send_all(caller, replies, count);
    }
    close(caller);
    return NULL;
}

static void *accept_all(void *given)
{
    int listener = (int)(long)given;
    for (;;) {
        pthread_t thread;
        int caller = accept(listener, NULL, NULL);
        if (caller < 0 || pthread_create(&thread, NULL, serve, (void *)(long)caller))
            exit(1);
        pthread_detach(thread);
    }
}

int main(void)
{
    struct sockaddr_in address = {.sin_family = AF_INET, .sin_addr.s_addr = htonl(INADDR_LOOPBACK)};
    socklen_t size = sizeof address;
    pthread_t thread;
    char octet;
    int listener = socket(AF_INET, SOCK_STREAM, 0);
    if (listener < 0 || bind(listener, (struct sockaddr *)&address, size) || listen(listener, WAITING)
        || getsockname(listener, (struct sockaddr *)&address, &size)
        || pthread_create(&thread, NULL, accept_all, (void *)(long)listener))
        return 1;
    printf("%d\n", ntohs(address.sin_port));
    fflush(stdout);
    while (read(STDIN_FILENO, &octet, 1) > 0)
        ;
    return 0;
}
