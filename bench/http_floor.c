/* The least that a server of one connection after the other does, and a client that measures one.
 *
 * http_floor serve                            prints its port; answers each request with one fixed reply
 * http_floor ask PORT METHOD TARGET COUNT     asks COUNT times: connect, one send, read to the end, close
 *
 * `ask` prints the median time of a request in microseconds, and the status and size of the last reply.
 * Build: cc -O2 -o http_floor http_floor.c */
#define _GNU_SOURCE
#include <arpa/inet.h>
#include <netinet/in.h>
#include <stdio.h>
#include <stdlib.h>
#include <string.h>
#include <sys/socket.h>
#include <time.h>
#include <unistd.h>

static const char reply[] =
    "HTTP/1.1 200 OK\r\nContent-Type: application/json\r\nContent-Length: 28\r\n"
    "Connection: close\r\n\r\n{\"queue\":[],\"reply\":\"queue\"}";
static char bytes[1 << 18];

static int failed(const char *what)
{
    perror(what);
    return 1;
}

static struct sockaddr_in here(int port)
{
    struct sockaddr_in a;
    memset(&a, 0, sizeof a);
    a.sin_family = AF_INET;
    a.sin_port = htons(port);
    a.sin_addr.s_addr = htonl(INADDR_LOOPBACK);
    return a;
}

static int serve(void)
{
    struct sockaddr_in a = here(0);
    socklen_t size = sizeof a;
    int listener = socket(AF_INET, SOCK_STREAM, 0);
    if (bind(listener, (void *)&a, sizeof a) || listen(listener, 128))
        return failed("listen");
    getsockname(listener, (void *)&a, &size);
    printf("%d\n", ntohs(a.sin_port));
    fflush(stdout);
    for (;;) {
        int one = accept(listener, 0, 0);
        size_t got = 0;
        ssize_t more;
        while (got < sizeof bytes && (more = read(one, bytes + got, sizeof bytes - got)) > 0) {
            got += more;
            if (memmem(bytes, got, "\r\n\r\n", 4))
                break;
        }
        if (write(one, reply, sizeof reply - 1) < 0)
            perror("write");
        close(one);
    }
}

static double now(void)
{
    struct timespec t;
    clock_gettime(CLOCK_MONOTONIC, &t);
    return t.tv_sec * 1e6 + t.tv_nsec * 1e-3;
}

static int rising(const void *a, const void *b)
{
    double x = *(const double *)a, y = *(const double *)b;
    return (x > y) - (x < y);
}

static int ask(int port, const char *method, const char *target, int count)
{
    struct sockaddr_in a = here(port);
    double *each = malloc(count * sizeof *each);
    char request[1000];
    size_t got = 0;
    int size = snprintf(request, sizeof request, "%s %s HTTP/1.1\r\nHost: localhost\r\n%s\r\n", method,
        target, strcmp(method, "GET") ? "Content-Length: 0\r\n" : "");
    for (int k = 0; k < count; k++) {
        double start = now();
        int one = socket(AF_INET, SOCK_STREAM, 0);
        ssize_t more;
        if (connect(one, (void *)&a, sizeof a) || write(one, request, size) != size)
            return failed("ask");
        for (got = 0; got < sizeof bytes && (more = read(one, bytes + got, sizeof bytes - got)) > 0;)
            got += more;
        close(one);
        each[k] = now() - start;
        if (got < 12 || memcmp(bytes, "HTTP/1.1 200", 12)) {
            fprintf(stderr, "%s %s: %.*s\n", method, target, (int)got, bytes);
            return 1;
        }
    }
    qsort(each, count, sizeof *each, rising);
    printf("%.2f %.3s %zu\n", each[count / 2], bytes + 9, got);
    return 0;
}

int main(int count, char **words)
{
    if (count == 2 && !strcmp(words[1], "serve"))
        return serve();
    if (count == 6 && !strcmp(words[1], "ask") && atoi(words[5]) > 0)
        return ask(atoi(words[2]), words[3], words[4], atoi(words[5]));
    fputs("usage: http_floor serve | http_floor ask PORT METHOD TARGET COUNT\n", stderr);
    return 2;
}
