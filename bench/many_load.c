/*
 * Requests one file on many connections, from one thread, and measures the cost for the server in a window of time.
 *
 *     many_load PORT PATH PID SECONDS ACTIVE IDLE PERIOD IS_EACH IS_READ
 *
 * Each of ACTIVE connections sends a request when it has the response to the one before, but at most one per PERIOD
 * microseconds. IDLE further connections send one request before the window begins, and no other. If IS_EACH is 1, each
 * request has a new connection. Bodies of responses are copied out of the kernel only if IS_READ is 1. The program prints the number
 * of responses in the window (with fractions, by the bytes of their bodies), the length of the window in seconds, the processor time
 * of the process PID in it in seconds, and that of this process. The status is 1 if a response is not a complete 200.
 */
#define _GNU_SOURCE
#include <arpa/inet.h>
#include <netinet/tcp.h>
#include <stdio.h>
#include <stdlib.h>
#include <string.h>
#include <sys/epoll.h>
#include <sys/resource.h>
#include <sys/timerfd.h>
#include <time.h>
#include <unistd.h>

#define MOST 1024
#define HEAD_BYTES 2048
#define PIECE (1L << 18)
#define WARMING 0.1 /* seconds, in which responses do not count */

struct client {
    int fd;
    int filled;     /* bytes in head */
    long left;      /* bytes of the body that are still to come, or -1 before the end of the head */
    double due;     /* the time of the last request, as planned */
    char head[HEAD_BYTES];
};

static struct client clients[MOST];
static struct client *waiting[MOST]; /* a ring of clients whose next request is not due yet */
static int first_waiting, waiting_count;
static int epoll, timer, active, is_each, is_read;
static double period;
static long responses, length;
static double received; /* bytes of bodies */
static struct sockaddr_in server = {.sin_family = AF_INET};
static char request[512], piece[PIECE];
static int request_length;

static void fail(const char *why) {
    fprintf(stderr, "many_load: %s\n", why);
    exit(1);
}

static double seconds(clockid_t clock) {
    struct timespec now;
    clock_gettime(clock, &now);
    return now.tv_sec + now.tv_nsec / 1e9;
}

static double now(void) {
    return seconds(CLOCK_MONOTONIC);
}

/* The processor time of a process of one thread. */
static double server_seconds(const char *pid) {
    char path[64];
    unsigned long long nanos = 0;
    snprintf(path, sizeof path, "/proc/%s/schedstat", pid);
    FILE *from = fopen(path, "r");
    if (!from || fscanf(from, "%llu", &nanos) != 1)
        fail("no such server");
    fclose(from);
    return nanos / 1e9;
}

static void open_connection(struct client *it) {
    struct epoll_event event = {.events = EPOLLIN, .data.ptr = it};
    int on = 1;
    it->fd = socket(AF_INET, SOCK_STREAM, 0);
    if (it->fd < 0 || connect(it->fd, (struct sockaddr *)&server, sizeof server))
        fail("cannot connect");
    setsockopt(it->fd, IPPROTO_TCP, TCP_NODELAY, &on, sizeof on);
    epoll_ctl(epoll, EPOLL_CTL_ADD, it->fd, &event);
}

static void ask(struct client *it) {
    it->filled = 0;
    it->left = -1;
    if (send(it->fd, request, request_length, MSG_NOSIGNAL) != request_length)
        fail("a request was not sent");
}

/* Sets the timer to the time at which the first waiting client is due. */
static void set_timer(void) {
    struct itimerspec when = {0};
    double at = waiting[first_waiting]->due + period;
    when.it_value.tv_sec = at;
    when.it_value.tv_nsec = (at - when.it_value.tv_sec) * 1e9;
    timerfd_settime(timer, TFD_TIMER_ABSTIME, &when, NULL);
}

static void wait_for_turn(struct client *it) {
    waiting[(first_waiting + waiting_count++) % MOST] = it;
    if (waiting_count == 1)
        set_timer();
}

static void ask_those_due(void) {
    double time = now();
    while (waiting_count && waiting[first_waiting]->due + period <= time) {
        struct client *it = waiting[first_waiting];
        first_waiting = (first_waiting + 1) % MOST;
        waiting_count--;
        it->due += period;
        if (it->due + period < time)
            it->due = time;
        ask(it);
    }
    if (waiting_count)
        set_timer();
}

/* Handles a complete response. Idle clients send no further request. */
static void has_come(struct client *it) {
    responses++;
    if (it >= clients + active)
        return;
    if (is_each) {
        close(it->fd);
        open_connection(it);
        ask(it);
    } else if (period > 0) {
        wait_for_turn(it);
    } else {
        ask(it);
    }
}

/* Reads a part of the head, with the bytes of the body that arrive together with it. */
static void take_head(struct client *it) {
    long got = recv(it->fd, it->head + it->filled, HEAD_BYTES - 1 - it->filled, 0);
    if (got <= 0)
        fail("a connection was closed, or a head is too long");
    it->filled += got;
    it->head[it->filled] = 0;
    char *end = strstr(it->head, "\r\n\r\n");
    if (!end)
        return;
    char *field = strstr(it->head, "Content-Length: ");
    if (strncmp(it->head, "HTTP/1.1 200", 12) || !field || field > end)
        fail("a response is no 200 with a length");
    length = atol(field + 16);
    long body = it->filled - (end + 4 - it->head);
    it->left = length - body;
    received += body;
}

static void take(struct client *it) {
    if (it->left < 0) {
        take_head(it);
    } else {
        long got = recv(it->fd, piece, it->left < PIECE ? it->left : PIECE, is_read ? 0 : MSG_TRUNC);
        if (got <= 0)
            fail("a response was cut off");
        it->left -= got;
        received += got;
    }
    if (it->left == 0)
        has_come(it);
}

static void serve_until(double end) {
    struct epoll_event events[256];
    unsigned long long expirations;
    double time;
    while ((time = now()) < end) {
        int count = epoll_wait(epoll, events, 256, (end - time) * 1000 + 1);
        for (int at = 0; at < count; at++) {
            if (events[at].data.ptr) {
                take(events[at].data.ptr);
            } else if (read(timer, &expirations, sizeof expirations) > 0) {
                ask_those_due();
            }
        }
    }
}

int main(int count, char **words) {
    if (count != 10)
        fail("PORT PATH PID SECONDS ACTIVE IDLE PERIOD IS_EACH IS_READ");
    server.sin_port = htons(atoi(words[1]));
    server.sin_addr.s_addr = htonl(INADDR_LOOPBACK);
    active = atoi(words[5]);
    period = atof(words[7]) / 1e6;
    is_each = atoi(words[8]);
    is_read = atoi(words[9]);
    int all = active + atoi(words[6]);
    if (all > MOST)
        fail("too many connections");
    request_length = snprintf(request, sizeof request, "GET %s HTTP/1.1\r\nHost: 127.0.0.1\r\n%s\r\n", words[2],
                              is_each ? "Connection: close\r\n" : "");
    epoll = epoll_create1(0);
    timer = timerfd_create(CLOCK_MONOTONIC, TFD_NONBLOCK);
    struct epoll_event event = {.events = EPOLLIN, .data.ptr = NULL};
    epoll_ctl(epoll, EPOLL_CTL_ADD, timer, &event);
    for (int at = all - 1; at >= 0; at--) {
        open_connection(&clients[at]);
        ask(&clients[at]);
        clients[at].due = now() - period * at / all;
    }
    while (responses < all)
        serve_until(now() + 0.01);
    serve_until(now() + WARMING);
    received = 0;
    double start = now(), mine = seconds(CLOCK_PROCESS_CPUTIME_ID), before = server_seconds(words[3]);
    serve_until(start + atof(words[4]));
    double took = now() - start, cost = server_seconds(words[3]) - before;
    printf("%f %f %f %f\n", received / length, took, cost, seconds(CLOCK_PROCESS_CPUTIME_ID) - mine);
    return 0;
}
