/*
 * A server that sends from memory, whose speed bench/many uses as an upper bound. It has one thread, uses epoll, and sends at most
 * 64 KiB per call, which is the capacity of a connection's queue in flashd.
 *
 *     many_ceiling LENGTH..
 *
 * The response to GET /LENGTH.bin has a body of LENGTH bytes. The server prints its port.
 */
#define _GNU_SOURCE
#include <arpa/inet.h>
#include <netinet/tcp.h>
#include <stdio.h>
#include <stdlib.h>
#include <string.h>
#include <sys/epoll.h>
#include <unistd.h>

#define MOST 4096
#define PIECE 65536
#define REQUEST_BYTES 2048

struct response {
    long body, length;
    char *bytes;
};

struct client {
    int fd, filled, closes;
    const struct response *answer; /* or null */
    long sent;
    char request[REQUEST_BYTES];
};

static struct response responses[8];
static struct client *clients[MOST]; /* by descriptor */
static int epoll;

static struct response made(long body) {
    char head[256];
    int length = snprintf(head, sizeof head,
                          "HTTP/1.1 200 OK\r\nContent-Type: application/octet-stream\r\nContent-Length: %ld\r\n\r\n", body);
    struct response it = {body, length + body, malloc(length + body)};
    memcpy(it.bytes, head, length);
    memset(it.bytes + length, 'x', body);
    return it;
}

static const struct response *answer_to(const char *request) {
    long body = strncmp(request, "GET /", 5) ? -1 : atol(request + 5);
    for (const struct response *it = responses; it->bytes; it++)
        if (it->body == body)
            return it;
    return NULL;
}

static void end(struct client *it) {
    close(it->fd);
    clients[it->fd] = NULL;
    free(it);
}

/* Sends as many bytes of the response as the socket takes. Returns whether the client is still connected. */
static int send_response(struct client *it) {
    while (it->answer) {
        long left = it->answer->length - it->sent;
        long sent = send(it->fd, it->answer->bytes + it->sent, left < PIECE ? left : PIECE, MSG_NOSIGNAL | MSG_DONTWAIT);
        if (sent < 0)
            return 1;
        it->sent += sent;
        if (it->sent == it->answer->length) {
            it->answer = NULL;
            if (it->closes) {
                end(it);
                return 0;
            }
        }
    }
    return 1;
}

static void take(struct client *it) {
    long got = recv(it->fd, it->request + it->filled, REQUEST_BYTES - 1 - it->filled, MSG_DONTWAIT);
    if (got <= 0) {
        end(it);
        return;
    }
    it->filled += got;
    it->request[it->filled] = 0;
    if (!strstr(it->request, "\r\n\r\n"))
        return;
    it->closes = !!strstr(it->request, "Connection: close");
    it->answer = answer_to(it->request);
    it->filled = it->sent = 0;
    if (it->answer)
        send_response(it);
    else
        end(it);
}

static void admit(int listener) {
    int on = 1, fd = accept4(listener, NULL, NULL, SOCK_NONBLOCK);
    if (fd < 0 || fd >= MOST)
        return;
    setsockopt(fd, IPPROTO_TCP, TCP_NODELAY, &on, sizeof on);
    clients[fd] = calloc(1, sizeof(struct client));
    clients[fd]->fd = fd;
    struct epoll_event event = {.events = EPOLLIN | EPOLLOUT | EPOLLET, .data.fd = fd};
    epoll_ctl(epoll, EPOLL_CTL_ADD, fd, &event);
}

int main(int count, char **words) {
    struct sockaddr_in address = {.sin_family = AF_INET, .sin_addr.s_addr = htonl(INADDR_LOOPBACK)};
    struct epoll_event events[256];
    socklen_t size = sizeof address;
    for (int at = 1; at < count && at < 8; at++)
        responses[at - 1] = made(atol(words[at]));
    int listener = socket(AF_INET, SOCK_STREAM | SOCK_NONBLOCK, 0);
    if (bind(listener, (struct sockaddr *)&address, size) || listen(listener, 1024))
        return 1;
    getsockname(listener, (struct sockaddr *)&address, &size);
    printf("%d\n", ntohs(address.sin_port));
    fflush(stdout);
    epoll = epoll_create1(0);
    struct epoll_event event = {.events = EPOLLIN, .data.fd = listener};
    epoll_ctl(epoll, EPOLL_CTL_ADD, listener, &event);
    for (;;) {
        int ready = epoll_wait(epoll, events, 256, -1);
        for (int at = 0; at < ready; at++) {
            int fd = events[at].data.fd;
            if (fd == listener)
                admit(listener);
            else if (clients[fd] && (!clients[fd]->answer || send_response(clients[fd])) && events[at].events & (EPOLLIN | EPOLLHUP))
                take(clients[fd]);
        }
    }
}
