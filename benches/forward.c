/* The least that a proxy does: it passes on the bytes of each connection, on one thread, and looks at none of them.
 *
 *     forward PORT UPSTREAM_PORT
 *
 * Each connection to PORT of this machine is connected to UPSTREAM_PORT; what is read of one side is written to the other at once. What it reaches is
 * what any proxy may reach whose work costs nothing. It is for measurements alone: it waits for a peer that doesn't take what is written, and keeps
 * a few bytes of each connection that has ended. It ends when it is killed. */
#define _GNU_SOURCE
#include <arpa/inet.h>
#include <errno.h>
#include <netinet/tcp.h>
#include <stdint.h>
#include <stdio.h>
#include <stdlib.h>
#include <sys/epoll.h>
#include <sys/socket.h>
#include <unistd.h>

#define ROOM (1 << 16)
#define MOST_EVENTS 256

/* One side of a connection that is passed on. */
struct side {
    int fd, has_ended;
    struct side *other;
};

static char bytes[ROOM];

static struct sockaddr_in local(int port)
{
    struct sockaddr_in at = {.sin_family = AF_INET, .sin_port = htons((uint16_t)port), .sin_addr.s_addr = htonl(INADDR_LOOPBACK)};
    return at;
}

static struct side *new_side(int poll, int fd)
{
    int on = 1;
    struct side *side = calloc(1, sizeof *side);
    struct epoll_event event = {.events = EPOLLIN, .data.ptr = side};
    side->fd = fd;
    setsockopt(fd, IPPROTO_TCP, TCP_NODELAY, &on, sizeof on);
    epoll_ctl(poll, EPOLL_CTL_ADD, fd, &event);
    return side;
}

static void take_connection(int poll, int listener, int upstream_port)
{
    struct sockaddr_in at = local(upstream_port);
    int client = accept4(listener, NULL, NULL, SOCK_NONBLOCK);
    if (client < 0)
        return;
    int upstream = socket(AF_INET, SOCK_STREAM, 0);
    if (connect(upstream, (struct sockaddr *)&at, sizeof at)) {
        close(client);
        close(upstream);
        return;
    }
    struct side *first = new_side(poll, client), *second = new_side(poll, upstream);
    first->other = second;
    second->other = first;
}

/* Writes all of it. */
static void write_all(int fd, const char *from, ssize_t count)
{
    for (ssize_t at = 0; at < count;) {
        ssize_t n = send(fd, from + at, (size_t)(count - at), MSG_NOSIGNAL);
        if (n < 0 && errno != EAGAIN)
            return;
        if (n > 0)
            at += n;
    }
}

static void pass_on(int poll, struct side *side)
{
    ssize_t got = recv(side->fd, bytes, ROOM, MSG_DONTWAIT);
    if (got > 0)
        write_all(side->other->fd, bytes, got);
    if (got > 0 || (got < 0 && errno == EAGAIN))
        return;
    side->has_ended = 1;
    epoll_ctl(poll, EPOLL_CTL_DEL, side->fd, NULL);
    shutdown(side->other->fd, SHUT_WR);
    if (side->other->has_ended) {
        close(side->fd);
        close(side->other->fd);
    }
}

int main(int count, char **words)
{
    if (count != 3)
        return 2;
    struct sockaddr_in at = local(atoi(words[1]));
    int listener = socket(AF_INET, SOCK_STREAM, 0), on = 1, poll = epoll_create1(0);
    setsockopt(listener, SOL_SOCKET, SO_REUSEADDR, &on, sizeof on);
    if (bind(listener, (struct sockaddr *)&at, sizeof at) || listen(listener, 1024)) {
        perror("forward");
        return 1;
    }
    struct epoll_event event = {.events = EPOLLIN, .data.ptr = NULL}, events[MOST_EVENTS];
    epoll_ctl(poll, EPOLL_CTL_ADD, listener, &event);
    for (;;) {
        int n = epoll_wait(poll, events, MOST_EVENTS, -1);
        for (int i = 0; i < n; i++) {
            struct side *side = events[i].data.ptr;
            if (side == NULL)
                take_connection(poll, listener, atoi(words[2]));
            else if (!side->has_ended)
                pass_on(poll, side);
        }
    }
}
