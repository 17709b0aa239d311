/* An upstream for measurements: it answers each framed call, of Compact or of Binary, with a reply of the same name and sequence number.
 *
 *     upstream PORT [BYTES [binary]]
 *
 * The reply's field 0 is a string of BYTES bytes, or there is no field where BYTES is 0. One thread serves all
 * connections. It ends when it is killed. */
#define _GNU_SOURCE
#include <arpa/inet.h>
#include <errno.h>
#include <netinet/tcp.h>
#include <stdint.h>
#include <stdio.h>
#include <stdlib.h>
#include <string.h>
#include <sys/epoll.h>
#include <sys/socket.h>
#include <unistd.h>

#define ROOM (1 << 20)

struct peer {
    int fd;
    size_t held, due, sent, out_room;
    unsigned char in[ROOM], *out;
};

static int binary;
static size_t reply_bytes;
static unsigned char *tail;
static size_t tail_length;

static size_t put_varint(unsigned char *to, uint32_t value)
{
    size_t n = 0;
    for (; value > 127; value >>= 7)
        to[n++] = (unsigned char)(value | 128);
    to[n++] = (unsigned char)value;
    return n;
}

/* The body of each reply. */
static void make_tail(void)
{
    tail = malloc(reply_bytes + 16);
    if (reply_bytes > 0 && binary) {
        unsigned char head[] = {11, 0, 0, (unsigned char)(reply_bytes >> 24), (unsigned char)(reply_bytes >> 16), (unsigned char)(reply_bytes >> 8),
            (unsigned char)reply_bytes};
        memcpy(tail, head, sizeof head);
        tail_length = sizeof head + reply_bytes;
        memset(tail + sizeof head, 'x', reply_bytes);
    } else if (reply_bytes > 0) {
        tail[tail_length++] = 0x08; /* a string, long form */
        tail[tail_length++] = 0;    /* of id 0 */
        tail_length += put_varint(tail + tail_length, (uint32_t)reply_bytes);
        memset(tail + tail_length, 'x', reply_bytes);
        tail_length += reply_bytes;
    }
    tail[tail_length++] = 0;
}

static size_t number(const unsigned char *at)
{
    return (size_t)at[0] << 24 | at[1] << 16 | at[2] << 8 | at[3];
}

/* The length of the header behind its kind: of sequence number and name. */
static size_t header_length(const unsigned char *at)
{
    size_t n = 0, length = 0;
    int shift = 0;
    if (binary)
        return 8 + number(at);
    while (at[n++] & 128)
        ;
    do {
        length |= (size_t)(at[n] & 127) << shift;
        shift += 7;
    } while (at[n++] & 128);
    return n + length;
}

static void answer(struct peer *p, const unsigned char *message)
{
    size_t kind = binary ? 4 : 2, head = header_length(message + kind), length = kind + head + tail_length;
    if (p->due + 4 + length > p->out_room) {
        p->out_room = 2 * (p->due + 4 + length);
        p->out = realloc(p->out, p->out_room);
    }
    unsigned char *to = p->out + p->due;
    to[0] = (unsigned char)(length >> 24);
    to[1] = (unsigned char)(length >> 16);
    to[2] = (unsigned char)(length >> 8);
    to[3] = (unsigned char)length;
    static const unsigned char binary_reply[] = {0x80, 1, 0, 2}, compact_reply[] = {0x82, (2 << 5) | 1};
    memcpy(to + 4, binary ? binary_reply : compact_reply, kind);
    memcpy(to + 4 + kind, message + kind, head);
    memcpy(to + 4 + kind + head, tail, tail_length);
    p->due += 4 + length;
}

static void send_due(int poll, struct peer *p)
{
    while (p->sent < p->due) {
        ssize_t n = write(p->fd, p->out + p->sent, p->due - p->sent);
        if (n <= 0)
            break;
        p->sent += (size_t)n;
    }
    if (p->sent == p->due)
        p->sent = p->due = 0;
    struct epoll_event event = {.events = p->due ? EPOLLIN | EPOLLOUT : EPOLLIN, .data.ptr = p};
    epoll_ctl(poll, EPOLL_CTL_MOD, p->fd, &event);
}

/* Whether the peer goes on. */
static int serve(int poll, struct peer *p)
{
    ssize_t got = read(p->fd, p->in + p->held, ROOM - p->held);
    if (got == 0 || (got < 0 && errno != EAGAIN))
        return 0;
    if (got > 0)
        p->held += (size_t)got;
    size_t at = 0;
    while (p->held - at >= 4) {
        const unsigned char *f = p->in + at;
        size_t length = number(f);
        if (p->held - at - 4 < length)
            break;
        if (binary ? f[7] == 1 : f[5] >> 5 == 1)
            answer(p, f + 4);
        at += 4 + length;
    }
    memmove(p->in, p->in + at, p->held - at);
    p->held -= at;
    send_due(poll, p);
    return 1;
}

int main(int count, char **words)
{
    if (count < 2)
        return 2;
    reply_bytes = count > 2 ? (size_t)atol(words[2]) : 0;
    binary = count > 3 && !strcmp(words[3], "binary");
    make_tail();
    int listener = socket(AF_INET, SOCK_STREAM, 0), on = 1, poll = epoll_create1(0);
    setsockopt(listener, SOL_SOCKET, SO_REUSEADDR, &on, sizeof on);
    struct sockaddr_in at = {.sin_family = AF_INET, .sin_port = htons((uint16_t)atoi(words[1])), .sin_addr.s_addr = htonl(INADDR_LOOPBACK)};
    if (bind(listener, (struct sockaddr *)&at, sizeof at) || listen(listener, 1024)) {
        perror("upstream");
        return 1;
    }
    struct epoll_event event = {.events = EPOLLIN, .data.ptr = NULL}, events[64];
    epoll_ctl(poll, EPOLL_CTL_ADD, listener, &event);
    for (;;) {
        int n = epoll_wait(poll, events, 64, -1);
        for (int i = 0; i < n; i++) {
            struct peer *p = events[i].data.ptr;
            if (p == NULL) {
                int fd = accept4(listener, NULL, NULL, SOCK_NONBLOCK);
                if (fd < 0)
                    continue;
                setsockopt(fd, IPPROTO_TCP, TCP_NODELAY, &on, sizeof on);
                p = calloc(1, sizeof *p);
                p->fd = fd;
                event.events = EPOLLIN;
                event.data.ptr = p;
                epoll_ctl(poll, EPOLL_CTL_ADD, fd, &event);
            } else if (events[i].events & EPOLLOUT && !(events[i].events & EPOLLIN)) {
                send_due(poll, p);
            } else if (!serve(poll, p)) {
                close(p->fd);
                free(p->out);
                free(p);
            }
        }
    }
}
