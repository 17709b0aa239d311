/* Calls over connections, as fast as they are answered.
 *
 *     load PROTOCOL PORT[,PORT..] CONNECTIONS OPEN CALLS [IDLE [RATE]]
 *
 * PROTOCOL is `binary`, `compact` or `json`, framed; `multiplexed`: framed Binary whose methods' names have the service `S` before them; or Binary without
 * lengths: `unframed`, one message behind another, or `http`, each the body of a POST with the fields that Apache Thrift's Python library sends.
 * Each of the CONNECTIONS keeps OPEN calls of about 60 bytes open until CALLS were answered
 * in all; IDLE more connections are opened before and send nothing. Of several ports each gets a connection in turn. The clock
 * starts once each of the CONNECTIONS had one answer, so that opening them isn't measured. Prints the calls a second, the bytes
 * of answers a second, and the median, the 99th percentile and the greatest time from a call to its answer in microseconds. Then the 99th
 * percentile of the middle stretch: it is found of each 2,000 answers in a row, and the middle one of these is told. What stands still for
 * some milliseconds now and then, the machine or a gateway, spoils the percentile of all answers, but few stretches.
 *
 * With a RATE above 0 that many calls a second are begun, whether or not others were answered: each connection in turn begins OPEN calls at once,
 * at times that are fixed before. A call's time counts from then, also where it is sent later. Meanwhile nothing sleeps. */
#include <arpa/inet.h>
#include <errno.h>
#include <netinet/tcp.h>
#include <stdint.h>
#include <stdio.h>
#include <stdlib.h>
#include <string.h>
#include <sys/epoll.h>
#include <sys/socket.h>
#include <time.h>
#include <unistd.h>

#define ROOM (1 << 20)
#define MOST_OPEN 4096
#define MOST_PORTS 16
#define MOST_CALL 512
#define STRETCH 2000

struct connection {
    int fd;
    size_t held, due, sent;
    unsigned char in[ROOM], out[ROOM];
    uint64_t begun[MOST_OPEN];
    size_t first, open;
};

static int compact, json, unframed, http, multiplexed, ports[MOST_PORTS], port_count;
static long left_to_begin, answered, total;
static uint64_t answer_bytes;
static uint32_t *times;

static uint64_t now(void)
{
    struct timespec t;
    clock_gettime(CLOCK_MONOTONIC, &t);
    return (uint64_t)t.tv_sec * 1000000000u + (uint64_t)t.tv_nsec;
}

/* The call `add(1: i32, 2: i64, 3: list of four i32)` with this sequence number. */
static size_t binary_call(unsigned char *to, uint32_t seq)
{
    static const unsigned char body[] = {8, 0, 1, 0, 0, 1, 0, 10, 0, 2, 0, 0, 0, 1, 0, 0, 0, 0, 15, 0, 3, 8, 0, 0, 0, 4,
        0, 0, 0, 1, 0, 0, 0, 2, 0, 0, 0, 3, 0, 0, 0, 4, 0};
    static const unsigned char alone[] = {0x80, 1, 0, 1, 0, 0, 0, 3, 'a', 'd', 'd'};
    static const unsigned char of_service[] = {0x80, 1, 0, 1, 0, 0, 0, 5, 'S', ':', 'a', 'd', 'd'};
    const unsigned char *head = multiplexed ? of_service : alone;
    size_t head_length = multiplexed ? sizeof of_service : sizeof alone, length = head_length + 4 + sizeof body;
    to[0] = to[1] = to[2] = 0;
    to[3] = (unsigned char)length;
    memcpy(to + 4, head, head_length);
    for (int i = 0; i < 4; i++)
        to[4 + head_length + i] = (unsigned char)(seq >> (24 - 8 * i));
    memcpy(to + 8 + head_length, body, sizeof body);
    return 4 + length;
}

static size_t compact_call(unsigned char *to, uint32_t seq)
{
    static const unsigned char body[] = {0x15, 0x80, 4, 0x16, 0x80, 0x80, 0x80, 0x80, 0x20, 0x19, 0x45, 2, 4, 6, 8, 0};
    size_t n = 4;
    to[n++] = 0x82;
    to[n++] = (1 << 5) | 1;
    for (; seq > 127; seq >>= 7)
        to[n++] = (unsigned char)(seq | 128);
    to[n++] = (unsigned char)seq;
    to[n++] = 3;
    memcpy(to + n, "add", 3);
    n += 3;
    memcpy(to + n, body, sizeof body);
    n += sizeof body;
    to[0] = to[1] = to[2] = 0;
    to[3] = (unsigned char)(n - 4);
    return n;
}

static size_t json_call(unsigned char *to, uint32_t seq)
{
    int length = sprintf((char *)to + 4, "[1,\"add\",1,%u,{\"1\":{\"i32\":256},\"2\":{\"i64\":4294967296},\"3\":{\"lst\":[\"i32\",4,1,2,3,4]}}]", seq);
    to[0] = to[1] = to[2] = 0;
    to[3] = (unsigned char)length;
    return 4 + (size_t)length;
}

/* A POST with this body. */
static size_t post(unsigned char *to, const unsigned char *body, size_t size)
{
    int head = sprintf((char *)to, "POST /rpc HTTP/1.1\r\nAccept-Encoding: identity\r\nHost: 127.0.0.1\r\nContent-Type: application/x-thrift\r\n"
        "Content-Length: %zu\r\nUser-Agent: Python/THttpClient (load)\r\n\r\n", size);
    memcpy(to + head, body, size);
    return (size_t)head + size;
}

static size_t put_call(unsigned char *to, uint32_t seq)
{
    unsigned char frame[MOST_CALL];
    size_t length = json ? json_call(frame, seq) : compact ? compact_call(frame, seq) : binary_call(frame, seq);
    if (http)
        return post(to, frame + 4, length - 4);
    if (unframed)
        length -= 4;
    memcpy(to, unframed ? frame + 4 : frame, length);
    return length;
}

static size_t number(const unsigned char *at)
{
    return (size_t)at[0] << 24 | at[1] << 16 | at[2] << 8 | at[3];
}

/* The length of the response that stands there, or 0 where it isn't whole. */
static size_t response_length(const unsigned char *at, size_t held)
{
    static const char start[] = "HTTP/1.1 200 OK\r\nContent-Type: application/x-thrift\r\nContent-Length: ";
    size_t n = sizeof start - 1, content = 0;
    if (held < n)
        return 0;
    if (memcmp(at, start, n)) {
        fprintf(stderr, "load: another response\n");
        exit(1);
    }
    while (n < held && at[n] != '\r')
        content = content * 10 + (at[n++] - '0');
    n += 4 + content;
    return n <= held ? n : 0;
}

/* The length of the answer that stands there, or 0 where it isn't whole. One without a length before it has a header of 15
 * bytes, perhaps field 0, a string, and a stop. */
static size_t answer_length(const unsigned char *at, size_t held)
{
    if (http)
        return response_length(at, held);
    size_t length = 4;
    if (unframed)
        length = 16;
    if (held < length)
        return 0;
    if (!unframed)
        length += number(at);
    else if (at[15] && held < 22)
        return 0;
    else if (at[15])
        length = 23 + number(at + 18);
    return length <= held ? length : 0;
}

static void begin_call(struct connection *c, uint64_t time)
{
    static uint32_t seq;
    c->begun[(c->first + c->open) % MOST_OPEN] = time;
    c->due += put_call(c->out + c->due, ++seq);
    c->open++;
    left_to_begin--;
}

static int may_begin(const struct connection *c, size_t open)
{
    return c->open < open && left_to_begin > 0 && c->due + MOST_CALL < ROOM;
}

static void begin_calls(struct connection *c, size_t open)
{
    while (may_begin(c, open))
        begin_call(c, now());
}

static void send_due(int poll, struct connection *c)
{
    while (c->sent < c->due) {
        ssize_t n = write(c->fd, c->out + c->sent, c->due - c->sent);
        if (n <= 0)
            break;
        c->sent += (size_t)n;
    }
    if (c->sent == c->due)
        c->sent = c->due = 0;
    struct epoll_event event = {.events = c->due ? EPOLLIN | EPOLLOUT : EPOLLIN, .data.ptr = c};
    epoll_ctl(poll, EPOLL_CTL_MOD, c->fd, &event);
}

static void take_answers(struct connection *c)
{
    ssize_t got = read(c->fd, c->in + c->held, ROOM - c->held);
    if (got == 0 || (got < 0 && errno != EAGAIN)) {
        fprintf(stderr, "load: a connection ended\n");
        exit(1);
    }
    if (got < 0)
        return;
    c->held += (size_t)got;
    answer_bytes += (uint64_t)got;
    size_t at = 0, length;
    uint64_t time = now();
    while ((length = answer_length(c->in + at, c->held - at)) > 0) {
        if (c->open == 0) {
            fprintf(stderr, "load: an answer to no call\n");
            exit(1);
        }
        times[answered++] = (uint32_t)((time - c->begun[c->first]) / 100);
        c->first = (c->first + 1) % MOST_OPEN;
        c->open--;
        at += length;
    }
    memmove(c->in, c->in + at, c->held - at);
    c->held -= at;
}

static void read_ports(char *words)
{
    for (char *word = strtok(words, ","); word && port_count < MOST_PORTS; word = strtok(NULL, ","))
        ports[port_count++] = atoi(word);
}

/* The next connection, to the next port in turn. */
static int open_connection(void)
{
    static int opened;
    int port = ports[opened++ % port_count];
    int fd = socket(AF_INET, SOCK_STREAM, 0), on = 1;
    struct sockaddr_in at = {.sin_family = AF_INET, .sin_port = htons((uint16_t)port), .sin_addr.s_addr = htonl(INADDR_LOOPBACK)};
    if (connect(fd, (struct sockaddr *)&at, sizeof at)) {
        perror("load");
        exit(1);
    }
    setsockopt(fd, IPPROTO_TCP, TCP_NODELAY, &on, sizeof on);
    return fd;
}

/* Makes one call and waits for its answer. */
static void warm_up(struct connection *c)
{
    size_t held = 0, length = put_call(c->out, 1);
    if (write(c->fd, c->out, length) != (ssize_t)length)
        exit(1);
    do {
        ssize_t got = read(c->fd, c->in + held, ROOM - held);
        if (got <= 0) {
            fprintf(stderr, "load: a connection ended\n");
            exit(1);
        }
        held += (size_t)got;
    } while (answer_length(c->in, held) == 0);
}

static void end_unanswered(void)
{
    fprintf(stderr, "load: no answer for ten seconds, %ld of %ld answered\n", answered, total);
    exit(1);
}

static void take_events(int poll, int timeout, size_t open)
{
    struct epoll_event events[256];
    int n = epoll_wait(poll, events, 256, timeout);
    if (n <= 0 && timeout != 0)
        end_unanswered();
    for (int i = 0; i < n; i++) {
        struct connection *c = events[i].data.ptr;
        if (events[i].events & EPOLLIN)
            take_answers(c);
        begin_calls(c, open);
        if (c->due > 0 || events[i].events & EPOLLOUT || open > 0)
            send_due(poll, c);
    }
}

/* As many calls at a time on each connection, and another for each that was answered. */
static void keep_open(int poll, struct connection **all, int connections, size_t open)
{
    for (int i = 0; i < connections; i++) {
        begin_calls(all[i], open);
        send_due(poll, all[i]);
    }
    while (answered < total)
        take_events(poll, 10000, open);
}

/* So many calls a second, in groups of OPEN. */
static void keep_pace(int poll, struct connection **all, int connections, size_t open, double rate)
{
    uint64_t start = now(), group = 0, last = start;
    long seen = 0;
    while (answered < total) {
        uint64_t time = now(), planned;
        while (left_to_begin > 0 && (planned = start + (uint64_t)((double)(group * open) / rate * 1e9)) <= time) {
            struct connection *c = all[group++ % (uint64_t)connections];
            for (size_t i = 0; i < open && left_to_begin > 0; i++) {
                if (!may_begin(c, MOST_OPEN)) {
                    fprintf(stderr, "load: more calls wait than a connection may have open\n");
                    exit(1);
                }
                begin_call(c, planned);
            }
            send_due(poll, c);
        }
        take_events(poll, 0, 0);
        if (answered > seen)
            last = time;
        seen = answered;
        if (time - last > 10000000000u)
            end_unanswered();
    }
}

static int by_time(const void *a, const void *b)
{
    uint32_t x = *(const uint32_t *)a, y = *(const uint32_t *)b;
    return x < y ? -1 : x > y;
}

static uint32_t percentile_99(uint32_t *values, size_t length)
{
    qsort(values, length, sizeof *values, by_time);
    return values[length - 1 - length / 100];
}

/* The 99th percentile of the middle stretch, or of all where there is no whole one. What is left behind the last whole one isn't counted.
 * Each stretch is sorted on the way. */
static uint32_t percentile_99_of_middle_stretch(uint32_t *values, size_t length)
{
    size_t stretches = length / STRETCH;
    if (stretches == 0)
        return percentile_99(values, length);
    uint32_t *found = malloc(stretches * sizeof *found);
    for (size_t i = 0; i < stretches; i++)
        found[i] = percentile_99(values + i * STRETCH, STRETCH);
    qsort(found, stretches, sizeof *found, by_time);
    uint32_t middle = found[stretches / 2];
    free(found);
    return middle;
}

int main(int count, char **words)
{
    if (count < 6)
        return 2;
    compact = !strcmp(words[1], "compact");
    json = !strcmp(words[1], "json");
    unframed = !strcmp(words[1], "unframed");
    http = !strcmp(words[1], "http");
    multiplexed = !strcmp(words[1], "multiplexed");
    read_ports(words[2]);
    int connections = atoi(words[3]);
    size_t open = (size_t)atol(words[4]);
    total = left_to_begin = atol(words[5]);
    double rate = count > 7 ? atof(words[7]) : 0;
    if (port_count == 0 || open > MOST_OPEN || connections > 4096 || total < 1)
        return 2;
    times = malloc((size_t)total * sizeof *times);
    for (int i = 0; i < (count > 6 ? atoi(words[6]) : 0); i++)
        open_connection();
    int poll = epoll_create1(0);
    struct connection **all = calloc((size_t)connections, sizeof *all);
    for (int i = 0; i < connections; i++) {
        struct connection *c = calloc(1, sizeof *c);
        c->fd = open_connection();
        struct epoll_event event = {.events = EPOLLIN, .data.ptr = c};
        epoll_ctl(poll, EPOLL_CTL_ADD, c->fd, &event);
        all[i] = c;
    }
    for (int i = 0; i < connections; i++)
        warm_up(all[i]);
    uint64_t start = now();
    if (rate > 0)
        keep_pace(poll, all, connections, open, rate);
    else
        keep_open(poll, all, connections, open);
    double seconds = (double)(now() - start) / 1e9;
    /* The stretches come first: all times are sorted by the other. */
    uint32_t stretch = percentile_99_of_middle_stretch(times, (size_t)total);
    uint32_t p99 = percentile_99(times, (size_t)total);
    printf("%.0f calls/s, %.1f MB/s of answers, median %.1f us, p99 %.1f us, max %.1f us, p99 of the middle stretch %.1f us\n", (double)total / seconds,
        (double)answer_bytes / seconds / 1e6, times[total / 2] / 10.0, p99 / 10.0, times[total - 1] / 10.0, stretch / 10.0);
    return 0;
}
