/* Connections of one call each, one after another.
 *
 *     connect PORT CONNECTIONS [compact]
 *
 * Opens a connection to PORT on this machine, sends one framed call of Binary, or of Compact, waits for its answer, and closes. Prints how many
 * connections a second that were. It closes with a reset, so that no port is left waiting. */
#include <arpa/inet.h>
#include <stdio.h>
#include <stdlib.h>
#include <string.h>
#include <sys/socket.h>
#include <time.h>
#include <unistd.h>

struct call {
    size_t length;
    unsigned char bytes[20];
};

static const struct call binary_call = {20, {0, 0, 0, 16, 0x80, 1, 0, 1, 0, 0, 0, 3, 'a', 'd', 'd', 0, 0, 0, 1, 0}};
static const struct call compact_call = {12, {0, 0, 0, 8, 0x82, 0x21, 1, 3, 'a', 'd', 'd', 0}};

static double now(void)
{
    struct timespec t;
    clock_gettime(CLOCK_MONOTONIC, &t);
    return t.tv_sec + t.tv_nsec / 1e9;
}

/* One connection with its call; 0 if it was answered. */
static int call_once(int port, const struct call *call)
{
    struct sockaddr_in address = {.sin_family = AF_INET, .sin_port = htons(port), .sin_addr.s_addr = htonl(INADDR_LOOPBACK)};
    struct linger reset = {1, 0};
    unsigned char answer[4096];
    int fd = socket(AF_INET, SOCK_STREAM, 0);
    int answered = fd >= 0 && connect(fd, (struct sockaddr *)&address, sizeof address) == 0 &&
                   send(fd, call->bytes, call->length, MSG_NOSIGNAL) == (ssize_t)call->length && recv(fd, answer, sizeof answer, 0) > 0;
    if (fd >= 0) {
        setsockopt(fd, SOL_SOCKET, SO_LINGER, &reset, sizeof reset);
        close(fd);
    }
    return answered ? 0 : -1;
}

int main(int count, char **words)
{
    if (count < 3 || count > 4 || (count == 4 && strcmp(words[3], "compact"))) {
        fprintf(stderr, "usage: connect PORT CONNECTIONS [compact]\n");
        return 2;
    }
    int port = atoi(words[1]);
    long total = atol(words[2]);
    const struct call *call = count == 4 ? &compact_call : &binary_call;
    double begun = now();
    for (long i = 0; i < total; i++) {
        if (call_once(port, call)) {
            fprintf(stderr, "connection %ld was not answered\n", i);
            return 1;
        }
    }
    printf("%.0f connections/s\n", total / (now() - begun));
    return 0;
}
