// What both ends of tools/measuring/bench-serve know of a link: its buffers, and whole PDUs into and out of them.
#include <arpa/inet.h>
#include <errno.h>
#include <fcntl.h>
#include <netinet/in.h>
#include <netinet/tcp.h>
#include <stdint.h>
#include <stdio.h>
#include <stdlib.h>
#include <string.h>
#include <sys/epoll.h>
#include <sys/resource.h>
#include <sys/socket.h>
#include <time.h>
#include <unistd.h>

enum { ROOM = 1 << 18, MOST_LINKS = 1100, MOST_WINDOW = 4096 };
enum { BIND_TRANSCEIVER = 0x9, SUBMIT_SM = 0x4, UNBIND = 0x6, ENQUIRE_LINK = 0x15 };
static const uint32_t RESPONSE = 0x80000000u;

struct link {
    int socket, bound, mute;
    size_t in, out_at, out;
    unsigned char read[ROOM], write[ROOM];
    uint32_t next, waiting;
    double sent[MOST_WINDOW]; // by sequence number, 0 where nothing waits
    double rests_until;       // nothing is sent before
};

static const unsigned char message[] = {0, 0, 0, '1', 0, 0, 0, '4', '9', '1', 0, 0, 0, 0, 0, 0, 0, 0, 0, 0, 20,
        't', 'w', 'e', 'n', 't', 'y', ' ', 'o', 'c', 't', 'e', 't', 's', ' ', 'o', 'f', ' ', 'i', 't', '.'};

static struct link *links[MOST_LINKS];
static int poller, count;

static double now(void) {
    struct timespec at;
    clock_gettime(CLOCK_MONOTONIC, &at);
    return at.tv_sec + at.tv_nsec * 1e-9;
}

static uint32_t number_at(const unsigned char *from) {
    return (uint32_t)from[0] << 24 | from[1] << 16 | from[2] << 8 | from[3];
}

static void put_number(unsigned char *to, uint32_t it) {
    to[0] = it >> 24, to[1] = it >> 16, to[2] = it >> 8, to[3] = it;
}

static void fail(const char *what) {
    perror(what);
    exit(2);
}

// A PDU into the link's buffer. Whoever fills it has kept to its window, or the buffer is flushed.
static int say(struct link *l, uint32_t command, uint32_t number, const void *body, size_t size) {
    if (l->out + 16 + size > ROOM) return 0;
    unsigned char *to = l->write + l->out;
    put_number(to, 16 + size), put_number(to + 4, command), put_number(to + 8, 0), put_number(to + 12, number);
    memcpy(to + 16, body, size);
    l->out += 16 + size;
    return 1;
}

static void flush(struct link *l) {
    while (l->out_at < l->out) {
        ssize_t wrote = write(l->socket, l->write + l->out_at, l->out - l->out_at);
        if (wrote <= 0) break;
        l->out_at += wrote;
    }
    memmove(l->write, l->write + l->out_at, l->out - l->out_at);
    l->out -= l->out_at, l->out_at = 0;
}

static struct link *watch(int socket) {
    int one = 1;
    int place = 0;
    while (place < count && links[place]->socket >= 0) place++;
    if (place == MOST_LINKS) fail("too many links");
    if (place < count) free(links[place]);
    else count++;
    setsockopt(socket, IPPROTO_TCP, TCP_NODELAY, &one, sizeof one);
    fcntl(socket, F_SETFL, fcntl(socket, F_GETFL) | O_NONBLOCK);
    struct link *l = calloc(1, sizeof *l);
    if (!l) fail("memory");
    l->socket = socket, l->next = 1, links[place] = l;
    struct epoll_event event = {.events = EPOLLIN, .data.u32 = place};
    epoll_ctl(poller, EPOLL_CTL_ADD, socket, &event);
    return l;
}

static void forget(struct link *l) {
    if (l->socket >= 0) close(l->socket);
    l->socket = -1;
}

// Reads once, and hands each whole PDU to `each`.
static void hear(struct link *l, void (*each)(struct link *, const unsigned char *, size_t)) {
    ssize_t got = read(l->socket, l->read + l->in, ROOM - l->in);
    if (got == 0 || (got < 0 && errno != EAGAIN)) {
        forget(l);
        return;
    }
    if (got > 0) l->in += got;
    size_t at = 0;
    while (l->in - at >= 16 && l->in - at >= number_at(l->read + at)) {
        size_t size = number_at(l->read + at);
        each(l, l->read + at, size);
        at += size;
    }
    memmove(l->read, l->read + at, l->in - at);
    l->in -= at;
}

static struct sockaddr_in place_of(const char *address, int port) {
    struct sockaddr_in at = {.sin_family = AF_INET, .sin_port = htons(port), .sin_addr.s_addr = inet_addr(address)};
    return at;
}

static int listen_at(const char *address, int port) {
    int one = 1, listener = socket(AF_INET, SOCK_STREAM, 0);
    struct sockaddr_in at = place_of(address, port);
    setsockopt(listener, SOL_SOCKET, SO_REUSEADDR, &one, sizeof one);
    if (bind(listener, (void *)&at, sizeof at) || listen(listener, 1024)) fail("listen");
    struct epoll_event event = {.events = EPOLLIN, .data.u32 = MOST_LINKS};
    epoll_ctl(poller, EPOLL_CTL_ADD, listener, &event);
    return listener;
}
