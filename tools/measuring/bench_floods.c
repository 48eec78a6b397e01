// The peers of bench-serve's word floods: a centre, an honest client, and whoever floods beside them.
//
//   bench_floods centre AT PORT NAME [FLOOD [BLOCKS]]        answers at once, with NAME as the message's id, but not
//                                                            what comes from the address `hold`; a line on its
//                                                            input makes it flood too, with so many blocks of
//                                                            16 KB ahead of what the proxy has read
//   bench_floods honest FROM AT PORT EACH SECONDS            binds as `alpha`, and after a line on its input sends
//                                                            a submit_sm each millisecond for so many SECONDS, but
//                                                            none while EACH have no answer
//   bench_floods flood FROM AT PORT LINKS FLOOD [bound]      each link writes as fast as it can, and reads
//   bench_floods reset FROM AT PORT                          connects and resets, again and again
//   bench_floods silent FROM AT PORT LINKS TIMES [bound]     each link enquires so often, and never reads
//
// FROM and AT are addresses. With `bound` each link binds first, as `flood`. Each says `ready` when it has
// begun, ends at a line on its input or at the input's end, after two minutes at the latest, and says its
// figures, each behind its name. An answer with another status, or to no request of the honest client, is
// bad; a request without an answer five seconds after the end is missing.
#define _GNU_SOURCE
#include "bench_links.h"
#include <poll.h>
#include <signal.h>

enum { DELIVER_SM = 0x5, UNKNOWN = 0xA, MOST_TAKEN = 1 << 17, BLOCK = 1 << 16, LONGEST = 120, PATIENCE = 5 };
// No request of the proxy has such a number.
static const uint32_t STRANGE = 0x40000000u;

static unsigned char block[BLOCK];
static size_t block_size;

// The body of a message: of 20 octets of text, or with a payload that makes a PDU of so many octets.
static size_t message_of(unsigned char *body, const char *source, const char *destination, size_t octets) {
    size_t at = 3;
    memset(body, 0, 64);
    memcpy(body + at, source, strlen(source)), at += strlen(source) + 3;
    memcpy(body + at, destination, strlen(destination)), at += strlen(destination) + 10;
    if (octets) {
        size_t rest = octets - 16 - at - 5;
        unsigned char head[] = {0, 0x04, 0x24, rest >> 8, rest};
        memcpy(body + at, head, 5), memset(body + at + 5, 'x', rest);
        return octets - 16;
    }
    body[at] = 20, memset(body + at + 1, 'x', 20);
    return at + 21;
}

// A flood's PDU: its body's size, and its command.
static size_t pdu_of(const char *flood, unsigned char *body, uint32_t *command) {
    static const struct {
        const char *flood;
        uint32_t command;
        size_t size;
        const char *body;
    } floods[] = {{"enquire_link", ENQUIRE_LINK, 0, ""}, {"octets", ENQUIRE_LINK, 0, ""}, {"unknown", UNKNOWN, 0, ""},
        {"deliver_sm_resp", 0x80000000u | DELIVER_SM, 1, ""}, {"generic_nack", 0x80000000u, 0, ""},
        {"submit_sm_resp", 0x80000000u | SUBMIT_SM, 2, "1"}, {"bind", BIND_TRANSCEIVER, 14, "alpha\0no\0\0\x34\0\0"}};
    for (size_t i = 0; i < sizeof floods / sizeof *floods; i++)
        if (!strcmp(flood, floods[i].flood)) {
            *command = floods[i].command, memcpy(body, floods[i].body, floods[i].size);
            return floods[i].size;
        }
    *command = !strncmp(flood, "deliver_sm", 10) ? DELIVER_SM : SUBMIT_SM;
    if (!strcmp(flood, "large")) return message_of(body, "hold", "491", BLOCK);
    return message_of(body, "hold", strcmp(flood, "deliver_sm_stray") ? "491" : "501", 0);
}

// Fills the block with whole PDUs, up to so many octets; one at least.
static void fill_block(const char *flood, size_t most) {
    static unsigned char body[BLOCK];
    uint32_t command, number = STRANGE;
    size_t size = pdu_of(flood, body, &command);
    do {
        unsigned char *to = block + block_size;
        put_number(to, 16 + size), put_number(to + 4, command), put_number(to + 8, 0), put_number(to + 12, number++);
        memcpy(to + 16, body, size);
        block_size += 16 + size;
    } while (block_size + 16 + size <= most);
}

static void ready(void) {
    puts("ready");
    fflush(stdout);
}

// Whether a line or the end has come on the input, after so many milliseconds at most.
static int is_told(int milliseconds) {
    struct pollfd input = {.fd = 0, .events = POLLIN};
    char line[64];
    return poll(&input, 1, milliseconds) > 0 && read(0, line, sizeof line) >= 0;
}

// Whether the systems of both ends are to hold few octets of a link that isn't read.
static int is_small;

// A socket that is on its way to be connected.
static int reach(const char *from, const char *address, int port) {
    int one = 1, room = 4096, segment = 536, made = socket(AF_INET, SOCK_STREAM | SOCK_NONBLOCK, 0);
    struct sockaddr_in own = place_of(from, 0), at = place_of(address, port);
    if (made < 0) fail("socket");
    setsockopt(made, IPPROTO_IP, IP_BIND_ADDRESS_NO_PORT, &one, sizeof one);
    setsockopt(made, IPPROTO_TCP, TCP_NODELAY, &one, sizeof one);
    if (is_small) setsockopt(made, SOL_SOCKET, SO_RCVBUF, &room, sizeof room);
    if (is_small) setsockopt(made, IPPROTO_TCP, TCP_MAXSEG, &segment, sizeof segment);
    if (bind(made, (void *)&own, sizeof own)) fail("bind");
    if (connect(made, (void *)&at, sizeof at) && errno != EINPROGRESS) {
        close(made);
        return -1;
    }
    return made;
}

// The centre.

static const char *own_name;
static int is_flooding;
static unsigned most_blocks; // that wait to be read; 0: as many as the sockets take
static unsigned long octets;
// Behind each block stands an enquire_link with such a number; its answer says that the block was read.
static const uint32_t MARK = 0x20000000u;

static void answer(struct link *l, const unsigned char *pdu, size_t size) {
    (void)size;
    uint32_t command = number_at(pdu + 4), number = number_at(pdu + 12);
    if (command == (RESPONSE | ENQUIRE_LINK) && number == MARK) l->waiting--;
    if (command & RESPONSE) return;
    if (command == SUBMIT_SM && !memcmp(pdu + 19, "hold", 5)) return;
    if (command == SUBMIT_SM) say(l, command | RESPONSE, number, own_name, strlen(own_name) + 1);
    else if (command == BIND_TRANSCEIVER) say(l, command | RESPONSE, number, "centre", 7), l->bound = 1;
    else say(l, command | RESPONSE, number, "", 0);
}

static void add_block(struct link *l) {
    unsigned char *to = l->write + l->out;
    memcpy(to, block, block_size), l->out += block_size, octets += block_size;
    for (size_t at = 0; at < block_size; at += number_at(block + at)) put_number(to + at + 12, STRANGE | l->next++);
}

// Adds what the flood has room for, and awaits that the link can be written where something waits for that.
static void add_flood(struct link *l) {
    if (!is_flooding || !l->bound) return;
    if (!most_blocks && !l->out) add_block(l);
    for (; l->waiting < most_blocks && l->out < BLOCK; l->waiting++) {
        add_block(l);
        say(l, ENQUIRE_LINK, MARK, "", 0);
    }
    flush(l);
    struct epoll_event event = {.events = EPOLLIN | (l->out || !most_blocks ? EPOLLOUT : 0)};
    for (int i = 0; i < count; i++)
        if (links[i] == l) event.data.u32 = i;
    epoll_ctl(poller, EPOLL_CTL_MOD, l->socket, &event);
}

static void begin_flood(void) {
    is_flooding = 1;
    for (int i = 0; i < count; i++)
        if (links[i]->socket >= 0) add_flood(links[i]);
}

// Says a flood's figures: octets a second, links that were closed, and the status that it was answered with.
static void say_flood(double seconds, unsigned long closed, int told) {
    printf("octets %.0f closed %lu told %d\n", octets / seconds, closed, told);
}

static void centre(const char *address, int port, const char *name, const char *flood, unsigned blocks) {
    int listener = listen_at(address, port);
    struct epoll_event events[64], input = {.events = EPOLLIN, .data.u32 = MOST_LINKS + 1};
    epoll_ctl(poller, EPOLL_CTL_ADD, 0, &input);
    if (*flood) fill_block(flood, 1 << 14);
    own_name = name, most_blocks = blocks;
    ready();
    double began = now(), end = began + LONGEST;
    for (int over = 0; !over && now() < end;) {
        int found = epoll_wait(poller, events, 64, 1000);
        for (int i = 0; i < found; i++) {
            if (events[i].data.u32 == MOST_LINKS + 1) {
                over = is_flooding || !*flood || !is_told(0);
                if (!over) begin_flood(), began = now();
                continue;
            }
            if (events[i].data.u32 == MOST_LINKS) {
                int accepted = accept(listener, 0, 0);
                if (accepted >= 0) watch(accepted);
                continue;
            }
            struct link *l = links[events[i].data.u32];
            if (l->socket >= 0) hear(l, answer);
            if (l->socket >= 0) add_flood(l), flush(l);
        }
    }
    say_flood(now() - began, 0, -1);
}

// The honest client.

// Its latencies in us: all, with a missing one's until the end; the first lane's; the second's.
static uint32_t took[3][MOST_TAKEN];
static unsigned long taken[3], sent, skipped, bad;

static void settle(struct link *l, const unsigned char *pdu, size_t size) {
    uint32_t command = number_at(pdu + 4), status = number_at(pdu + 8), number = number_at(pdu + 12);
    if (command == (RESPONSE | BIND_TRANSCEIVER)) {
        l->bound = !status;
        return;
    }
    if (command == ENQUIRE_LINK || command == DELIVER_SM) {
        say(l, command | RESPONSE, number, "", command == DELIVER_SM);
        return;
    }
    double *at = &l->sent[number % MOST_WINDOW];
    int lane = size > 16 ? pdu[16] - '0' : 0, is_good = command == (RESPONSE | SUBMIT_SM) && *at != 0 && !status;
    if (!is_good || lane < 1 || lane > 2 || taken[0] == MOST_TAKEN) bad++;
    else {
        uint32_t late = (now() - *at) * 1e6;
        took[0][taken[0]++] = took[lane][taken[lane]++] = late;
    }
    if (command == (RESPONSE | SUBMIT_SM) && *at != 0) *at = 0, l->waiting--;
}

static void submit(struct link *l, unsigned each) {
    double *at = &l->sent[l->next % MOST_WINDOW];
    if (l->waiting >= each || *at != 0 || !say(l, SUBMIT_SM, l->next, message, sizeof message)) {
        skipped++;
        return;
    }
    *at = now();
    l->next++, l->waiting++, sent++;
}

// Waits until then, or until the link can be read, or written where that waits; and reads.
static void await(struct link *l, double until) {
    struct pollfd it = {.fd = l->socket, .events = POLLIN | (l->out ? POLLOUT : 0)};
    double left = until - now();
    struct timespec most = {.tv_sec = left > 0 ? left : 0};
    most.tv_nsec = left > 0 ? (left - most.tv_sec) * 1e9 : 0;
    ppoll(&it, 1, &most, 0);
    hear(l, settle);
}

static int in_order(const void *one, const void *other) {
    uint32_t a = *(const uint32_t *)one, b = *(const uint32_t *)other;
    return (a > b) - (a < b);
}

static void say_quantiles(int which) {
    unsigned long all = taken[which], most = all ? all - 1 : 0;
    qsort(took[which], all, sizeof **took, in_order);
    printf(" of%d %lu p50%d %u p99%d %u most%d %u", which, all, which, took[which][(size_t)(most * 0.5)], which,
        took[which][(size_t)(most * 0.99)], which, took[which][most]);
}

static void honest(const char *from, const char *address, int port, unsigned each, double seconds) {
    struct link *l = watch(reach(from, address, port));
    say(l, BIND_TRANSCEIVER, 0x70000000, "alpha\0a1\0\0\x34\0\0", 14);
    for (double end = now() + PATIENCE; l->socket >= 0 && !l->bound && now() < end;) {
        if (l->out) await(l, now() + 0.01), flush(l);
        else await(l, end);
    }
    if (!l->bound) fail("the honest client isn't bound");
    ready();
    is_told(LONGEST * 1000);
    double due = now(), end = due + seconds;
    while (l->socket >= 0 && (now() < end || (l->waiting && now() < end + PATIENCE))) {
        for (; due <= now() && due < end; due += 0.001) submit(l, each);
        flush(l);
        await(l, due < end ? due : end + PATIENCE);
    }
    printf("sent %lu answered %lu skipped %lu bad %lu missing %u", sent, taken[0], skipped, bad, l->waiting);
    for (int i = 0; i < MOST_WINDOW; i++)
        if (l->sent[i] != 0 && taken[0] < MOST_TAKEN) took[0][taken[0]++] = (now() - l->sent[i]) * 1e6;
    for (int which = 0; which < 3; which++) say_quantiles(which);
    puts("");
}

// Whoever floods.

static struct flooder {
    int socket;
    size_t greeted, at, asked;
} flooders[MOST_LINKS];

static unsigned char greeting[64], scratch[BLOCK];
static size_t greeting_size, a_write = BLOCK;
static unsigned long closed;
static int told = -1; // the status of the first link's last answer
static size_t noted; // the octets of the answer that the first link is reading

static void open_flooder(int place, const char *from, const char *address, int port) {
    struct flooder *f = flooders + place;
    struct epoll_event event = {.events = EPOLLIN | EPOLLOUT, .data.u32 = place};
    f->socket = reach(from, address, port), f->greeted = 0, f->at = 0;
    if (!place) noted = 0;
    if (f->socket >= 0) epoll_ctl(poller, EPOLL_CTL_ADD, f->socket, &event);
}

static void close_flooder(struct flooder *f) {
    close(f->socket);
    f->socket = -1, closed++;
}

// Notes the status of each whole answer in the first link's octets.
static void note(const unsigned char *from, size_t size) {
    static unsigned char head[12];
    for (size_t i = 0; i < size; i++) {
        if (noted < 12) head[noted] = from[i];
        if (++noted == 12) told = number_at(head + 8);
        if (noted >= 12 && noted == number_at(head)) noted = 0;
    }
}

static void drain(struct flooder *f) {
    ssize_t got = recv(f->socket, scratch, sizeof scratch, 0);
    if (got == 0 || (got < 0 && errno != EAGAIN && errno != ENOTCONN)) close_flooder(f);
    else if (got > 0 && f == flooders) note(scratch, got);
}

// Writes once; 0 where the link takes no more.
static int pour(struct flooder *f) {
    int greets = f->greeted < greeting_size;
    const unsigned char *from = greets ? greeting + f->greeted : block + f->at;
    size_t left = greets ? greeting_size - f->greeted : block_size - f->at;
    ssize_t wrote = send(f->socket, from, left < a_write ? left : a_write, MSG_NOSIGNAL);
    if (wrote <= 0) {
        if (errno != EAGAIN && errno != ENOTCONN) close_flooder(f);
        return 0;
    }
    if (greets) f->greeted += wrote;
    else octets += wrote, f->asked += wrote, f->at = (f->at + wrote) % block_size;
    return 1;
}

static void greet(void) {
    static const unsigned char bind[] = "\0\0\0\x1e\0\0\0\x09\0\0\0\0\0\0\0\1flood\0f1\0\0\x34\0\0";
    memcpy(greeting, bind, sizeof bind), greeting_size = sizeof bind;
}

static void flood(const char *from, const char *address, int port, int wanted, const char *what) {
    struct epoll_event events[64];
    int writes = strcmp(what, "octets") ? 1 : 64;
    fill_block(what, BLOCK), a_write = writes > 1 ? 1 : BLOCK;
    for (int i = 0; i < wanted; i++) open_flooder(i, from, address, port);
    ready();
    double began = now(), looked = began;
    while (now() < began + LONGEST) {
        int found = epoll_wait(poller, events, 64, 10);
        for (int i = 0; i < found; i++) {
            struct flooder *f = flooders + events[i].data.u32;
            if (events[i].events & (EPOLLIN | EPOLLERR | EPOLLHUP)) drain(f);
            for (int n = 0; n < writes && f->socket >= 0; n++)
                if (!pour(f)) break;
        }
        if (now() < looked + 0.01) continue;
        looked = now();
        if (is_told(0)) break;
        for (int i = 0; i < wanted; i++)
            if (flooders[i].socket < 0) open_flooder(i, from, address, port);
    }
    say_flood(now() - began, closed, told);
}

static void reset(const char *from, const char *address, int port) {
    struct linger none = {.l_onoff = 1};
    unsigned long connections = 0;
    ready();
    double began = now();
    for (; now() < began + LONGEST && (connections % 64 || !is_told(0)); connections++) {
        int it = reach(from, address, port);
        if (it < 0) continue;
        setsockopt(it, SOL_SOCKET, SO_LINGER, &none, sizeof none);
        close(it);
    }
    say_flood(1, connections, -1);
}

static void silent(const char *from, const char *address, int port, int wanted, size_t times) {
    is_small = 1;
    fill_block("enquire_link", times > 1 ? BLOCK : 16);
    for (int i = 0; i < wanted; i++) open_flooder(i, from, address, port);
    double began = now(), wrote = began;
    while (now() < began + PATIENCE && now() < wrote + 0.5)
        for (int i = 0; i < wanted; i++) {
            struct flooder *f = flooders + i;
            while (f->socket >= 0 && f->asked < times * 16 && pour(f)) wrote = now();
        }
    ready();
    is_told(LONGEST * 1000);
    say_flood(now() - began, closed, -1);
}

int main(int words, char **word) {
    struct rlimit files = {4096, 4096};
    setrlimit(RLIMIT_NOFILE, &files);
    signal(SIGPIPE, SIG_IGN);
    alarm(LONGEST + PATIENCE);
    poller = epoll_create1(0);
    const char *role = words > 1 ? word[1] : "";
    if (words > 7) greet();
    if (words > 4 && !strcmp(role, "centre")) {
        centre(word[2], atoi(word[3]), word[4], words > 5 ? word[5] : "", words > 6 ? atoi(word[6]) : 0);
        return 0;
    }
    if (words < 5) return 2;
    const char *from = word[2], *address = word[3];
    int port = atoi(word[4]), number = words > 6 ? atoi(word[5]) : 0;
    if (!strcmp(role, "reset")) reset(from, address, port);
    else if (number && !strcmp(role, "honest")) honest(from, address, port, number, atof(word[6]));
    else if (number && !strcmp(role, "flood")) flood(from, address, port, number, word[6]);
    else if (number && !strcmp(role, "silent")) silent(from, address, port, number, atoi(word[6]));
    else return 2;
    return 0;
}
