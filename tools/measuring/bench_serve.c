// The two ends of tools/measuring/bench-serve: a message centre that answers at once, and clients under load.
//
//   bench_serve centre PORT [mute]                          answers until it is killed; mute: it takes
//                                                           binds, and reads no more after a request
//   bench_serve load PORT CLIENTS WINDOW SECONDS [FLAG [PAUSE]]   prints one line of figures, and ends
//
// Each client binds as `alpha`, keeps WINDOW requests without an answer, and sends the next when an
// answer comes. An answer with another status, or to no request of that client, is bad; a request
// without an answer a second after the end is missing. FLAG `idle` binds and sends nothing; `mute`
// has one client more, which never reads and sends until nobody takes its octets any more; with `rough`
// an answer with another status is refused, not bad, its client sends the next request a little later,
// answers are waited for longer, as a lane's queue waits for its link, and the line ends with how many were
// refused and how many connections the peer closed; there a client sends nothing for PAUSE seconds behind
// each answer.
#include "bench_links.h"

enum { BUCKETS = 1 << 16 };

static unsigned long answered, bad, missing, refused, late[BUCKETS];
static int is_mute, is_rough;
static const double tail = 75; // how long answers of a rough load are waited for, in seconds: 60 where queued
static double pause_; // how long a client of a rough load sends nothing behind an answer, in seconds
static const double rest = 0.05; // how long a refused client of a rough load sends nothing, in seconds

static void answer(struct link *l, const unsigned char *pdu, size_t size) {
    (void)size;
    uint32_t command = number_at(pdu + 4), number = number_at(pdu + 12);
    if (command & RESPONSE) return;
    if (is_mute && command == SUBMIT_SM) {
        epoll_ctl(poller, EPOLL_CTL_DEL, l->socket, 0);
        return;
    }
    if (command == SUBMIT_SM) say(l, command | RESPONSE, number, "1", 2);
    else if (command == BIND_TRANSCEIVER) say(l, command | RESPONSE, number, "centre", 7);
    else say(l, command | RESPONSE, number, "", 0);
}

static void centre(int port) {
    int listener = listen_at("127.0.0.1", port);
    struct epoll_event events[64];
    for (;;) {
        int ready = epoll_wait(poller, events, 64, -1);
        for (int i = 0; i < ready; i++) {
            if (events[i].data.u32 == MOST_LINKS) {
                int socket = accept(listener, 0, 0);
                if (socket >= 0) watch(socket);
                continue;
            }
            struct link *l = links[events[i].data.u32];
            if (l->socket < 0) continue;
            hear(l, answer);
            if (l->socket >= 0) flush(l);
        }
    }
}

static int window, is_idle;
static double ends;

static void submit(struct link *l) {
    while (l->bound && !is_idle && (int)l->waiting < window && now() < ends && now() >= l->rests_until) {
        double *at = &l->sent[l->next % MOST_WINDOW];
        if (*at != 0 || !say(l, SUBMIT_SM, l->next, message, sizeof message)) return;
        *at = now();
        l->next++, l->waiting++;
    }
}

// Sends until the link takes no more.
static void insist(struct link *l) {
    for (uint32_t number = 1; l->out == 0 && number < 1000000; number++) {
        say(l, SUBMIT_SM, number, message, sizeof message);
        flush(l);
        if (l->out) usleep(100000), flush(l);
    }
}

static void settle(struct link *l, const unsigned char *pdu, size_t size) {
    (void)size;
    uint32_t command = number_at(pdu + 4), number = number_at(pdu + 12);
    if (command == (RESPONSE | BIND_TRANSCEIVER)) {
        if (number_at(pdu + 8)) bad++;
        else l->bound = 1;
        return;
    }
    if (command == ENQUIRE_LINK) {
        say(l, RESPONSE | ENQUIRE_LINK, number, "", 0);
        return;
    }
    double *at = &l->sent[number % MOST_WINDOW];
    int is_refused = number_at(pdu + 8) != 0;
    if (command != (RESPONSE | SUBMIT_SM) || *at == 0 || (is_refused && !is_rough)) {
        bad++;
        return;
    }
    if (is_refused) {
        *at = 0, l->waiting--, l->rests_until = now() + rest, refused++;
        return;
    }
    unsigned long took = (now() - *at) * 1e6;
    late[took < BUCKETS ? took : BUCKETS - 1]++;
    *at = 0, l->waiting--, answered++;
    if (pause_ > 0) l->rests_until = now() + pause_;
}

static struct link *client(int port) {
    struct sockaddr_in at = place_of("127.0.0.1", port);
    int socket_ = socket(AF_INET, SOCK_STREAM, 0);
    if (connect(socket_, (void *)&at, sizeof at)) fail("connect");
    struct link *l = watch(socket_);
    say(l, BIND_TRANSCEIVER, 0x70000000, "alpha\0a1\0\0\x34\0\0", 14);
    flush(l);
    return l;
}

static unsigned long part(double share) {
    unsigned long sum = 0, wanted = answered * share;
    for (unsigned long at = 0; at < BUCKETS; at++)
        if ((sum += late[at]) > wanted) return at;
    return 0;
}

// Those that rested send again.
static void resume(void) {
    for (int i = 0; i < count; i++) {
        struct link *l = links[i];
        if (l->socket < 0) continue;
        submit(l);
        flush(l);
    }
}

// Whether no link that is there waits for an answer.
static int is_settled(void) {
    for (int i = 0; i < count; i++)
        if (links[i]->socket >= 0 && links[i]->waiting) return 0;
    return 1;
}

static void turn_until(double end) {
    struct epoll_event events[64];
    double resumed = now();
    for (double left; (left = end - now()) > 0;) {
        if (is_rough && now() > ends && is_settled()) return;
        if (is_rough && left > rest) left = rest;
        int ready = epoll_wait(poller, events, 64, left * 1000 + 1);
        if (is_rough && now() > resumed + rest) resumed = now(), resume();
        for (int i = 0; i < ready; i++) {
            struct link *l = links[events[i].data.u32];
            if (l->socket < 0 || l->mute) continue;
            hear(l, settle);
            if (l->socket < 0) continue;
            submit(l);
            flush(l);
        }
    }
}

static void load(int port, int clients, double seconds, const char *flag) {
    is_idle = !strcmp(flag, "idle");
    is_rough = !strcmp(flag, "rough");
    for (int i = 0; i < clients; i++) client(port);
    if (!strcmp(flag, "mute")) client(port)->mute = 1;
    ends = now() + 0.3 + seconds;
    turn_until(now() + 0.3); // all are bound
    unsigned long before = answered;
    answered = 0, memset(late, 0, sizeof late);
    double begins = now();
    ends = begins + seconds;
    for (int i = 0; i < count; i++) {
        if (links[i]->mute) insist(links[i]);
        else submit(links[i]);
        flush(links[i]);
    }
    turn_until(ends);
    unsigned long inside = answered;
    turn_until(ends + (is_rough ? tail : 1));
    for (int i = 0; i < count; i++)
        if (!links[i]->mute) missing += links[i]->waiting;
    printf("%.0f messages/s p50 %lu us p99 %lu us answered %lu bad %lu missing %lu", inside / seconds, part(0.5),
        part(0.99), before + answered, bad, missing);
    unsigned long closed = 0;
    for (int i = 0; i < count; i++) closed += links[i]->socket < 0;
    if (is_rough) printf(" refused %lu closed %lu", refused, closed);
    printf("\n");
}

int main(int words, char **word) {
    struct rlimit files = {4096, 4096};
    setrlimit(RLIMIT_NOFILE, &files);
    poller = epoll_create1(0);
    if (words > 2 && !strcmp(word[1], "centre")) {
        is_mute = words > 3 && !strcmp(word[3], "mute");
        centre(atoi(word[2]));
    }
    if (words < 6 || strcmp(word[1], "load")) return 2;
    window = atoi(word[4]);
    pause_ = words > 7 ? atof(word[7]) : 0;
    load(atoi(word[2]), atoi(word[3]), atof(word[5]), words > 6 ? word[6] : "");
    return 0;
}
