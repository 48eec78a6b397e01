// The least that a proxy can do, to measure `smx serve` beside: it passes PDUs over one connection to the centre,
// each request under a number of its own and each response back under the client's, and checks nothing.
//
//   bench_relay PORT CENTRE                                 serves at PORT until it is killed; the centre is at CENTRE
//
// A turn of its loop reads each connection that has something once, and then writes to each that is to be told
// something once: two reads, two writes and two waits a message where one message is under way.
#include "bench_links.h"

enum { MOST_WAITING = 1 << 16 };

// Whose request waits under a number, by the place of its link, and the number that its client gave.
static struct { int place; uint32_t number; } waiting[MOST_WAITING];
static uint32_t last;
static struct link *centre;
// The place of the link that is heard, and the places of those that are to be flushed.
static int heard, told[MOST_LINKS], told_count;
static char is_told[MOST_LINKS];

static void tell(int place) {
    if (!is_told[place]) told[told_count++] = place, is_told[place] = 1;
}

// A client's request goes up under the next number.
static void go_up(struct link *client, const unsigned char *pdu, size_t size) {
    (void)client;
    uint32_t number = ++last % MOST_WAITING;
    waiting[number].place = heard, waiting[number].number = number_at(pdu + 12);
    say(centre, number_at(pdu + 4), number, pdu + 16, size - 16);
    tell(0);
}

// A response of the centre goes to the client whose request it answers.
static void go_down(struct link *from, const unsigned char *pdu, size_t size) {
    (void)from;
    uint32_t command = number_at(pdu + 4), number = number_at(pdu + 12) % MOST_WAITING;
    int place = waiting[number].place;
    if (!(command & RESPONSE) || !place) return;
    waiting[number].place = 0;
    if (links[place]->socket < 0) return;
    say(links[place], command, waiting[number].number, pdu + 16, size - 16);
    tell(place);
}

static void connect_to(int port) {
    struct sockaddr_in at = place_of("127.0.0.1", port);
    int up = socket(AF_INET, SOCK_STREAM, 0);
    if (up < 0 || connect(up, (void *)&at, sizeof at)) fail("connect");
    centre = watch(up);
}

static void let_in(int listener) {
    int client = accept(listener, 0, 0);
    if (client >= 0) watch(client);
}

static void flush_all(void) {
    for (int i = 0; i < told_count; i++) {
        struct link *l = links[told[i]];
        if (l->socket >= 0) flush(l);
        is_told[told[i]] = 0;
    }
    told_count = 0;
}

int main(int count_of_words, char **words) {
    if (count_of_words != 3) {
        fprintf(stderr, "bench_relay PORT CENTRE\n");
        return 2;
    }
    struct epoll_event events[256];
    poller = epoll_create1(0);
    connect_to(atoi(words[2]));
    int listener = listen_at("127.0.0.1", atoi(words[1]));
    for (;;) {
        int ready = epoll_wait(poller, events, 256, -1);
        for (int i = 0; i < ready; i++) {
            heard = events[i].data.u32;
            if (heard == MOST_LINKS) {
                let_in(listener);
                continue;
            }
            struct link *l = links[heard];
            if (l->socket >= 0) hear(l, l == centre ? go_down : go_up);
            if (centre->socket < 0) return 1;
        }
        flush_all();
    }
}
