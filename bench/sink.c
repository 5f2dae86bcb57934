/* BGP neighbours that only count: they take sessions on a port of 127.0.0.1 and the loopback addresses behind it, answer
 * each OPEN and keep it alive, and count the IPv4 prefixes that UPDATE messages announce and withdraw. Said on standard
 * output, each with the moment in nanoseconds of CLOCK_MONOTONIC, is when a session is up, when its announcements reach
 * a wanted number, and when it is down. With -v it is also said when each prefix came. SIGTERM ends the program.
 *
 * usage: sink [-v] [-n NEIGHBORS] PORT [WANTED ..]
 *
 * prints: listening
 *         up MOMENT NEIGHBOR
 *         prefix MOMENT ADDRESS           (with -v)
 *         count MOMENT NEIGHBOR NUMBER    (for each WANTED)
 *         down MOMENT NEIGHBOR announced A withdrawn W messages M bytes B */
#include <arpa/inet.h>
#include <netinet/tcp.h>
#include <poll.h>
#include <signal.h>
#include <stdint.h>
#include <stdio.h>
#include <stdlib.h>
#include <string.h>
#include <sys/socket.h>
#include <time.h>
#include <unistd.h>

#define MAX_NEIGHBORS 64
#define MAX_WANTED 16
#define HEADER 19
#define ROOM (1 << 20)
#define KEEPALIVE_NS 30000000000u

enum { OPEN = 1, UPDATE = 2, NOTIFICATION = 3, KEEPALIVE = 4 };

/* The neighbour's door, its session's link or -1, and what came by it. */
struct neighbor {
    int door, link, is_up;
    size_t len;
    uint64_t announced, withdrawn, messages, bytes, sent_at;
    uint8_t *buffer;
};

static struct neighbor neighbors[MAX_NEIGHBORS];
static uint64_t wanted[MAX_WANTED];
static int wanted_count, neighbor_count = 1, is_loud;
static volatile sig_atomic_t is_over;

static void end(int signal) {
    (void)signal;
    is_over = 1;
}

static uint64_t now(void) {
    struct timespec time;
    clock_gettime(CLOCK_MONOTONIC, &time);
    return (uint64_t)time.tv_sec * 1000000000u + (uint64_t)time.tv_nsec;
}

static unsigned two(const uint8_t *at) { return (unsigned)at[0] << 8 | at[1]; }

static void reply(struct neighbor *neighbor, const uint8_t *body, size_t len, uint8_t type) {
    uint8_t message[64];
    memset(message, 255, 16);
    message[16] = 0;
    message[17] = (uint8_t)(HEADER + len);
    message[18] = type;
    memcpy(message + HEADER, body, len);
    neighbor->sent_at = now();
    if (send(neighbor->link, message, HEADER + len, MSG_NOSIGNAL) < 0)
        perror("sink: send");
}

/* Its own OPEN: AS 65002, hold time 180, IPv4 unicast and AS numbers of four bytes. */
static void greet(struct neighbor *neighbor) {
    static const uint8_t body[] = {4, 0xFD, 0xEA, 0, 180, 192, 0, 2,    2,    14, 2, 12,
                                   1, 4,    0,    1, 0,   1,   65, 4, 0,    0,  0xFD, 0xEA};
    reply(neighbor, body, sizeof body, OPEN);
    reply(neighbor, NULL, 0, KEEPALIVE);
}

/* Counts the prefixes of a field, and says when each came. */
static uint64_t count(const uint8_t *at, const uint8_t *past, uint64_t moment, int is_said) {
    uint64_t found = 0;
    for (; at < past; at += 1 + (*at + 7) / 8) {
        found++;
        if (is_said) {
            uint8_t addr[4] = {0};
            memcpy(addr, at + 1, (size_t)(*at + 7) / 8);
            printf("prefix %ju %u.%u.%u.%u\n", (uintmax_t)moment, addr[0], addr[1], addr[2], addr[3]);
        }
    }
    return found;
}

static void take_update(struct neighbor *neighbor, const uint8_t *body, const uint8_t *past, uint64_t moment) {
    const uint8_t *attrs = body + 2 + two(body), *prefixes = attrs + 2 + two(attrs);
    uint64_t before = neighbor->announced;
    neighbor->withdrawn += count(body + 2, attrs, moment, 0);
    neighbor->announced += count(prefixes, past, moment, is_loud);
    neighbor->messages++;
    for (int i = 0; i < wanted_count; i++)
        if (before < wanted[i] && wanted[i] <= neighbor->announced) {
            printf("count %ju %td %ju\n", (uintmax_t)moment, neighbor - neighbors, (uintmax_t)wanted[i]);
            fflush(stdout);
        }
}

static void take_message(struct neighbor *neighbor, const uint8_t *message, size_t len, uint64_t moment) {
    switch (message[18]) {
    case OPEN:
        greet(neighbor);
        break;
    case UPDATE:
        take_update(neighbor, message + HEADER, message + len, moment);
        break;
    case KEEPALIVE:
        if (!neighbor->is_up)
            printf("up %ju %td\n", (uintmax_t)moment, neighbor - neighbors);
        neighbor->is_up = 1;
        fflush(stdout);
        break;
    case NOTIFICATION:
        break;
    }
}

static void close_link(struct neighbor *neighbor) {
    printf("down %ju %td announced %ju withdrawn %ju messages %ju bytes %ju\n", (uintmax_t)now(), neighbor - neighbors,
           (uintmax_t)neighbor->announced, (uintmax_t)neighbor->withdrawn, (uintmax_t)neighbor->messages,
           (uintmax_t)neighbor->bytes);
    fflush(stdout);
    close(neighbor->link);
    neighbor->link = -1;
}

/* Reads what is there, and takes the whole messages of it. */
static void look(struct neighbor *neighbor) {
    ssize_t got = recv(neighbor->link, neighbor->buffer + neighbor->len, ROOM - neighbor->len, 0);
    uint64_t moment = now();
    size_t at = 0;
    if (got <= 0) {
        close_link(neighbor);
        return;
    }
    neighbor->len += (size_t)got;
    neighbor->bytes += (uint64_t)got;
    while (neighbor->len - at >= HEADER && neighbor->len - at >= two(neighbor->buffer + at + 16)) {
        size_t len = two(neighbor->buffer + at + 16);
        take_message(neighbor, neighbor->buffer + at, len, moment);
        at += len;
    }
    neighbor->len -= at;
    memmove(neighbor->buffer, neighbor->buffer + at, neighbor->len);
}

/* Takes a link at a neighbour's door; a second beside the first is closed. */
static void welcome(struct neighbor *neighbor) {
    int link = accept(neighbor->door, NULL, NULL), yes = 1;
    if (link < 0)
        return;
    if (neighbor->link >= 0) {
        close(link);
        return;
    }
    setsockopt(link, IPPROTO_TCP, TCP_NODELAY, &yes, sizeof yes);
    *neighbor = (struct neighbor){.door = neighbor->door, .link = link, .buffer = neighbor->buffer, .sent_at = now()};
    if (neighbor->buffer == NULL && (neighbor->buffer = malloc(ROOM)) == NULL)
        exit(9);
}

static int listen_at(uint32_t addr, uint16_t port) {
    struct sockaddr_in name = {.sin_family = AF_INET, .sin_port = htons(port), .sin_addr = {htonl(addr)}};
    int door = socket(AF_INET, SOCK_STREAM, 0), yes = 1;
    setsockopt(door, SOL_SOCKET, SO_REUSEADDR, &yes, sizeof yes);
    if (bind(door, (struct sockaddr *)&name, sizeof name) != 0 || listen(door, 4) != 0) {
        perror("sink: listen");
        exit(1);
    }
    return door;
}

/* Waits for something to come, and takes what came. */
static void serve(void) {
    struct pollfd looks[2 * MAX_NEIGHBORS];
    for (int i = 0; i < neighbor_count; i++) {
        looks[2 * i] = (struct pollfd){.fd = neighbors[i].link, .events = POLLIN};
        looks[2 * i + 1] = (struct pollfd){.fd = neighbors[i].door, .events = POLLIN};
    }
    if (poll(looks, 2 * (nfds_t)neighbor_count, 1000) < 0)
        return;
    for (int i = 0; i < neighbor_count; i++) {
        struct neighbor *neighbor = &neighbors[i];
        if (neighbor->link >= 0 && looks[2 * i].revents)
            look(neighbor);
        if (neighbor->link >= 0 && neighbor->is_up && now() - neighbor->sent_at > KEEPALIVE_NS)
            reply(neighbor, NULL, 0, KEEPALIVE);
        if (looks[2 * i + 1].revents)
            welcome(neighbor);
    }
}

int main(int argc, char **argv) {
    struct sigaction ending = {.sa_handler = end};
    int word;
    while ((word = getopt(argc, argv, "vn:")) != -1) {
        if (word == 'v')
            is_loud = 1;
        else if (word == 'n')
            neighbor_count = atoi(optarg);
    }
    if (optind >= argc || argc > optind + 1 + MAX_WANTED || neighbor_count < 1 || neighbor_count > MAX_NEIGHBORS) {
        fputs("usage: sink [-v] [-n NEIGHBORS] PORT [WANTED ..]\n", stderr);
        return 2;
    }
    for (int i = optind + 1; i < argc; i++)
        wanted[wanted_count++] = strtoull(argv[i], NULL, 10);
    sigaction(SIGTERM, &ending, NULL);
    for (int i = 0; i < neighbor_count; i++) {
        neighbors[i].door = listen_at(INADDR_LOOPBACK + (uint32_t)i, (uint16_t)atoi(argv[optind]));
        neighbors[i].link = -1;
    }
    puts("listening");
    fflush(stdout);
    while (!is_over)
        serve();
    fflush(stdout);
    return 0;
}
