/* What the yardsticks of `encode` and of `play` share, in plain C with nothing proved: a neighbour's routes in a hash
 * table, the order in which they are due, and messages of as many prefixes as fit. */
#include "lines.h"

/* A neighbour's route: its value or NONE, that which was sent, and its neighbours in the group that it is due in. */
struct route {
    uint32_t addr, value, sent, next, prev;
    uint8_t len, due;
};

/* The routes that are due with one value, in the order in which they became due, and the groups beside it. */
struct group {
    uint32_t first, last, next, prev;
};

/* What one neighbour is to have. Group 0 is that of the withdrawals, and value V has the group V + 1. */
struct peer {
    struct route *routes;
    uint32_t *slots;
    struct group *groups;
    size_t count, routes_room, room, groups_room;
    uint32_t first, last;
    int marked;
};

static size_t place_of(const struct peer *peer, uint32_t addr, uint8_t len) {
    size_t at = mixed(0, (uint64_t)addr << 8 | len) & (peer->room - 1);
    for (; peer->slots[at]; at = (at + 1) & (peer->room - 1)) {
        struct route *route = &peer->routes[peer->slots[at] - 1];
        if (route->addr == addr && route->len == len)
            break;
    }
    return at;
}

static void grow_peer(struct peer *peer) {
    peer->room = peer->room ? 2 * peer->room : 64;
    free(peer->slots);
    peer->slots = must(calloc(peer->room, sizeof *peer->slots));
    for (size_t i = 0; i < peer->count; i++)
        peer->slots[place_of(peer, peer->routes[i].addr, peer->routes[i].len)] = (uint32_t)(i + 1);
}

/* The number of a prefix's route, which is made where it isn't there yet. */
static uint32_t find(struct peer *peer, uint32_t addr, uint8_t len) {
    if (2 * (peer->count + 1) > peer->room)
        grow_peer(peer);
    size_t at = place_of(peer, addr, len);
    if (peer->slots[at])
        return peer->slots[at] - 1;
    if (peer->count == peer->routes_room) {
        peer->routes_room = peer->routes_room ? 2 * peer->routes_room : 64;
        peer->routes = must(realloc(peer->routes, peer->routes_room * sizeof *peer->routes));
    }
    peer->routes[peer->count] = (struct route){addr, NONE, NONE, NONE, NONE, len, 0};
    peer->slots[at] = (uint32_t)++peer->count;
    return (uint32_t)(peer->count - 1);
}

static struct group *group_of(struct peer *peer, uint32_t value) {
    uint32_t number = value + 1;
    if (peer->groups_room <= number) {
        size_t room = peer->groups_room ? peer->groups_room : 64;
        while (room <= number)
            room *= 2;
        peer->groups = must(realloc(peer->groups, room * sizeof *peer->groups));
        for (size_t i = peer->groups_room; i < room; i++)
            peer->groups[i] = (struct group){NONE, NONE, NONE, NONE};
        if (peer->groups_room == 0)
            peer->first = peer->last = NONE;
        peer->groups_room = room;
    }
    return &peer->groups[number];
}

/* A route is due no longer. */
static void leave(struct peer *peer, uint32_t number, uint32_t value) {
    struct route *route = &peer->routes[number];
    struct group *group = group_of(peer, value);
    *(route->prev == NONE ? &group->first : &peer->routes[route->prev].next) = route->next;
    *(route->next == NONE ? &group->last : &peer->routes[route->next].prev) = route->prev;
    route->due = 0;
    if (group->first != NONE)
        return;
    *(group->prev == NONE ? &peer->first : &peer->groups[group->prev].next) = group->next;
    *(group->next == NONE ? &peer->last : &peer->groups[group->next].prev) = group->prev;
}

/* A route is due, behind those of its value. */
static void join(struct peer *peer, uint32_t number, uint32_t value) {
    struct route *route = &peer->routes[number];
    struct group *group = group_of(peer, value);
    if (group->first == NONE) {
        group->next = NONE;
        group->prev = peer->last;
        *(peer->last == NONE ? &peer->first : &peer->groups[peer->last].next) = value + 1;
        peer->last = value + 1;
    }
    route->next = NONE;
    route->prev = group->last;
    *(group->last == NONE ? &group->first : &peer->routes[group->last].next) = number;
    group->last = number;
    route->due = 1;
}

/* A prefix is to have a value, or none. One that is due and is said again goes behind the others. */
static void want(struct peer *peer, uint32_t addr, uint8_t len, uint32_t value) {
    uint32_t number = find(peer, addr, len);
    struct route *route = &peer->routes[number];
    if (route->value == value && !route->due)
        return;
    if (route->due)
        leave(peer, number, route->value);
    route->value = value;
    if (value != route->sent)
        join(peer, number, value);
}

/* A line of text with a message in hexadecimal digits. */
static void put_message(unsigned slot, const char *which, const uint8_t *message, size_t len) {
    static const char digits[] = "0123456789ABCDEF";
    char head[32], *to;
    snprintf(head, sizeof head, "update %u %s ", slot, which);
    put(head);
    to = room_for(2 * len + 1);
    for (size_t i = 0; i < len; i++) {
        *to++ = digits[message[i] >> 4];
        *to++ = digits[message[i] & 15];
    }
    *to = '\n';
    out.len += 2 * len + 1;
}

/* Fills a message with the first routes of a group, and answers its length. */
static size_t fill(struct peer *peer, uint32_t value, uint8_t *message) {
    uint8_t *body = message + HEADER, *to = body + 2;
    size_t most = value == NONE ? MAX_MESSAGE - 2 : MAX_MESSAGE;
    memset(message, 255, 16);
    message[18] = 2;
    if (value != NONE) {
        put_number(body, 0, 2);
        to = put_number(to, pool.values[value].len, 2);
        memcpy(to, pool.bytes + pool.values[value].at, pool.values[value].len);
        to += pool.values[value].len;
    }
    for (uint32_t number = group_of(peer, value)->first; number != NONE; number = group_of(peer, value)->first) {
        struct route *route = &peer->routes[number];
        size_t size = (size_t)(route->len + 7) / 8;
        if ((size_t)(to - message) + 1 + size > most)
            break;
        *to++ = route->len;
        to = put_number(to, route->addr >> (32 - 8 * size) % 32, size);
        route->sent = value;
        leave(peer, number, value);
    }
    if (value == NONE) {
        put_number(body, (uint32_t)(to - body - 2), 2);
        to = put_number(to, 0, 2);
    }
    put_number(message + 16, (uint32_t)(to - message), 2);
    return (size_t)(to - message);
}

/* Writes all that is due at a neighbour, withdrawals first, and the End-of-RIB marker behind the first batch. */
static void drain(struct peer *peer, unsigned slot) {
    uint8_t message[MAX_MESSAGE];
    group_of(peer, NONE);
    for (;;) {
        uint32_t value = peer->groups[0].first != NONE ? NONE : peer->first - 1;
        int nothing = value != NONE && peer->first == NONE;
        if (nothing)
            break;
        size_t len = fill(peer, value, message);
        put_message(slot, peer->marked && peer->first == NONE ? "last" : "more", message, len);
    }
    if (peer->marked)
        return;
    static const uint8_t marker[] = {0, 23, 2, 0, 0, 0, 0};
    memset(message, 255, 16);
    memcpy(message + 16, marker, sizeof marker);
    put_message(slot, "last", message, 23);
    peer->marked = 1;
}

/* Answers each line of the input by a function, and writes what was answered before more is read. */
static void answer_all(void (*answer)(const char *line, size_t len)) {
    static char bytes[MAX_LINE + 65536];
    size_t len = 0;
    ssize_t count;
    while ((count = read(0, bytes + len, 65536)) > 0) {
        const char *at = bytes, *feed;
        len += (size_t)count;
        while ((feed = memchr(at, '\n', (size_t)(bytes + len - at))) != NULL) {
            answer(at, (size_t)(feed - at));
            at = feed + 1;
        }
        len -= (size_t)(at - bytes);
        if (len > MAX_LINE)
            exit(5);
        memmove(bytes, at, len);
        flush();
    }
    if (count < 0)
        exit(6);
}
