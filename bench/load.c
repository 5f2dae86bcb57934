/* The work of `exabgpd load` in plain C, as a measure for it: lines are written, split and read, the routes that they
 * announce and withdraw are kept in a hash table, messages of as many prefixes as fit are made of what changed, and
 * each message is read again and counted. Nothing is proved here.
 *
 * usage: load COUNT */
#include <stdint.h>
#include <stdio.h>
#include <stdlib.h>
#include <string.h>

#define MAX_LINE 128
#define MAX_MESSAGE 4096
#define HEADER 19
#define MARKER_LEN 23

struct word {
    const char *at;
    size_t len;
};

/* A route: what is wanted of its prefix and what was sent, 0 for nothing, and whether it is due. */
struct route {
    uint32_t addr, hop, sent;
    uint8_t len, due;
};

/* The routes in the order in which they came, and for each hash the number of a route, counted from 1. */
struct table {
    struct route *routes;
    uint32_t *slots;
    size_t count, room;
};

static struct table wanted, left;
static uint32_t *pending;
static size_t pending_count, pending_room;
static uint64_t lines, done, errors, messages, bytes, announced, withdrawn, standing;
static uint8_t replies[1024];
static size_t first_reply, reply_count;

static void *must(void *memory) {
    if (memory == NULL) {
        fputs("load: no memory\n", stderr);
        exit(9);
    }
    return memory;
}

static size_t hash_of(uint32_t addr, uint8_t len) {
    uint64_t key = ((uint64_t)addr << 8 | len) * 0x9E3779B97F4A7C15u;
    return (size_t)(key ^ key >> 29);
}

static void grow(struct table *table) {
    size_t room = table->room ? 2 * table->room : 16;
    table->routes = must(realloc(table->routes, room / 2 * sizeof *table->routes));
    free(table->slots);
    table->slots = must(calloc(room, sizeof *table->slots));
    table->room = room;
    for (size_t i = 0; i < table->count; i++) {
        size_t at = hash_of(table->routes[i].addr, table->routes[i].len) & (room - 1);
        while (table->slots[at])
            at = (at + 1) & (room - 1);
        table->slots[at] = (uint32_t)(i + 1);
    }
}

/* The number of the route of a prefix, which is put into the table where it isn't there. */
static uint32_t find(struct table *table, uint32_t addr, uint8_t len) {
    if (2 * (table->count + 1) > table->room)
        grow(table);
    size_t at = hash_of(addr, len) & (table->room - 1);
    while (table->slots[at]) {
        struct route *route = &table->routes[table->slots[at] - 1];
        if (route->addr == addr && route->len == len)
            return table->slots[at] - 1;
        at = (at + 1) & (table->room - 1);
    }
    table->routes[table->count] = (struct route){addr, 0, 0, len, 0};
    table->slots[at] = (uint32_t)++table->count;
    return (uint32_t)(table->count - 1);
}

static int is_number(struct word word, uint64_t max, uint64_t *number) {
    if (word.len == 0 || word.len > 10 || (word.at[0] == '0' && word.len > 1))
        return 0;
    *number = 0;
    for (size_t i = 0; i < word.len; i++) {
        if (word.at[i] < '0' || word.at[i] > '9')
            return 0;
        *number = *number * 10 + (uint64_t)(word.at[i] - '0');
    }
    return *number <= max;
}

/* Cuts a word at the first such byte. */
static int is_cut(struct word word, char byte, struct word *front, struct word *rest) {
    const char *found = memchr(word.at, byte, word.len);
    if (found == NULL)
        return 0;
    *front = (struct word){word.at, (size_t)(found - word.at)};
    *rest = (struct word){found + 1, word.len - front->len - 1};
    return 1;
}

static int is_ipv4(struct word word, uint32_t *addr) {
    *addr = 0;
    for (int i = 0; i < 4; i++) {
        struct word front = word;
        uint64_t number;
        if (i < 3 && !is_cut(word, '.', &front, &word))
            return 0;
        if (!is_number(front, 255, &number))
            return 0;
        *addr = *addr << 8 | (uint32_t)number;
    }
    return 1;
}

static int is_prefix(struct word word, uint32_t *addr, uint8_t *len) {
    struct word front, rest;
    uint64_t number;
    if (!is_cut(word, '/', &front, &rest) || !is_ipv4(front, addr) || !is_number(rest, 32, &number))
        return 0;
    *len = (uint8_t)number;
    return *len == 32 || (*addr << *len) == 0;
}

static int is(struct word word, const char *text) {
    return word.len == strlen(text) && memcmp(word.at, text, word.len) == 0;
}

static size_t split(const char *line, size_t len, struct word *words, size_t most) {
    size_t count = 0, at = 0;
    for (;;) {
        while (at < len && (line[at] == ' ' || line[at] == '\t'))
            at++;
        if (at == len)
            return count;
        if (count == most)
            return most + 1;
        size_t start = at;
        while (at < len && line[at] != ' ' && line[at] != '\t')
            at++;
        words[count++] = (struct word){line + start, at - start};
    }
}

/* A route is due, behind those that are. */
static void owe(uint32_t number) {
    struct route *route = &wanted.routes[number];
    if (route->due)
        return;
    if (pending_count == pending_room) {
        pending_room = pending_room ? 2 * pending_room : 16;
        pending = must(realloc(pending, pending_room * sizeof *pending));
    }
    route->due = 1;
    pending[pending_count++] = number;
}

/* Does what a line says. */
static int enter(const char *line, size_t len) {
    struct word words[8];
    size_t count = split(line, len, words, 8);
    uint32_t addr, hop = 0;
    uint8_t bits;
    if (count < 3 || count > 8 || !is(words[1], "route") || !is_prefix(words[2], &addr, &bits))
        return 0;
    if (is(words[0], "announce")) {
        if (count != 5 || !is(words[3], "next-hop") || !is_ipv4(words[4], &hop))
            return 0;
    } else if (!is(words[0], "withdraw") || count != 3) {
        return 0;
    }
    uint32_t number = find(&wanted, addr, bits);
    wanted.routes[number].hop = hop;
    if (wanted.routes[number].hop != wanted.routes[number].sent)
        owe(number);
    return 1;
}

/* Enters a line, queues its reply and takes it. */
static void say(const char *line, size_t len) {
    lines++;
    int so = enter(line, len);
    if (so)
        done++;
    else
        errors++;
    replies[(first_reply + reply_count++) % sizeof replies] = (uint8_t)so;
    while (reply_count > 0) {
        first_reply = (first_reply + 1) % sizeof replies;
        reply_count--;
    }
}

static uint32_t number_at(const uint8_t *at, size_t len) {
    uint32_t number = 0;
    for (size_t i = 0; i < len; i++)
        number = number << 8 | at[i];
    return number;
}

static void put_number(uint8_t *at, uint32_t number, size_t len) {
    for (size_t i = len; i-- > 0; number >>= 8)
        at[i] = (uint8_t)number;
}

static size_t read_key(const uint8_t *at, uint32_t *addr, uint8_t *len) {
    size_t size = (size_t)(*at + 7) / 8;
    *len = *at;
    *addr = number_at(at + 1, size) << (32 - 8 * size) % 32;
    return 1 + size;
}

/* Reads a message and counts what it says. */
static void count_message(const uint8_t *message, size_t len) {
    const uint8_t *at = message + HEADER, *end = message + len;
    messages++;
    bytes += len;
    const uint8_t *gone_end = at + 2 + number_at(at, 2);
    uint32_t addr, hop = 0;
    uint8_t bits;
    for (at += 2; at < gone_end;) {
        at += read_key(at, &addr, &bits);
        withdrawn++;
        struct route *route = &left.routes[find(&left, addr, bits)];
        standing -= route->sent != 0;
        route->sent = 0;
    }
    const uint8_t *attrs_end = at + 2 + number_at(at, 2);
    for (at += 2; at < attrs_end; at += 3 + at[2])
        if (at[1] == 3)
            hop = number_at(at + 3, 4);
    while (at < end) {
        at += read_key(at, &addr, &bits);
        announced++;
        uint32_t number = find(&left, addr, bits);
        standing += left.routes[number].sent == 0;
        left.routes[number].sent = hop;
    }
}

static size_t open_message(uint8_t *message, uint32_t hop) {
    static const uint8_t attrs[] = {0x40, 1, 1, 0, 0x40, 2, 6, 2, 1, 0, 0, 0xFD, 0xE9, 0x40, 3, 4};
    memset(message, 255, 16);
    message[18] = 2;
    put_number(message + HEADER, 0, 2);
    if (hop == 0)
        return HEADER + 2;
    put_number(message + HEADER + 2, sizeof attrs + 4, 2);
    memcpy(message + HEADER + 4, attrs, sizeof attrs);
    put_number(message + HEADER + 4 + sizeof attrs, hop, 4);
    return HEADER + 8 + sizeof attrs;
}

static void close_message(uint8_t *message, size_t len, uint32_t hop) {
    if (hop == 0) {
        put_number(message + HEADER, (uint32_t)(len - HEADER - 2), 2);
        put_number(message + len, 0, 2);
        len += 2;
    }
    put_number(message + 16, (uint32_t)len, 2);
    count_message(message, len);
}

/* Sends what is due, each message of one next hop or of withdrawals. */
static void drain(void) {
    uint8_t message[MAX_MESSAGE + 8];
    for (size_t i = 0; i < pending_count;) {
        uint32_t hop = wanted.routes[pending[i]].hop;
        size_t len = open_message(message, hop), most = hop ? MAX_MESSAGE : MAX_MESSAGE - 2;
        for (; i < pending_count; i++) {
            struct route *route = &wanted.routes[pending[i]];
            size_t size = (size_t)(route->len + 7) / 8;
            if (route->hop != hop || len + 1 + size > most)
                break;
            message[len] = route->len;
            put_number(message + len + 1, route->addr >> (32 - 8 * size) % 32, size);
            len += 1 + size;
            route->due = 0;
            route->sent = hop;
        }
        close_message(message, len, hop);
    }
    pending_count = 0;
}

/* The End-of-RIB marker. */
static void mark(void) {
    uint8_t message[MARKER_LEN] = {0};
    memset(message, 255, 16);
    put_number(message + 16, MARKER_LEN, 2);
    message[18] = 2;
    count_message(message, MARKER_LEN);
}

int main(int argc, char **argv) {
    char line[MAX_LINE];
    uint64_t count;
    if (argc != 2 || !is_number((struct word){argv[1], strlen(argv[1])}, 1000000, &count) || count == 0) {
        fputs("usage: load COUNT\n", stderr);
        return 2;
    }
    for (uint32_t i = 0; i < count; i++) {
        uint32_t addr = 0x0A000000u + 256 * i;
        int len = snprintf(line, sizeof line, "announce route %u.%u.%u.%u/24 next-hop 192.0.2.1", addr >> 24,
                           addr >> 16 & 255, addr >> 8 & 255, addr & 255);
        say(line, (size_t)len);
    }
    drain();
    mark();
    for (uint32_t i = 0; i < count; i += 2) {
        uint32_t addr = 0x0A000000u + 256 * i;
        int len = snprintf(line, sizeof line, "withdraw route %u.%u.%u.%u/24", addr >> 24, addr >> 16 & 255,
                           addr >> 8 & 255, addr & 255);
        say(line, (size_t)len);
    }
    drain();
    printf("routes %ju\nlines %ju\ndone %ju\nerror %ju\nmessages %ju\nbytes %ju\nannounced %ju\nwithdrawn %ju\nleft %ju\n",
           (uintmax_t)count, (uintmax_t)lines, (uintmax_t)done, (uintmax_t)errors, (uintmax_t)messages, (uintmax_t)bytes,
           (uintmax_t)announced, (uintmax_t)withdrawn, (uintmax_t)standing);
    return 0;
}
