/* The work of `exabgpd parse` in plain C, as a measure for it, on lines of one form:
 *
 *     announce route PREFIX next-hop ADDRESS med NUMBER community [ A:B .. ]
 *
 * Lines are split and read, each into its prefix, next hop, number and list of communities, and `ok` is written for
 * each, or the place of its first word that doesn't fit. Nothing is proved here.
 *
 * usage: parse <lines >output */
#include <stdint.h>
#include <stdio.h>
#include <stdlib.h>
#include <string.h>

#define MAX_COMMUNITIES 200

struct word {
    const char *at;
    size_t len;
};

/* What a line says. The communities lie on the heap, as a program keeps them that goes on with them. */
struct route {
    uint32_t addr, hop, med;
    uint8_t len;
    size_t count;
    uint32_t *communities;
};

static int is_number(struct word word, uint64_t max, uint64_t *number) {
    if (word.len == 0 || word.len > 10 || (word.at[0] == '0' && word.len > 1))
        return 0;
    *number = 0;
    for (size_t i = 0; i < word.len; i++) {
        if (word.at[i] < '0' || word.at[i] > '9')
            return 0;
        *number = *number * 10 + (uint64_t)(word.at[i] - '0');
    }
    return *number <= max;
}

static int is_cut(struct word word, char byte, struct word *front, struct word *rest) {
    const char *found = memchr(word.at, byte, word.len);
    if (found == NULL)
        return 0;
    *front = (struct word){word.at, (size_t)(found - word.at)};
    *rest = (struct word){found + 1, word.len - front->len - 1};
    return 1;
}

static int is_ipv4(struct word word, uint32_t *addr) {
    *addr = 0;
    for (int i = 0; i < 4; i++) {
        struct word front = word;
        uint64_t number;
        if (i < 3 && !is_cut(word, '.', &front, &word))
            return 0;
        if (!is_number(front, 255, &number))
            return 0;
        *addr = *addr << 8 | (uint32_t)number;
    }
    return 1;
}

static int is_prefix(struct word word, uint32_t *addr, uint8_t *len) {
    struct word front, rest;
    uint64_t bits = 32;
    if (is_cut(word, '/', &front, &rest)) {
        if (!is_ipv4(front, addr) || !is_number(rest, 32, &bits))
            return 0;
    } else if (!is_ipv4(word, addr)) {
        return 0;
    }
    *len = (uint8_t)bits;
    return bits == 32 || (*addr & (0xFFFFFFFFu >> bits)) == 0;
}

static int is_community(struct word word, uint32_t *community) {
    struct word front, rest;
    uint64_t high, low;
    if (!is_cut(word, ':', &front, &rest) || !is_number(front, 65535, &high) || !is_number(rest, 65535, &low))
        return 0;
    *community = (uint32_t)(high << 16 | low);
    return 1;
}

static int is(struct word word, const char *text) {
    return word.len == strlen(text) && memcmp(word.at, text, word.len) == 0;
}

static int is_sign(char byte) { return byte == '[' || byte == ']' || byte == '(' || byte == ')' || byte == ','; }

static int is_blank(char byte) { return byte == ' ' || byte == '\t'; }

/* The next token of a line: a sign or a word, or no byte at the line's end. */
static struct word next(const char **at, const char *end) {
    const char *start;
    while (*at < end && is_blank(**at))
        (*at)++;
    start = *at;
    if (*at < end && is_sign(**at))
        (*at)++;
    else
        while (*at < end && !is_blank(**at) && !is_sign(**at))
            (*at)++;
    return (struct word){start, (size_t)(*at - start)};
}

/* 0 where the line reads, and else the number of the token that doesn't fit. */
static unsigned read_line(const char *at, const char *end, struct route *route) {
    unsigned place = 0;
    uint64_t med;
    struct word token;
#define TOKEN (place++, token = next(&at, end))
    TOKEN;
    if (!is(token, "announce"))
        return place;
    TOKEN;
    if (!is(token, "route"))
        return place;
    TOKEN;
    if (!is_prefix(token, &route->addr, &route->len))
        return place;
    TOKEN;
    if (!is(token, "next-hop"))
        return place;
    TOKEN;
    if (!is_ipv4(token, &route->hop))
        return place;
    TOKEN;
    if (!is(token, "med"))
        return place;
    TOKEN;
    if (!is_number(token, 4294967295u, &med))
        return place;
    route->med = (uint32_t)med;
    TOKEN;
    if (!is(token, "community"))
        return place;
    TOKEN;
    if (!is(token, "["))
        return place;
    for (;;) {
        uint32_t community;
        TOKEN;
        if (is(token, "]"))
            break;
        if (route->count == MAX_COMMUNITIES || !is_community(token, &community))
            return place;
        if ((route->count & (route->count - 1)) == 0) {
            size_t room = route->count == 0 ? 1 : 2 * route->count;
            route->communities = realloc(route->communities, room * sizeof *route->communities);
            if (route->communities == NULL)
                exit(9);
        }
        route->communities[route->count++] = community;
    }
    TOKEN;
    return token.len == 0 ? 0 : place;
#undef TOKEN
}

int main(void) {
    size_t len = 0, room = 1 << 20, out_len = 0, out_room = 1 << 20;
    char *input = malloc(room), *out = malloc(out_room);
    const char *at, *end, *feed;
    if (input == NULL || out == NULL)
        return 9;
    for (;;) {
        size_t count = fread(input + len, 1, room - len, stdin);
        if (count == 0)
            break;
        len += count;
        if (len == room && (input = realloc(input, room *= 2)) == NULL)
            return 9;
    }
    end = input + len;
    for (at = input; (feed = memchr(at, '\n', (size_t)(end - at))) != NULL; at = feed + 1) {
        struct route route = {0, 0, 0, 0, 0, NULL};
        unsigned place = read_line(at, feed, &route);
        if (out_room - out_len < 64 && (out = realloc(out, out_room *= 2)) == NULL)
            return 9;
        if (place == 0) {
            memcpy(out + out_len, "ok\n", 3);
            out_len += 3;
        } else {
            out_len += (size_t)sprintf(out + out_len, "error token %u\n", place);
        }
        free(route.communities);
    }
    fwrite(out, 1, out_len, stdout);
    return 0;
}
