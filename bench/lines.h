/* What the yardsticks of `encode` and of `play`, and the minimal injector, share, in plain C with nothing proved: the
 * words and numbers of a line, and the attributes' bytes of each value in a hash table. IPv4 alone, for a neighbour of
 * another AS. */
#include <stdint.h>
#include <stdio.h>
#include <stdlib.h>
#include <string.h>
#include <unistd.h>

#define MAX_LINE 65600
#define MAX_MESSAGE 4096
#define HEADER 19
#define MAX_COMMUNITIES 200
#define MAX_VALUE 1024
#define NONE UINT32_MAX

struct word {
    const char *at;
    size_t len;
};

/* Bytes that grow. */
struct text {
    char *bytes;
    size_t len, room;
};

/* The attributes that routes share: where their bytes stand. */
struct value {
    uint32_t at, len;
};

/* All values, each once. */
static struct {
    struct value *values;
    uint8_t *bytes;
    uint32_t *slots;
    size_t count, values_room, len, bytes_room, room;
} pool;

static struct text out;
static uint32_t local_as = 65001;

static void *must(void *memory) {
    if (memory == NULL) {
        fputs("yardstick: no memory\n", stderr);
        exit(9);
    }
    return memory;
}

static void flush(void) {
    size_t at = 0;
    while (at < out.len) {
        ssize_t count = write(1, out.bytes + at, out.len - at);
        if (count <= 0)
            exit(7);
        at += (size_t)count;
    }
    out.len = 0;
}

static char *room_for(size_t more) {
    if (out.len > 65536)
        flush();
    if (out.room - out.len < more) {
        out.room = 2 * out.room + more;
        out.bytes = must(realloc(out.bytes, out.room));
    }
    return out.bytes + out.len;
}

static void put(const char *piece) {
    size_t len = strlen(piece);
    memcpy(room_for(len), piece, len);
    out.len += len;
}

/* The next token of a line: a bracket or a word. */
static struct word next(const char **at, const char *end) {
    struct word word;
    while (*at < end && (**at == ' ' || **at == '\t'))
        ++*at;
    word.at = *at;
    if (*at < end && (**at == '[' || **at == ']'))
        ++*at;
    else
        while (*at < end && **at != ' ' && **at != '\t' && **at != '[' && **at != ']')
            ++*at;
    word.len = (size_t)(*at - word.at);
    return word;
}

static int is(struct word word, const char *text) {
    return word.len == strlen(text) && memcmp(word.at, text, word.len) == 0;
}

static int is_number(struct word word, uint64_t max, uint32_t *number) {
    uint64_t read = 0;
    if (word.len == 0 || word.len > 10 || (word.at[0] == '0' && word.len > 1))
        return 0;
    for (size_t i = 0; i < word.len; i++) {
        if (word.at[i] < '0' || word.at[i] > '9')
            return 0;
        read = read * 10 + (uint64_t)(word.at[i] - '0');
    }
    *number = (uint32_t)read;
    return read <= max;
}

/* Cuts a word at the first such byte. */
static int is_cut(struct word word, char byte, struct word *front, struct word *rest) {
    const char *found = memchr(word.at, byte, word.len);
    if (found == NULL)
        return 0;
    *front = (struct word){word.at, (size_t)(found - word.at)};
    *rest = (struct word){found + 1, word.len - front->len - 1};
    return 1;
}

static int is_ipv4(struct word word, uint32_t *addr) {
    uint32_t read = 0;
    for (int i = 0; i < 4; i++) {
        struct word front = word;
        uint32_t number;
        if ((i < 3 && !is_cut(word, '.', &front, &word)) || !is_number(front, 255, &number))
            return 0;
        read = read << 8 | number;
    }
    *addr = read;
    return 1;
}

static int is_prefix(struct word word, uint32_t *addr, uint8_t *len) {
    struct word front, rest;
    uint32_t bits;
    if (!is_cut(word, '/', &front, &rest) || !is_ipv4(front, addr) || !is_number(rest, 32, &bits))
        return 0;
    *len = (uint8_t)bits;
    return bits == 32 || (*addr & (0xFFFFFFFFu >> bits)) == 0;
}

static int is_community(struct word word, uint32_t *community) {
    struct word front, rest;
    uint32_t high, low;
    if (!is_cut(word, ':', &front, &rest) || !is_number(front, 65535, &high) || !is_number(rest, 65535, &low))
        return 0;
    *community = high << 16 | low;
    return 1;
}

static uint8_t *put_number(uint8_t *to, uint32_t number, size_t len) {
    for (size_t i = len; i-- > 0; number >>= 8)
        to[i] = (uint8_t)number;
    return to + len;
}

static uint64_t mixed(uint64_t hash, uint64_t more) {
    hash = (hash ^ more) * 0x9E3779B97F4A7C15u;
    return hash ^ hash >> 29;
}

static uint64_t hash_of(const uint8_t *bytes, size_t len) {
    uint64_t hash = len, piece;
    for (; len >= 8; bytes += 8, len -= 8) {
        memcpy(&piece, bytes, 8);
        hash = mixed(hash, piece);
    }
    for (; len > 0; bytes++, len--)
        hash = mixed(hash, *bytes);
    return hash;
}

static void grow_pool(void) {
    pool.room = pool.room ? 2 * pool.room : 64;
    free(pool.slots);
    pool.slots = must(calloc(pool.room, sizeof *pool.slots));
    for (size_t i = 0; i < pool.count; i++) {
        size_t at = hash_of(pool.bytes + pool.values[i].at, pool.values[i].len) & (pool.room - 1);
        while (pool.slots[at])
            at = (at + 1) & (pool.room - 1);
        pool.slots[at] = (uint32_t)(i + 1);
    }
}

/* The number of a value, which is kept where it isn't there yet. */
static uint32_t keep_value(const uint8_t *bytes, size_t len) {
    if (2 * (pool.count + 1) > pool.room)
        grow_pool();
    size_t at = hash_of(bytes, len) & (pool.room - 1);
    for (; pool.slots[at]; at = (at + 1) & (pool.room - 1)) {
        struct value *value = &pool.values[pool.slots[at] - 1];
        if (value->len == len && memcmp(pool.bytes + value->at, bytes, len) == 0)
            return pool.slots[at] - 1;
    }
    if (pool.count == pool.values_room) {
        pool.values_room = pool.values_room ? 2 * pool.values_room : 64;
        pool.values = must(realloc(pool.values, pool.values_room * sizeof *pool.values));
    }
    if (pool.bytes_room - pool.len < len) {
        pool.bytes_room = 2 * pool.bytes_room + MAX_VALUE;
        pool.bytes = must(realloc(pool.bytes, pool.bytes_room));
    }
    memcpy(pool.bytes + pool.len, bytes, len);
    pool.values[pool.count] = (struct value){(uint32_t)pool.len, (uint32_t)len};
    pool.len += len;
    pool.slots[at] = (uint32_t)++pool.count;
    return (uint32_t)(pool.count - 1);
}

/* What a line says, or the place of the first token that it can't have. */
struct said {
    uint32_t addr, value;
    uint8_t len;
    unsigned fault;
};

/* Reads the items behind a prefix, and makes their attributes. */
static unsigned read_items(const char *at, const char *end, unsigned place, uint32_t *value) {
    static const uint8_t front[] = {0x40, 1, 1, 0, 0x40, 2, 6, 2, 1};
    uint32_t hop = 0, med = 0, communities[MAX_COMMUNITIES];
    int has_hop = 0, has_med = 0;
    size_t count = 0;
    for (;; place++) {
        struct word word = next(&at, end);
        if (word.len == 0)
            break;
        if (is(word, "next-hop") && !has_hop) {
            place++;
            if (!is_ipv4(next(&at, end), &hop))
                return place;
            has_hop = 1;
        } else if (is(word, "med") && !has_med) {
            place++;
            if (!is_number(next(&at, end), 4294967295u, &med))
                return place;
            has_med = 1;
        } else if (is(word, "community") && count == 0) {
            place++;
            if (!is(next(&at, end), "["))
                return place;
            for (;;) {
                place++;
                word = next(&at, end);
                if (is(word, "]"))
                    break;
                if (count == MAX_COMMUNITIES || !is_community(word, &communities[count]))
                    return place;
                size_t i = 0;
                while (communities[i] != communities[count])
                    i++;
                count += i == count;
            }
        } else {
            return place;
        }
    }
    if (!has_hop)
        return place;
    uint8_t bytes[MAX_VALUE], *to = bytes;
    memcpy(to, front, sizeof front);
    to = put_number(to + sizeof front, local_as, 4);
    to = put_number(put_number(to, 0x400304, 3), hop, 4);
    if (has_med)
        to = put_number(put_number(to, 0x800404, 3), med, 4);
    if (count > 63)
        to = put_number(put_number(to, 0xD008, 2), (uint32_t)(4 * count), 2);
    else if (count > 0)
        to = put_number(put_number(to, 0xC008, 2), (uint32_t)(4 * count), 1);
    for (size_t i = 0; i < count; i++)
        to = put_number(to, communities[i], 4);
    *value = keep_value(bytes, (size_t)(to - bytes));
    return 0;
}

/* Reads `announce route PREFIX ITEM ..` or `withdraw route PREFIX`. */
static struct said read_line(const char *line, size_t len) {
    const char *at = line, *end = line + len;
    struct said said = {0, NONE, 0, 0};
    struct word word = next(&at, end);
    int announces = is(word, "announce");
    said.fault = 1;
    if (!announces && !is(word, "withdraw"))
        return said;
    said.fault = 2;
    if (!is(next(&at, end), "route"))
        return said;
    said.fault = 3;
    if (!is_prefix(next(&at, end), &said.addr, &said.len))
        return said;
    if (announces)
        said.fault = read_items(at, end, 4, &said.value);
    else
        said.fault = next(&at, end).len == 0 ? 0 : 4;
    return said;
}
