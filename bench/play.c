/* The work of `exabgpd play` in plain C, as a measure for it, on a script in which one helper that every neighbour hears
 * announces and withdraws routes, as bench/play.sh makes it. The output is the same byte for byte. Nothing is proved
 * here.
 *
 * usage: play NEIGHBORS <script >output */
#include "table.h"

#define MAX_PEERS 64
#define MAX_REPLIES 1024
#define MAX_TAKEN 64

static struct peer peers[MAX_PEERS];
static unsigned peer_count;
static unsigned replies[MAX_REPLIES];
static size_t first_reply, reply_count;

/* Writes what came of a line: done, or the place of its fault. */
static void put_answer(unsigned fault) {
    char text[32];
    snprintf(text, sizeof text, "error token %u\n", fault);
    put(fault == 0 ? "done\n" : text);
}

/* A line of the helper. */
static void say(const char *line, size_t len) {
    if (reply_count == MAX_REPLIES) {
        put("busy\n");
        return;
    }
    struct said said = read_line(line, len);
    for (unsigned n = 0; said.fault == 0 && n < peer_count; n++)
        want(&peers[n], said.addr, said.len, said.value);
    replies[(first_reply + reply_count++) % MAX_REPLIES] = said.fault;
    put_answer(said.fault);
}

static void take(void) {
    if (reply_count == 0)
        put("nothing\n");
    for (int i = 0; i < MAX_TAKEN && reply_count > 0; i++, reply_count--) {
        put(replies[first_reply] == 0 ? "reply done\n" : "reply error\n");
        first_reply = (first_reply + 1) % MAX_REPLIES;
    }
}

/* A line of the script; any other form than those of bench/play.sh ends the program. */
static void enter(const char *line, size_t len) {
    const char *at = line, *end = line + len;
    uint32_t slot = 0, inc = 0;
    struct word word = next(&at, end);
    if (!is_number(next(&at, end), MAX_PEERS - 1, &slot))
        exit(5);
    if (is(word, "line") && is_number(next(&at, end), 1, &inc)) {
        say(at + 1, (size_t)(end - at) - 1);
    } else if (is(word, "take")) {
        take();
    } else if (is(word, "drain") && slot < peer_count) {
        drain(&peers[slot], slot);
        put("nothing\n");
    } else if (is(word, "spawn")) {
        put("go 1\n");
    } else if (is(word, "peer")) {
        put("peer\n");
    } else if (is(word, "up")) {
        put("up\n");
    } else {
        exit(5);
    }
}

int main(int argc, char **argv) {
    uint32_t count;
    if (argc != 2 || !is_number((struct word){argv[1], strlen(argv[1])}, MAX_PEERS, &count))
        return 2;
    peer_count = count;
    answer_all(enter);
    flush();
    return 0;
}
