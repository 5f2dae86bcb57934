/* The work of `exabgpd encode` in plain C, as a measure for it: lines are split and read, the routes that they announce
 * and withdraw are kept in a hash table, each line is answered, and at the input's end messages of as many prefixes as
 * fit are written, byte for byte as the program writes them. Nothing is proved here.
 *
 * usage: encode <lines >output */
#include "table.h"

static struct peer peer;

static void answer(const char *line, size_t len) {
    struct said said = read_line(line, len);
    if (said.fault == 0) {
        want(&peer, said.addr, said.len, said.value);
        put("done\n");
    } else {
        put("error\n");
    }
}

int main(void) {
    answer_all(answer);
    drain(&peer, 0);
    flush();
    return 0;
}
