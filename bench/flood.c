/* A helper that measures: it announces routes to standard output, reads the replies from standard input, and writes into
 * the file REPORT when it did so, in nanoseconds of CLOCK_MONOTONIC. It begins once the file GO is there, so that
 * sessions can come up before. Behind its work it reads on until the file STOP is there, and then says `shutdown`.
 *
 * usage: flood REPORT GO STOP load COUNT one|own [FIRST]
 *            announces as fast as it is read, reading replies meanwhile; with one value for all or each its own MED;
 *            route I is that of the number FIRST + I
 *        flood REPORT GO STOP ping COUNT WAIT [FIRST]
 *            announces one after another, each once the last was answered and WAIT microseconds passed
 *        flood REPORT GO STOP idle
 *            says nothing
 *
 * reports: began MOMENT, line MOMENT ADDRESS MICROSECONDS (with ping: when it was written, and until its reply), said
 *          MOMENT (all lines are written), ended MOMENT done D other O (all replies are read) */
#include <fcntl.h>
#include <poll.h>
#include <stdint.h>
#include <stdio.h>
#include <stdlib.h>
#include <string.h>
#include <time.h>
#include <unistd.h>

#define ROOM 65536

static FILE *report;
static uint64_t done, other;
static char reply[64];
static size_t reply_len;

static uint64_t now(void) {
    struct timespec time;
    clock_gettime(CLOCK_MONOTONIC, &time);
    return (uint64_t)time.tv_sec * 1000000000u + (uint64_t)time.tv_nsec;
}

static void rest(uint64_t ns) {
    struct timespec time = {(time_t)(ns / 1000000000u), (long)(ns % 1000000000u)};
    nanosleep(&time, NULL);
}

static void await(const char *path) {
    while (access(path, F_OK) != 0)
        rest(20000000);
}

/* A line of replies, or its front, came. */
static void take(char byte) {
    if (byte != '\n') {
        if (reply_len < sizeof reply)
            reply[reply_len++] = byte;
        return;
    }
    if (reply_len == 4 && memcmp(reply, "done", 4) == 0)
        done++;
    else
        other++;
    reply_len = 0;
}

/* Reads replies that are there, and ends where the daemon has closed the pipe. */
static void read_replies(void) {
    char bytes[ROOM];
    ssize_t count = read(0, bytes, sizeof bytes);
    if (count <= 0)
        exit(1);
    for (ssize_t i = 0; i < count; i++)
        take(bytes[i]);
}

static uint32_t address_of(uint64_t number) { return (uint32_t)(0x0A000000u + 256 * number); }

static size_t put_line(char *to, size_t room, uint64_t number, uint64_t med) {
    uint32_t addr = address_of(number);
    return (size_t)snprintf(to, room, "announce route %u.%u.%u.0/24 next-hop 192.0.2.1 med %ju community [ 65001:1 65001:2 ]\n",
                            addr >> 24, addr >> 16 & 255, addr >> 8 & 255, (uintmax_t)med);
}

/* Announces all as fast as they are read. */
static void load(uint64_t count, int is_own, uint64_t first) {
    static char lines[ROOM];
    size_t len = 0, at = 0;
    uint64_t next = 0;
    fcntl(1, F_SETFL, O_NONBLOCK);
    while (next < count || at < len) {
        if (at == len)
            for (at = len = 0; next < count && ROOM - len > 128; next++)
                len += put_line(lines + len, ROOM - len, first + next, is_own ? next : 7);
        struct pollfd looks[] = {{.fd = 0, .events = POLLIN}, {.fd = 1, .events = POLLOUT}};
        poll(looks, 2, -1);
        if (looks[0].revents)
            read_replies();
        if (looks[1].revents) {
            ssize_t wrote = write(1, lines + at, len - at);
            at += wrote > 0 ? (size_t)wrote : 0;
        }
    }
    fprintf(report, "said %ju\n", (uintmax_t)now());
    while (done + other < count)
        read_replies();
    fcntl(1, F_SETFL, 0);
}

/* Announces one after another. */
static void ping(uint64_t count, uint64_t wait, uint64_t first) {
    char line[128];
    for (uint64_t i = 0; i < count; i++) {
        size_t len = put_line(line, sizeof line, first + i, i);
        uint64_t began = now();
        uint32_t addr = address_of(first + i);
        if (write(1, line, len) != (ssize_t)len)
            exit(1);
        while (done + other <= i)
            read_replies();
        fprintf(report, "line %ju %u.%u.%u.0 %.1f\n", (uintmax_t)began, addr >> 24, addr >> 16 & 255, addr >> 8 & 255,
                (double)(now() - began) / 1000);
        if (wait > 0)
            rest(1000 * wait);
    }
    fprintf(report, "said %ju\n", (uintmax_t)now());
}

int main(int argc, char **argv) {
    const char *kind = argc > 4 ? argv[4] : "";
    int takes = strcmp(kind, "idle") == 0 ? 5 : 7;
    if (argc < takes || argc > takes + 1 || (report = fopen(argv[1], "w")) == NULL) {
        fputs("usage: flood REPORT GO STOP load COUNT one|own [FIRST] | ping COUNT WAIT [FIRST] | idle\n", stderr);
        return 2;
    }
    uint64_t first = argc > 7 ? strtoull(argv[7], NULL, 10) : 0;
    await(argv[2]);
    fprintf(report, "began %ju\n", (uintmax_t)now());
    if (strcmp(kind, "load") == 0)
        load(strtoull(argv[5], NULL, 10), strcmp(argv[6], "own") == 0, first);
    else if (strcmp(kind, "ping") == 0)
        ping(strtoull(argv[5], NULL, 10), strtoull(argv[6], NULL, 10), first);
    fprintf(report, "ended %ju done %ju other %ju\n", (uintmax_t)now(), (uintmax_t)done, (uintmax_t)other);
    fclose(report);
    await(argv[3]);
    if (write(1, "shutdown\n", 9) != 9)
        return 1;
    for (;;)
        read_replies();
}
