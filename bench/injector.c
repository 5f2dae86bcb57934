/* A minimal injector, as the floor for a daemon: it runs one helper, opens one session to 127.0.0.1, answers each line
 * `announce route ..` and sends its route, packed with those that came right behind it with the same attributes. It
 * keeps no table, so that it can neither withdraw, nor send again, nor know what stands. Nothing is proved here.
 *
 * usage: injector PORT HELPER WORD .. */
#include "lines.h"
#include <arpa/inet.h>
#include <fcntl.h>
#include <netinet/tcp.h>
#include <poll.h>
#include <sys/socket.h>
#include <sys/wait.h>

#define ROOM (1 << 20)

static int link_fd, to_helper, from_helper;
static uint8_t message[MAX_MESSAGE], sending[ROOM];
static size_t message_len, sending_len, sending_at;
static uint32_t message_value = NONE;
static int is_over;

static void set_nonblocking(int fd) { fcntl(fd, F_SETFL, O_NONBLOCK); }

static void send_all(const uint8_t *bytes, size_t len) {
    if (send(link_fd, bytes, len, MSG_NOSIGNAL) != (ssize_t)len)
        exit(1);
}

static void send_plain(uint8_t type, const uint8_t *body, size_t len) {
    uint8_t bytes[64];
    memset(bytes, 255, 16);
    put_number(bytes + 16, (uint32_t)(HEADER + len), 2);
    bytes[18] = type;
    memcpy(bytes + HEADER, body, len);
    send_all(bytes, HEADER + len);
}

/* Reads one message, and answers its type. */
static int read_message(void) {
    uint8_t bytes[MAX_MESSAGE];
    if (recv(link_fd, bytes, HEADER, MSG_WAITALL) != HEADER)
        exit(1);
    ssize_t rest = (bytes[16] << 8 | bytes[17]) - HEADER;
    if (rest > 0 && recv(link_fd, bytes + HEADER, (size_t)rest, MSG_WAITALL) != rest)
        exit(1);
    return bytes[18];
}

/* Opens the session: AS 65001, hold time 180, IPv4 unicast and AS numbers of four bytes. */
static void open_session(uint16_t port) {
    static const uint8_t body[] = {4, 0xFD, 0xE9, 0, 180, 192, 0, 2,    9,    14, 2, 12,
                                   1, 4,    0,    1, 0,   1,   65, 4, 0,    0,  0xFD, 0xE9};
    struct sockaddr_in name = {.sin_family = AF_INET, .sin_port = htons(port), .sin_addr = {htonl(INADDR_LOOPBACK)}};
    int yes = 1;
    link_fd = socket(AF_INET, SOCK_STREAM, 0);
    if (connect(link_fd, (struct sockaddr *)&name, sizeof name) != 0) {
        perror("injector: connect");
        exit(1);
    }
    setsockopt(link_fd, IPPROTO_TCP, TCP_NODELAY, &yes, sizeof yes);
    send_plain(1, body, sizeof body);
    while (read_message() != 4)
        send_plain(4, NULL, 0);
}

static pid_t run_helper(char **words) {
    int in[2], back[2];
    if (pipe(in) != 0 || pipe(back) != 0)
        exit(1);
    pid_t helper = fork();
    if (helper == 0) {
        dup2(in[0], 0);
        dup2(back[1], 1);
        close(in[0]), close(in[1]), close(back[0]), close(back[1]), close(link_fd);
        execv(words[0], words);
        _exit(127);
    }
    close(in[0]), close(back[1]);
    to_helper = in[1];
    from_helper = back[0];
    return helper;
}

/* The message goes to what is sent. */
static void close_message(void) {
    if (message_value == NONE)
        return;
    put_number(message + 16, (uint32_t)message_len, 2);
    memcpy(sending + sending_len, message, message_len);
    sending_len += message_len;
    message_value = NONE;
}

static void open_message(uint32_t value) {
    memset(message, 255, 16);
    message[18] = 2;
    uint8_t *to = put_number(message + HEADER, 0, 2);
    to = put_number(to, pool.values[value].len, 2);
    memcpy(to, pool.bytes + pool.values[value].at, pool.values[value].len);
    message_len = (size_t)(to + pool.values[value].len - message);
    message_value = value;
}

/* Forgets all values once they are many: nothing stands that has them. */
static void forget_values(void) {
    if (pool.count < 1024)
        return;
    close_message();
    memset(pool.slots, 0, pool.room * sizeof *pool.slots);
    pool.count = pool.len = 0;
}

static void announce(const char *line, size_t len) {
    forget_values();
    struct said said = read_line(line, len);
    if (said.fault != 0 || said.value == NONE) {
        is_over |= len == 8 && memcmp(line, "shutdown", 8) == 0;
        put(is_over ? "done\n" : "error\n");
        return;
    }
    size_t size = (size_t)(said.len + 7) / 8;
    if (said.value != message_value || message_len + 1 + size > MAX_MESSAGE) {
        close_message();
        open_message(said.value);
    }
    message[message_len++] = said.len;
    put_number(message + message_len, said.addr >> (32 - 8 * size) % 32, size);
    message_len += size;
    put("done\n");
}

/* Reads lines while what they make finds room. */
static void read_lines(void) {
    static char bytes[MAX_LINE + 65536];
    static size_t len;
    const char *at = bytes, *feed;
    ssize_t count = read(from_helper, bytes + len, 8192);
    is_over |= count == 0;
    len += count > 0 ? (size_t)count : 0;
    while ((feed = memchr(at, '\n', (size_t)(bytes + len - at))) != NULL) {
        announce(at, (size_t)(feed - at));
        at = feed + 1;
    }
    len -= (size_t)(at - bytes);
    memmove(bytes, at, len);
    close_message();
}

/* Writes replies, as many as the pipe takes. */
static void write_replies(void) {
    static size_t wrote;
    ssize_t count = write(to_helper, out.bytes + wrote, out.len - wrote);
    wrote += count > 0 ? (size_t)count : 0;
    if (wrote == out.len)
        wrote = out.len = 0;
}

static void send_some(void) {
    ssize_t count = send(link_fd, sending + sending_at, sending_len - sending_at, MSG_NOSIGNAL);
    sending_at += count > 0 ? (size_t)count : 0;
    if (sending_at == sending_len)
        sending_at = sending_len = 0;
}

static void serve(void) {
    int has_room = out.len < 32768 && sending_len < ROOM / 4;
    struct pollfd looks[] = {{.fd = has_room ? from_helper : -1, .events = POLLIN},
                             {.fd = out.len > 0 ? to_helper : -1, .events = POLLOUT},
                             {.fd = link_fd, .events = sending_len > 0 ? POLLIN | POLLOUT : POLLIN}};
    poll(looks, 3, -1);
    if (looks[0].revents)
        read_lines();
    if (out.len > 0)
        write_replies();
    if (sending_len > 0)
        send_some();
    if (looks[2].revents & POLLIN) {
        uint8_t heard[4096];
        if (recv(link_fd, heard, sizeof heard, 0) == 0)
            exit(1);
    }
}

int main(int argc, char **argv) {
    static const uint8_t shutdown_code[] = {6, 2};
    if (argc < 3) {
        fputs("usage: injector PORT HELPER WORD ..\n", stderr);
        return 2;
    }
    open_session((uint16_t)atoi(argv[1]));
    run_helper(argv + 2);
    set_nonblocking(link_fd);
    set_nonblocking(to_helper);
    while (!is_over)
        serve();
    while (sending_len > 0)
        serve();
    send_plain(3, shutdown_code, sizeof shutdown_code);
    close(to_helper);
    close(from_helper);
    wait(NULL);
    return 0;
}
