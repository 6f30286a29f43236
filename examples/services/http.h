/* As much of HTTP as the proxy and the partner need: heads of messages over the loopback, one message each way a connection. Strangers may connect
 * too, so a head has limits of length, of lines and of time, and a socket or a thread that can't be had ends nothing. */
#ifndef HTTP_H
#define HTTP_H

#include <arpa/inet.h>
#include <errno.h>
#include <poll.h>
#include <stdio.h>
#include <stdlib.h>
#include <string.h>
#include <strings.h>
#include <sys/socket.h>
#include <time.h>
#include <unistd.h>

#include "baggage_carriers.h"

#define STEP "Terncommode-Step"

/* A head that has more bytes or more lines isn't read, and a header that has more values counts as lost. */
enum { HEAD_MAX = 65536, LINES_MAX = 100, VALUES_MAX = 16 };

/* A step's name has fewer letters, and the header that carries it nine more. */
enum { NAME_MAX_LEN = 64, CHECK_LEN = 8 };

/* What came of a head: nothing, so that nothing was said; a part; one that is refused, as it is too long or isn't made of headers; or all of it. */
typedef enum arrival { NOTHING_CAME, PART_CAME, REFUSED, HEAD_CAME } arrival;

typedef struct head {
    char text[HEAD_MAX];
    size_t length;
} head;

/* ---- time */

/* For how long a peer is waited for. */
static inline int wait_seconds(void) {
    const char *text = getenv("WAIT_SECONDS");
    return text && atoi(text) > 0 ? atoi(text) : 10;
}

/* Milliseconds of a clock that only goes on. */
static inline long long now(void) {
    struct timespec time;
    clock_gettime(CLOCK_MONOTONIC, &time);
    return time.tv_sec * 1000LL + time.tv_nsec / 1000000;
}

/* Whether a byte, or the end, can be read before that time. */
static inline int is_readable(int connection, long long until) {
    struct pollfd waits = {connection, POLLIN, 0};
    long long left = until - now();
    return left > 0 && poll(&waits, 1, (int)left) == 1;
}

/* A pause after which what there was too little of may be there again. */
static inline void pause_for_others(void) {
    const struct timespec pause = {0, 50000000};
    nanosleep(&pause, NULL);
}

/* ---- heads */

/* Whether a line is a header: a name without blanks, and a colon. */
static inline int is_header(const char *line, const char *end) {
    const char *at = line;
    while (at < end && *at > ' ' && *at != ':')
        at++;
    return at > line && at < end && *at == ':';
}

/* Whether a whole head can be read: each line after the first is a header, also none goes on with the one before it, and they aren't too many. */
static inline int is_plain(const head *it) {
    const char *end = it->text + it->length, *at = (const char *)memmem(it->text, it->length, "\r\n", 2) + 2, *next;
    int lines = 0;
    for (; (next = (const char *)memmem(at, (size_t)(end - at), "\r\n", 2)) && next != at; at = next + 2)
        if (++lines > LINES_MAX || !is_header(at, next))
            return 0;
    return 1;
}

/* Reads a head up to its empty line. */
static inline arrival read_head(int connection, head *it) {
    const long long until = now() + 1000LL * wait_seconds();
    for (it->length = 0; it->length < HEAD_MAX;) {
        const size_t from = it->length < 3 ? 0 : it->length - 3;
        const ssize_t count = is_readable(connection, until) ? recv(connection, it->text + it->length, HEAD_MAX - it->length, 0) : -1;
        if (count <= 0)
            return it->length ? PART_CAME : NOTHING_CAME;
        it->length += (size_t)count;
        if (memmem(it->text + from, it->length - from, "\r\n\r\n", 4))
            return is_plain(it) ? HEAD_CAME : REFUSED;
    }
    return REFUSED;
}

/* The values of a header, one for each of its lines; more than VALUES_MAX are counted and not kept. It gives their number. */
static inline size_t header_values(const head *it, const char *name, baggage_span values[VALUES_MAX]) {
    const char *at = it->text, *end = it->text + it->length, *next;
    size_t name_len = strlen(name), count = 0;
    for (; (next = (const char *)memmem(at, (size_t)(end - at), "\r\n", 2)) && next != at; at = next + 2) {
        const char *value = at + name_len + 1, *last = next;
        if ((size_t)(next - at) <= name_len || at[name_len] != ':' || strncasecmp(at, name, name_len) != 0)
            continue;
        while (value < last && (*value == ' ' || *value == '\t'))
            value++;
        while (value < last && (last[-1] == ' ' || last[-1] == '\t'))
            last--;
        if (count < VALUES_MAX) {
            values[count].bytes = (const uint8_t *)value;
            values[count].length = (size_t)(last - value);
        }
        count++;
    }
    return count;
}

/* ---- names of steps: NAME:CHECK, so that a name which was cut or changed on the way names no step */

/* The sum of a name's bytes: FNV-1a of 32 bits. */
static inline unsigned name_sum(const char *name, size_t length) {
    uint32_t sum = 2166136261u;
    size_t k;
    for (k = 0; k < length; k++)
        sum = (sum ^ (unsigned char)name[k]) * 16777619u;
    return sum;
}

/* The name of the sender's step; "-" where the message names none. */
static inline void read_sender(const head *message, char sender[NAME_MAX_LEN]) {
    static const char letters[] = "ABCDEFGHIJKLMNOPQRSTUVWXYZabcdefghijklmnopqrstuvwxyz0123456789_.-";
    baggage_span values[VALUES_MAX];
    char check[CHECK_LEN + 2];
    size_t length;
    strcpy(sender, "-");
    if (header_values(message, STEP, values) != 1 || values[0].length <= CHECK_LEN + 1)
        return;
    length = values[0].length - CHECK_LEN - 1;
    snprintf(check, sizeof check, ":%08x", name_sum((const char *)values[0].bytes, length));
    if (length >= NAME_MAX_LEN || memcmp(values[0].bytes + length, check, CHECK_LEN + 1) != 0)
        return;
    memcpy(sender, values[0].bytes, length);
    sender[length] = 0;
    if (strspn(sender, letters) != length)
        strcpy(sender, "-");
}

/* Whether what came is what a step sent: one context, and the name of the step. */
static inline int is_sent(const char *sender, const baggage_span *values, size_t count) {
    return strcmp(sender, "-") && count == 1 && !memchr(values[0].bytes, ',', values[0].length);
}

/* The name of a service that was started now: eight letters that nobody can foretell follow its own, so no stranger names a step to come. */
static inline void name_instance(char instance[NAME_MAX_LEN / 2], const char *service) {
    static const char letters[] = "abcdefghijklmnopqrstuvwxyz234567";
    unsigned char drawn[8];
    size_t k, length = (size_t)snprintf(instance, NAME_MAX_LEN / 2 - sizeof drawn, "%s-", service);
    if (getentropy(drawn, sizeof drawn)) {
        perror("getentropy");
        exit(1);
    }
    for (k = 0; k < sizeof drawn; k++)
        instance[length++] = letters[drawn[k] & 31];
    instance[length] = 0;
}

/* ---- connections */

/* Sends all of it; a peer that is gone is no error of ours. */
static inline void send_all(int connection, const char *text, size_t length) {
    while (length) {
        ssize_t count = send(connection, text, length, MSG_NOSIGNAL);
        if (count <= 0)
            return;
        text += count;
        length -= (size_t)count;
    }
}

/* Says that the head is too long. What still comes is read for a second, since a socket that is closed with unread bytes takes the answer along. */
static inline void refuse_head(int connection) {
    static const char reply[] = "HTTP/1.1 431 Request Header Fields Too Large\r\nContent-Length: 0\r\nConnection: close\r\n\r\n";
    const long long until = now() + 1000;
    char rest[4096];
    send_all(connection, reply, sizeof reply - 1);
    shutdown(connection, SHUT_WR);
    while (is_readable(connection, until) && recv(connection, rest, sizeof rest, 0) > 0)
        continue;
}

static inline struct sockaddr_in loopback(int port) {
    struct sockaddr_in address;
    memset(&address, 0, sizeof address);
    address.sin_family = AF_INET;
    address.sin_addr.s_addr = htonl(INADDR_LOOPBACK);
    address.sin_port = htons((uint16_t)port);
    return address;
}

/* A socket that listens on a free port, which is printed. */
static inline int listen_and_tell(void) {
    struct sockaddr_in address = loopback(0);
    socklen_t length = sizeof address;
    int listener = socket(AF_INET, SOCK_STREAM, 0);
    if (listener < 0 || bind(listener, (struct sockaddr *)&address, sizeof address) || listen(listener, 64) ||
        getsockname(listener, (struct sockaddr *)&address, &length)) {
        perror("listen");
        exit(1);
    }
    printf("%d\n", ntohs(address.sin_port));
    fflush(stdout);
    return listener;
}

/* Nobody is sent to for longer than a peer is waited for. */
static inline void limit_sending(int connection) {
    struct timeval limit = {wait_seconds(), 0};
    setsockopt(connection, SOL_SOCKET, SO_SNDTIMEO, &limit, sizeof limit);
}

/* The next connection of a client. Where no descriptor is left for it, it waits until there is one. */
static inline int accept_next(int listener) {
    int connection;
    while ((connection = accept(listener, NULL, NULL)) < 0)
        if (errno != EINTR && errno != ECONNABORTED)
            pause_for_others();
    limit_sending(connection);
    return connection;
}

/* A connection to a port; -1 where there is none. */
static inline int connect_to(int port) {
    struct sockaddr_in address = loopback(port);
    int connection = socket(AF_INET, SOCK_STREAM, 0);
    if (connection < 0)
        return -1;
    limit_sending(connection);
    if (!connect(connection, (struct sockaddr *)&address, sizeof address))
        return connection;
    close(connection);
    return -1;
}

#endif
