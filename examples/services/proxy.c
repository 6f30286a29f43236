/* The proxy of the shop. It knows no type: it hands a context to the cart and to pricing beside one another, merges what comes back, sends the
 * partner a copy that is cut to 64 bytes, and answers with the whole.
 *
 *     proxy CART PRICING PARTNER     serves on a free port, which it prints; each word is a port
 *
 * RECORDING names the folder for the log; without it nothing is recorded. WAIT_SECONDS says how long a peer is waited for, 10 where it isn't set. */
#define _GNU_SOURCE
#include <fcntl.h>
#include <pthread.h>
#include <stdatomic.h>

#include "http.h"

enum { CONTEXT_MAX = BAGGAGE_EXTRACT_ROOM(HEAD_MAX), PARTNER_BUDGET = 64, LETTERS_OF_CHECK = 6 };

/* A context, and the name of the step that made it; the name is empty where nothing is recorded. */
typedef struct step {
    char name[NAME_MAX_LEN];
    uint8_t bytes[CONTEXT_MAX];
    size_t size;
} step;

/* A message that came, with the check of the context in it. */
typedef struct message {
    head head;
    char check[LETTERS_OF_CHECK + 1];
} message;

static int ports[3]; /* cart, pricing, partner */

/* ---- recording */

static char instance[NAME_MAX_LEN / 2];
static pthread_mutex_t log_lock = PTHREAD_MUTEX_INITIALIZER;
static int log_file = -1;

/* Opens the log, which its owner alone can read: it has contexts whole. */
static void open_log(const char *folder) {
    char path[4096];
    name_instance(instance, "proxy");
    if (!folder)
        return;
    snprintf(path, sizeof path, "%s/%s.log", folder, instance);
    log_file = open(path, O_WRONLY | O_APPEND | O_CREAT | O_CLOEXEC, 0600);
    if (log_file < 0)
        perror("proxy: nothing is recorded");
}

/* Appends a line; 0 where nothing is recorded. A line that can't be written whole is the last one: the service goes on without its log. */
static int append(const char *line, size_t length) {
    int is_recorded;
    pthread_mutex_lock(&log_lock);
    if (log_file >= 0 && write(log_file, line, length) != (ssize_t)length) {
        fputs("proxy: the log can't be written, and nothing more is recorded\n", stderr);
        close(log_file);
        log_file = -1;
    }
    is_recorded = log_file >= 0;
    pthread_mutex_unlock(&log_lock);
    return is_recorded;
}

static char *put_bytes(char *out, const uint8_t *bytes, size_t length) {
    size_t k;
    if (!length)
        *out++ = '-';
    for (k = 0; k < length; k++)
        out += sprintf(out, "%02x", bytes[k]);
    return out;
}

/* Names a step and records it. Where `came` is given, it is the context that came over the wire. */
static void record(step *it, const char *act, const char *parents, const char *rest, const step *came) {
    static atomic_ulong number;
    char line[4 * CONTEXT_MAX + 4 * NAME_MAX_LEN], *out = line;
    snprintf(it->name, sizeof it->name, "%s.%lu", instance, atomic_fetch_add(&number, 1) + 1);
    out += sprintf(out, "%s\t%s\t%s\t%s", it->name, act, parents, rest);
    if (came)
        out = put_bytes(out, came->bytes, came->size);
    *out++ = '\t';
    out = put_bytes(out, it->bytes, it->size);
    *out++ = '\n';
    if (!append(line, (size_t)(out - line)))
        it->name[0] = 0;
}

/* ---- steps */

/* What was promised didn't come, or can't be read: it is recorded as something from outside. */
static void lose(step *it, const char *sender) {
    it->bytes[0] = 0;
    it->size = 1;
    record(it, "recv", sender, "", it);
}

/* The context that a head brings stays as it is, since nothing is known here. Where it can't be read it is lost. */
static void receive(step *it, const head *from) {
    baggage_span values[VALUES_MAX];
    char sender[NAME_MAX_LEN];
    size_t count = header_values(from, BAGGAGE_HEADER, values);
    it->size = baggage_extract(it->bytes, values, count > VALUES_MAX ? 0 : count, BAGGAGE_ABSENT_LOST, NULL);
    read_sender(from, sender);
    record(it, is_sent(sender, values, count) && (it->size != 1 || it->bytes[0]) ? "forward" : "recv", sender, "", it);
}

/* The merge of what came together here. */
static void join(step *it, const step *const *parts, size_t count) {
    baggage_span inputs[2];
    baggage_answer answer;
    char parents[2 * NAME_MAX_LEN] = "";
    size_t k;
    for (k = 0; k < count; k++) {
        inputs[k].bytes = parts[k]->bytes;
        inputs[k].length = parts[k]->size;
        strcat(strcat(parents, k ? " " : ""), parts[k]->name);
    }
    answer = baggage_join(BAGGAGE_FORM_ONE, inputs, count, BAGGAGE_NO_BUDGET, it->bytes, sizeof it->bytes);
    if (answer.status != BAGGAGE_OK) { /* together they are too long: all is lost */
        lose(it, "-");
        return;
    }
    it->size = answer.size;
    record(it, "join", parents, "-", NULL);
}

static void cut(step *it, const step *whole, uint64_t budget) {
    char rest[32];
    baggage_answer answer = baggage_trim(BAGGAGE_FORM_ONE, whole->bytes, whole->size, budget, it->bytes, sizeof it->bytes);
    if (answer.status != BAGGAGE_OK)
        abort(); /* it is a context, and the room is as long as any */
    it->size = answer.size;
    snprintf(rest, sizeof rest, "%u", (unsigned)budget);
    record(it, "trim", whole->name, rest, NULL);
}

/* What is sent over a channel with a budget: the step itself where it fits, else a cut of it in `room`. */
static const step *within(step *room, const step *whole, uint64_t budget) {
    if (whole->size <= budget)
        return whole;
    cut(room, whole, budget);
    return room;
}

/* ---- messages */

/* Sends a first line with further headers, and the context with the name of its step. It gives the check of what is sent. */
static void send_step(int connection, const char *first_lines, const step *it, char check[LETTERS_OF_CHECK + 1]) {
    char value[2 * BAGGAGE_REQUEST_BUDGET], text[sizeof value + 1024], name[2 * NAME_MAX_LEN] = "";
    size_t letters = baggage_to_header(value, it->bytes, it->size);
    int length;
    memcpy(check, value + letters - LETTERS_OF_CHECK, LETTERS_OF_CHECK);
    check[LETTERS_OF_CHECK] = 0;
    if (it->name[0])
        snprintf(name, sizeof name, "%s: %s:%08x\r\n", STEP, it->name, name_sum(it->name, strlen(it->name)));
    length = snprintf(text, sizeof text, "%s\r\nHost: localhost\r\nContent-Length: 0\r\nConnection: close\r\n%s: %.*s\r\n%s\r\n", first_lines,
                      BAGGAGE_HEADER, (int)letters, value, name);
    send_all(connection, text, (size_t)length);
}

/* Answers. Of which request it is the answer stands beside the context, and no shared cache is to keep that unasked. */
static void send_reply(int connection, const message *request, const step *whole, step *room) {
    char lines[256], check[LETTERS_OF_CHECK + 1];
    const char *answers = request->check[0] ? "\r\n" BAGGAGE_FOR_HEADER ": " : "";
    snprintf(lines, sizeof lines, "HTTP/1.1 200 OK\r\nCache-Control: %s%s%s", BAGGAGE_NO_CACHE, answers, request->check);
    send_step(connection, lines, within(room, whole, BAGGAGE_REPLY_BUDGET), check);
}

/* Whether a reply is the answer to what was sent with this check. */
static int is_answer(const head *reply, const char *check) {
    baggage_span values[VALUES_MAX];
    return header_values(reply, BAGGAGE_FOR_HEADER, values) == 1 && values[0].length == LETTERS_OF_CHECK && !memcmp(values[0].bytes, check, LETTERS_OF_CHECK);
}

/* Asks another service, and waits for the head of its reply. */
static arrival ask(int port, const step *it, head *reply, char check[LETTERS_OF_CHECK + 1]) {
    int connection = connect_to(port);
    arrival came;
    if (connection < 0)
        return NOTHING_CAME;
    send_step(connection, "GET / HTTP/1.1", it, check);
    came = read_head(connection, reply);
    close(connection);
    return came;
}

/* One of the two that are asked beside one another. */
typedef struct branch {
    int port;
    arrival came;
    const step *sent;
    step reply;
} branch;

/* A reply of which a byte came, and which can't be read or answers another request, is lost. */
static void *ask_branch(void *argument) {
    branch *it = (branch *)argument;
    char check[LETTERS_OF_CHECK + 1], sender[NAME_MAX_LEN] = "-";
    head reply;
    it->came = ask(it->port, it->sent, &reply, check);
    if (it->came == HEAD_CAME)
        read_sender(&reply, sender);
    if (it->came == HEAD_CAME && is_answer(&reply, check))
        receive(&it->reply, &reply);
    else if (it->came != NOTHING_CAME)
        lose(&it->reply, sender);
    return NULL;
}

/* What both say, or what was sent where nothing comes of either. */
static const step *ask_both(step *room, const step *sent) {
    branch branches[2];
    const step *replies[2];
    pthread_t other;
    size_t k, count = 0;
    for (k = 0; k < 2; k++) {
        branches[k].port = ports[k];
        branches[k].sent = sent;
    }
    int is_alone = pthread_create(&other, NULL, ask_branch, &branches[1]);
    ask_branch(&branches[0]);
    if (is_alone) /* there is no thread, so one is asked after the other */
        ask_branch(&branches[1]);
    else
        pthread_join(other, NULL);
    for (k = 0; k < 2; k++)
        if (branches[k].came != NOTHING_CAME)
            replies[count++] = &branches[k].reply;
    if (!count)
        return sent;
    join(room, replies, count);
    return room;
}

/* The check of the context that came, which the answer says. */
static void read_check(message *it) {
    baggage_span values[VALUES_MAX];
    size_t count = header_values(&it->head, BAGGAGE_HEADER, values);
    const char *check = count ? baggage_check_of((const char *)values[0].bytes, values[0].length) : NULL;
    memset(it->check, 0, sizeof it->check);
    if (check)
        memcpy(it->check, check, LETTERS_OF_CHECK);
}

/* A request's life here. */
static void answer(int connection, const message *request) {
    step received, room, joined, copy;
    head reply;
    char check[LETTERS_OF_CHECK + 1];
    const step *whole;
    receive(&received, &request->head);
    whole = ask_both(&joined, within(&room, &received, BAGGAGE_REQUEST_BUDGET));
    cut(&copy, whole, PARTNER_BUDGET);
    ask(ports[2], &copy, &reply, check); /* the partner has nothing to say */
    send_reply(connection, request, whole, &room);
}

static void *serve(void *argument) {
    int connection = (int)(intptr_t)argument;
    message request;
    arrival came = read_head(connection, &request.head);
    if (came == HEAD_CAME) {
        read_check(&request);
        answer(connection, &request);
    } else if (came == REFUSED) {
        refuse_head(connection);
    }
    close(connection);
    return NULL;
}

int main(int argc, char **argv) {
    int listener, k;
    if (argc != 4) {
        fputs("usage: proxy CART PRICING PARTNER\n", stderr);
        return 64;
    }
    for (k = 0; k < 3; k++)
        ports[k] = atoi(argv[k + 1]);
    open_log(getenv("RECORDING"));
    for (listener = listen_and_tell();;) {
        pthread_t thread;
        int connection = accept_next(listener);
        if (!pthread_create(&thread, NULL, serve, (void *)(intptr_t)connection)) {
            pthread_detach(thread);
            continue;
        }
        close(connection); /* there is no thread for it */
        pause_for_others();
    }
}
