/* A request's life in a service, each step a call of its own: what came is received, fields are set one by one, a copy goes out to each of three
 * branches, what came back is received and then joined, and the whole is cut to the channel's budget. Of the third branch a byte came and no more:
 * what it said is lost, so afterwards no field that it may have written is exact. Error handling is shown once, in `done`. It says nothing where all
 * is well. */
#include <stdio.h>
#include <string.h>

#include "baggage.h"

/* What `baggage table examples/checkout.bdl Checkout` prints, but for the fields that this service doesn't know: its excerpt. */
#define TABLE "baggage table 1\n0 1 tags set string\n0 2 hops counter\n"

enum { ROOM = 512, BUDGET = 256, TEXT = 256 };

typedef struct {
    uint8_t bytes[ROOM];
    size_t length;
} context;

static const context lost = {{0}, 1}; /* BAGGAGE_LOST */

/* Takes an answer in: the length of what was written, or a line on standard error and the context that says that all may be missing. */
static int done(baggage_answer answer, context *made) {
    char why[96];
    if (answer.status == BAGGAGE_OK) {
        made->length = answer.size;
        return 1;
    }
    baggage_describe(&answer, why, sizeof why);
    fprintf(stderr, "request.c: %s\n", why);
    *made = lost;
    return 0;
}

static int update(const context *in, size_t count, const char *writes, context *out) {
    baggage_span spans[4];
    for (size_t i = 0; i < count; i++)
        spans[i] = (baggage_span){in[i].bytes, in[i].length};
    return done(baggage_update(BAGGAGE_FORM_ONE, TABLE, sizeof TABLE - 1, spans, count, writes, strlen(writes), BAGGAGE_NO_BUDGET, out->bytes, ROOM), out);
}

/* ---- the steps */

static int receive(const context *came, context *here) { return update(came, 1, "", here); }

static int set(context *here, const char *write) {
    const context before = *here;
    return update(&before, 1, write, here);
}

static int join(const context *parts, size_t count, context *all) { return update(parts, count, "", all); }

static int cut(const context *all, context *sent) {
    return done(baggage_trim(BAGGAGE_FORM_ONE, all->bytes, all->length, BUDGET, sent->bytes, ROOM), sent);
}

/* ---- counting: a writer is one visit of one service, eight bytes from the system, and no two branches share it; it says its count so far */

typedef struct {
    char writer[19]; /* 0x and sixteen digits */
    unsigned total;
} visit;

static int begin(visit *it) {
    unsigned char drawn[8];
    FILE *random = fopen("/dev/urandom", "rb");
    size_t count = random ? fread(drawn, 1, sizeof drawn, random) : 0;
    if (random)
        fclose(random);
    strcpy(it->writer, "0x");
    for (size_t i = 0; i < count; i++)
        snprintf(it->writer + 2 + 2 * i, 3, "%02x", drawn[i]);
    it->total = 0;
    return count == sizeof drawn;
}

static int count_hops(visit *it, unsigned more, context *here) {
    char write[64];
    it->total += more;
    snprintf(write, sizeof write, "hops %s:%u\n", it->writer, it->total);
    return set(here, write);
}

/* What a service that this one calls does with what it receives. */
static int remote(const context *request, unsigned hops, const char *write, context *reply) {
    visit here;
    return begin(&here) && receive(request, reply) && count_hops(&here, hops, reply) && set(reply, write);
}

static int reads(const context *it, const char *path, uint32_t state, const char *begins) {
    char text[TEXT];
    baggage_answer read = baggage_read_field(TABLE, sizeof TABLE - 1, it->bytes, it->length, path, strlen(path), text, sizeof text);
    return read.status == BAGGAGE_OK && read.code == state && read.size >= strlen(begins) && memcmp(text, begins, strlen(begins)) == 0;
}

int main(void) {
    /* The bytes of a header or a message, from whoever called: id 7, which this service doesn't know and hands on untouched. */
    const context came = {{2, 0xf8, 0, 5, 0, 0, 0, 0, 7}, 9};
    context own, replies[2], parts[3], all, sent;
    visit here;

    /* Received, and a tag and a count of our own. */
    int fine = begin(&here) && receive(&came, &own) && set(&own, "tags \"coupon\"\n") && count_hops(&here, 1, &own);

    /* A copy goes to each branch. What comes back is received, and joined with our own: nothing is lost, whatever the order. */
    fine = fine && remote(&own, 2, "tags \"fresh\"\n", &replies[0]) && remote(&own, 4, "tags \"sale\"\n", &replies[1]);
    parts[0] = own;
    fine = fine && receive(&replies[0], &parts[1]) && receive(&replies[1], &parts[2]) && join(parts, 3, &all);
    fine = fine && count_hops(&here, 1, &all) && cut(&all, &sent);
    fine = fine && reads(&sent, "hops", BAGGAGE_EXACT, "8{") && reads(&sent, "tags", BAGGAGE_EXACT, "{\"coupon\",\"fresh\",\"sale\"}");

    /* Of the third branch the head of a reply began to come, and broke off. Had nothing come, there would be nothing to join. */
    parts[0] = all;
    fine = fine && receive(&lost, &parts[1]) && join(parts, 2, &all);
    fine = fine && reads(&all, "hops", BAGGAGE_PARTIAL, "8{") && reads(&all, "tags", BAGGAGE_PARTIAL, "{\"coupon\",\"fresh\",\"sale\"}");
    return fine ? 0 : 1;
}
