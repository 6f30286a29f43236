/* calls WHAT N: makes a call of the library N times in one process, and prints what it answered. `measure` counts its instructions for
 * docs/SPEED.md. It reads the files a.ctx, b.ctx and table of the current folder; checkout.h is what tools/accessors makes of the table. */
#include <stdio.h>
#include <stdlib.h>
#include <string.h>

#include "checkout.h"

typedef struct {
    uint8_t bytes[4096];
    size_t length;
} file;

static file first, second, table;
static const char *text_of_table;
static uint8_t room[16384];
static baggage_place places[64];
static checkout found;

static void read_file(const char *name, file *to) {
    FILE *source = fopen(name, "rb");
    if (!source) {
        perror(name);
        exit(1);
    }
    to->length = fread(to->bytes, 1, sizeof to->bytes, source);
    fclose(source);
}

static baggage_answer check(void) { return baggage_check(first.bytes, first.length); }

static baggage_answer join(void) {
    return baggage_merge(BAGGAGE_FORM_ONE, first.bytes, first.length, second.bytes, second.length, room, sizeof room);
}

static baggage_answer update(void) {
    const baggage_span both[2] = {{first.bytes, first.length}, {second.bytes, second.length}};
    return baggage_update(BAGGAGE_FORM_ONE, text_of_table, table.length, both, 2, "", 0, BAGGAGE_NO_BUDGET, room, sizeof room);
}

static baggage_answer find(void) {
    return baggage_places(text_of_table, table.length, first.bytes, first.length, places, sizeof places / sizeof *places);
}

/* One scalar, read from its place, which was found before. */
static baggage_answer scalar(void) {
    uint32_t id = 0;
    baggage_answer answer = {0};
    if (!checkout_get_id(checkout_at_id(&found), &id))
        answer.status = BAGGAGE_FIELD;
    answer.size = id;
    return answer;
}

static baggage_answer none(void) {
    const baggage_answer answer = {0};
    return answer;
}

static baggage_answer check_table(void) { return baggage_check_table(text_of_table, table.length); }

static baggage_answer read_field(void) {
    return baggage_read_field(text_of_table, table.length, first.bytes, first.length, "id", 2, (char *)room, sizeof room);
}

static baggage_answer write_field(void) {
    return baggage_write_field(BAGGAGE_FORM_ONE, text_of_table, table.length, "id", 2, "7", 1, room, sizeof room);
}

static const struct {
    const char *name;
    baggage_answer (*call)(void);
} CALLS[] = {{"check", check}, {"join", join}, {"update", update}, {"places", find}, {"scalar", scalar}, {"none", none},
             {"table", check_table}, {"read_field", read_field}, {"write_field", write_field}};

int main(int count, char **words) {
    size_t at = 0;
    while (count == 3 && at < sizeof CALLS / sizeof *CALLS && strcmp(CALLS[at].name, words[1]) != 0)
        at++;
    if (count != 3 || at == sizeof CALLS / sizeof *CALLS) {
        fprintf(stderr, "usage: calls check|join|update|places|scalar|none|table|read_field|write_field N\n");
        return 64;
    }
    read_file("a.ctx", &first);
    read_file("b.ctx", &second);
    read_file("table", &table);
    text_of_table = (const char *)table.bytes;
    baggage_answer answer = checkout_find(&found, first.bytes, first.length);
    baggage_answer (*volatile call)(void) = CALLS[at].call;
    for (long left = strtol(words[2], NULL, 10); left > 0 && answer.status == BAGGAGE_OK; left--)
        answer = call();
    if (answer.status != BAGGAGE_OK) {
        fprintf(stderr, "status %u, code %u, context %zu, offset %zu, size %zu\n", answer.status, answer.code, answer.context, answer.offset,
                answer.size);
        return 1;
    }
    printf("%zu.\n", answer.size);
    return 0;
}
