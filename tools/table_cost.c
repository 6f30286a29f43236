/* One call of the library under a table of so many fields, made so many times; tools/table_cost counts its instructions.
 *
 * usage: table_cost CALL FIELDS TIMES
 *
 * The fields are scalars, counters and sets in turn. The context has two of them, the first one and a counter in the middle. */
#include <baggage.h>
#include <stdio.h>
#include <stdlib.h>
#include <string.h>

enum { MOST = 1000 };

static char table[40 * MOST];
static size_t table_len, fields;
static uint8_t context[256], room[512];
static size_t context_len;
static char writes[64], name[16];
static baggage_place places[MOST];

static baggage_answer check_table(void) { return baggage_check_table(table, table_len); }

static baggage_answer step(const char *lines, const uint8_t *bytes, size_t length, uint8_t *out, size_t out_len) {
    const baggage_span input = {bytes, length};
    return baggage_update(BAGGAGE_FORM_ONE, table, table_len, &input, length > 0, lines, strlen(lines), BAGGAGE_NO_BUDGET, out, out_len);
}

static baggage_answer update(void) { return step(writes, context, context_len, room, sizeof room); }

static baggage_answer all_places(void) { return baggage_places(table, table_len, context, context_len, places, MOST); }

#ifdef CHOSEN
static baggage_answer chosen_places(void) {
    const size_t chosen[3] = {0, fields / 6 * 3 + 1, fields - 1};
    return baggage_chosen_places(table, table_len, chosen, 3, context, context_len, places, 3);
}
#endif

static baggage_answer read_field(void) {
    return baggage_read_field(table, table_len, context, context_len, name, strlen(name), (char *)room, sizeof room);
}

static baggage_answer none(void) {
    const baggage_answer answer = {0};
    return answer;
}

static const struct {
    const char *name;
    baggage_answer (*call)(void);
} CALLS[] = {{"none", none},     {"check_table", check_table}, {"update", update}, {"places", all_places},
#ifdef CHOSEN
             {"chosen_places", chosen_places},
#endif
             {"read_field", read_field}};

/* The table, and the context of the two fields. */
static int begin(void) {
    static const char *const kinds[3] = {"scalar uint32", "counter", "set string"};
    char first[64];
    size_t at, middle = fields / 6 * 3 + 1;
    baggage_answer answer;
    table_len = (size_t)sprintf(table, "baggage table 1\n");
    for (at = 0; at < fields; at++)
        table_len += (size_t)sprintf(table + table_len, "0 %zu f%zu %s\n", at, at, kinds[at % 3]);
    sprintf(name, "f%zu", middle);
    sprintf(first, "f0 7\n%s \"w\":3\n", name);
    sprintf(writes, "f0 8\n%s \"v\":4\n", name);
    answer = step(first, NULL, 0, context, sizeof context);
    context_len = answer.size;
    return answer.status == BAGGAGE_OK;
}

int main(int argc, char **argv) {
    long times = argc == 4 ? strtol(argv[3], NULL, 10) : 0;
    size_t at;
    fields = argc == 4 ? (size_t)strtoul(argv[2], NULL, 10) : 0;
    if (fields < 5 || fields > MOST || !begin())
        return 64;
    for (at = 0; at < sizeof CALLS / sizeof *CALLS; at++)
        if (!strcmp(CALLS[at].name, argv[1])) {
            for (; times > 0; times--)
                if (CALLS[at].call().status != BAGGAGE_OK)
                    return 1;
            return 0;
        }
    return 64;
}
