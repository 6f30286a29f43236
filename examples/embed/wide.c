/* wide: contexts that a stranger may send, under the widest tables. What a call costs grows as the context and the table do, and not as their
 * product, so each call has some hundred times the processor time here that it takes. It says nothing where all is well. */
#include <stdio.h>
#include <stdlib.h>
#include <string.h>
#include <time.h>

#include "baggage.h"

enum { FIELDS = 16000, KEYS = 16000, DATA = 200000, SECONDS_MAX = 2 };

static char table[64 * FIELDS];
static uint8_t context[6 * DATA + 8];
static uint8_t room[sizeof context];
static baggage_place places[FIELDS + 1];

/* Writes the lines of taints with the numbers from 0 on, and gives where they end. */
static char *put_taints(char *to, int depth) {
    for (int number = 0; number < FIELDS; number++)
        to += sprintf(to, "%d %d f%d taint\n", depth, number, number);
    return to;
}

/* Writes an atom with its length, and gives where it ends. */
static uint8_t *put_atom(uint8_t *to, size_t length, const uint8_t *atom) {
    *to = (uint8_t)length;
    memcpy(to + 1, atom, length);
    return to + 1 + length;
}

/* A map of bags of many fields, with many keys that have nothing below them. */
static size_t many_keys(void) {
    const uint8_t map[] = {0xf8, 0};
    uint8_t *end = put_atom(context, sizeof map, map);
    put_taints(table + sprintf(table, "baggage table 1\n0 0 m map uint32 bag\n"), 1);
    for (unsigned key = 128; key < 128 + KEYS; key++) {
        const uint8_t header[] = {0xf1, (uint8_t)(0x80 | key >> 8), (uint8_t)key};
        end = put_atom(end, sizeof header, header);
    }
    return (size_t)(end - context);
}

/* Many slots, and many data below the last of them. */
static size_t many_data(void) {
    const uint8_t last[] = {0xf8, (uint8_t)(0x80 | FIELDS >> 8), (uint8_t)FIELDS};
    uint8_t *end = put_atom(context, sizeof last, last);
    sprintf(put_taints(table + sprintf(table, "baggage table 1\n"), 0), "0 %d last set string\n", FIELDS);
    for (unsigned number = 0; number < DATA; number++) {
        const uint8_t datum[] = {0, (uint8_t)('a' + number / 17576), (uint8_t)('a' + number / 676 % 26), (uint8_t)('a' + number / 26 % 26),
                                 (uint8_t)('a' + number % 26)};
        end = put_atom(end, sizeof datum, datum);
    }
    return (size_t)(end - context);
}

/* Whether a call was done in time. */
static int is_well(const char *what, baggage_answer answer, size_t wanted, clock_t since) {
    const double seconds = (double)(clock() - since) / CLOCKS_PER_SEC;
    if (answer.status == BAGGAGE_OK && answer.size == wanted && seconds < SECONDS_MAX)
        return 1;
    fprintf(stderr, "wide.c: %s: status %u, size %zu, %.2f s of a processor\n", what, answer.status, answer.size, seconds);
    return 0;
}

static int are_placed(const char *what, size_t length, size_t slots) {
    const clock_t since = clock();
    return is_well(what, baggage_places(table, strlen(table), context, length, places, FIELDS + 1), slots, since);
}

static int is_updated(const char *what, size_t length) {
    const baggage_span input = {context, length};
    const clock_t since = clock();
    return is_well(what, baggage_update(BAGGAGE_FORM_ONE, table, strlen(table), &input, 1, "", 0, BAGGAGE_NO_BUDGET, room, sizeof room), length, since);
}

int main(void) {
    size_t length = many_keys();
    if (!are_placed("places of many keys", length, 1) || !is_updated("an update of many keys", length))
        return 1;
    length = many_data();
    return !are_placed("places of many data", length, FIELDS + 1) || !is_updated("an update of many data", length);
}
