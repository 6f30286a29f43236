/* growth [N]: N updates of one context (10,000 where N isn't said), as a service makes them that counts requests. Neither what a call takes of memory nor the
 * context grows with their number. Linked with -Wl,--wrap=malloc,--wrap=realloc,--wrap=free. It says nothing where all is well. */
#include <stdio.h>
#include <stdlib.h>
#include <string.h>

#include "baggage.h"

static const char TABLE[] = "baggage table 1\n0 0 id scalar fixed32\n0 1 tags set string\n0 2 hops counter\n";

/* Blocks that are taken and not given back, and how many bytes this call has asked for. */
static long held;
static size_t asked;

void *__real_malloc(size_t size);
void *__real_realloc(void *old, size_t size);
void __real_free(void *old);

void *__wrap_malloc(size_t size) {
    held++;
    asked += size;
    return __real_malloc(size);
}

void *__wrap_realloc(void *old, size_t size) {
    held += !old;
    asked += size;
    return __real_realloc(old, size);
}

void __wrap_free(void *old) {
    held -= old != NULL;
    __real_free(old);
}

/* One update of the context in place: a tag, and the count so far. */
static int step(uint8_t *context, size_t *length, size_t room, long count) {
    char writes[64];
    uint8_t made[256];
    int written = snprintf(writes, sizeof writes, "tags \"spring\"\nhops \"cart\":%ld\n", count);
    const baggage_span input = {context, *length};
    asked = 0;
    baggage_answer answer =
        baggage_update(BAGGAGE_FORM_ONE, TABLE, sizeof TABLE - 1, &input, 1, writes, (size_t)written, BAGGAGE_NO_BUDGET, made, sizeof made);
    if (answer.status != BAGGAGE_OK || answer.size > room) {
        fprintf(stderr, "growth.c: update %ld: status %u, size %zu\n", count, answer.status, answer.size);
        return 0;
    }
    memcpy(context, made, answer.size);
    *length = answer.size;
    return 1;
}

int main(int words, char **word) {
    const long times = words > 1 ? strtol(word[1], NULL, 10) : 10000;
    uint8_t context[64];
    size_t length = 0, early = 0;
    for (long count = 1; count <= times; count++) {
        if (!step(context, &length, sizeof context, count))
            return 1;
        if (held != 0) {
            fprintf(stderr, "growth.c: update %ld has kept %ld blocks\n", count, held);
            return 1;
        }
        early = count <= 200 && asked > early ? asked : early;
        if (asked > early + early / 8) {
            fprintf(stderr, "growth.c: update %ld asked for %zu bytes, and the first ones for %zu\n", count, asked, early);
            return 1;
        }
    }
    return 0;
}
