/* Check, merge, trim and forward take no memory: they are run under a malloc that ends the program. Linked with
 * -Wl,--wrap=malloc,--wrap=realloc. That the trap works is shown by an update, which takes some. It says nothing where all is well. */
#include <setjmp.h>
#include <stdio.h>
#include <string.h>

#include "baggage.h"

static jmp_buf taken;

void *__wrap_malloc(size_t size) {
    (void)size;
    longjmp(taken, 1);
}

void *__wrap_realloc(void *old, size_t size) {
    (void)old;
    (void)size;
    longjmp(taken, 1);
}

static const uint8_t FIRST[] = {2, 0xf8, 1, 2, 0x00, 'a'};
static const uint8_t SECOND[] = {2, 0xf8, 1, 2, 0x00, 'b'};
static const uint8_t WIDE[] = {0xff, 0xff, 0xff, 2, 0, 0, 0, 0, 0, 0, 0, 5, 2, 0xf8, 0, 1, 0};

/* The calls that take none, in both forms, done and refused. */
static int calls(void) {
    uint8_t room[64];
    int done = 0;
    for (uint32_t form = BAGGAGE_FORM_ONE; form <= BAGGAGE_FORM_TWO; form++) {
        done += baggage_check(FIRST, sizeof FIRST).status == BAGGAGE_OK;
        done += baggage_check(WIDE, sizeof WIDE).status == BAGGAGE_OK;
        done += baggage_check(FIRST, sizeof FIRST - 1).status == BAGGAGE_FAULT;
        done += baggage_merge(form, FIRST, sizeof FIRST, SECOND, sizeof SECOND, room, sizeof room).status == BAGGAGE_OK;
        done += baggage_merge(form, FIRST, sizeof FIRST, WIDE, sizeof WIDE, room, sizeof room).status == BAGGAGE_OK;
        done += baggage_merge(form, FIRST, sizeof FIRST, SECOND, sizeof SECOND, room, 1).status == BAGGAGE_ROOM;
        done += baggage_merge(form, FIRST, 4, SECOND, sizeof SECOND, room, sizeof room).status == BAGGAGE_FAULT;
        done += baggage_trim(form, WIDE, sizeof WIDE, 14, room, sizeof room).status == BAGGAGE_OK;
        done += baggage_forward(form, FIRST, sizeof FIRST, SECOND, sizeof SECOND, 20, room, sizeof room).status == BAGGAGE_OK;
        done += baggage_merge_many(form, NULL, 0, room, sizeof room).status == BAGGAGE_OK;
    }
    return done;
}

int main(void) {
    if (setjmp(taken)) {
        fprintf(stderr, "no_memory.c: a call took memory\n");
        return 1;
    }
    if (calls() != 20) {
        fprintf(stderr, "no_memory.c: a call answered otherwise\n");
        return 1;
    }
    if (setjmp(taken))
        return 0;
    uint8_t room[64];
    const char table[] = "baggage table 1\n0 0 id scalar fixed32\n";
    baggage_answer answer = baggage_update(BAGGAGE_FORM_ONE, table, sizeof table - 1, NULL, 0, NULL, 0, BAGGAGE_NO_BUDGET, room, sizeof room);
    fprintf(stderr, "no_memory.c: an update took no memory, status %u\n", answer.status);
    return 1;
}
