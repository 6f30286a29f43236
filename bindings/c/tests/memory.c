/* Each request of memory of each call is refused in turn. It is linked with --wrap=malloc, --wrap=realloc and --wrap=calloc. A check and a
 * join of two may ask for none; with the argument `any`, for a library that isn't the real one, they may. */
#include <stdlib.h>

#include "baggage_carriers.h"

void *__real_malloc(size_t size);
void *__real_realloc(void *memory, size_t size);
void *__real_calloc(size_t count, size_t size);
void *__wrap_malloc(size_t size);
void *__wrap_realloc(void *memory, size_t size);
void *__wrap_calloc(size_t count, size_t size);

/* How many requests are granted before one is refused; below 0 all are. */
static long granted = -1;
static long asked;

static int is_refused(void) {
    asked++;
    return granted >= 0 && asked > granted;
}

void *__wrap_malloc(size_t size) { return is_refused() ? NULL : __real_malloc(size); }
void *__wrap_realloc(void *memory, size_t size) { return is_refused() ? NULL : __real_realloc(memory, size); }
void *__wrap_calloc(size_t count, size_t size) { return is_refused() ? NULL : __real_calloc(count, size); }

#define TABLE "baggage table 1\n0 0 id scalar fixed32\n0 1 tags set string\n0 2 hops counter\n0 4 load map string scalar uint32\n"
#define TEXT(text) (text), sizeof(text) - 1

static const uint8_t context[] = {2, 0xf8, 0, 5, 0, 0, 0, 0, 7, 2, 0xf8, 1, 2, 0, 'a', 2, 0, 'b'};
static uint8_t room[512];
static baggage_place places[8];
static const size_t chosen[2] = {3, 0};

static baggage_answer call(int which) {
    baggage_span spans[5];
    int k;
    for (k = 0; k < 5; k++) {
        spans[k].bytes = context;
        spans[k].length = k == 2 ? 9 : sizeof context;
    }
    switch (which) {
    case 0: return baggage_check(context, sizeof context);
    case 1: return baggage_join(BAGGAGE_FORM_ONE, spans, 2, 12, room, sizeof room);
    case 2: return baggage_join(BAGGAGE_FORM_TWO, spans, 5, BAGGAGE_NO_BUDGET, room, sizeof room);
    case 3: return baggage_update(BAGGAGE_FORM_ONE, TEXT(TABLE), spans, 5, TEXT("id 5\ntags \"x\"\nhops \"w\":3\nload \"k\":1\n"), 30, room, sizeof room);
    case 4: return baggage_keep(BAGGAGE_FORM_ONE, BAGGAGE_CUT, TEXT("baggage table 1\n0 1 tags set string\n"), spans, 3, BAGGAGE_NO_BUDGET, room, sizeof room);
    case 5: return baggage_places(TEXT(TABLE), context, sizeof context, places, 8);
    case 6: return baggage_report(BAGGAGE_TEXT, TEXT(TABLE), context, sizeof context, (char *)room, sizeof room);
    case 7: return baggage_report(BAGGAGE_JSON, TEXT(TABLE), context, sizeof context, (char *)room, sizeof room);
    case 8: return baggage_read_field(TEXT(TABLE), context, sizeof context, TEXT("tags"), (char *)room, sizeof room);
    case 9: return baggage_write_field(BAGGAGE_FORM_ONE, TEXT(TABLE), TEXT("tags"), TEXT("\"x\""), room, sizeof room);
    case 10: return baggage_check_table(TEXT(TABLE));
    case 11: return baggage_evolve(TEXT(TABLE), TEXT(TABLE), (char *)room, sizeof room);
    case 12: return baggage_carry(context, sizeof context, 4, (char *)room, sizeof room);
    case 13: return baggage_collect(TEXT("p 0 1 AA==\n"), room, sizeof room);
    case 14: return baggage_chosen_places(TEXT(TABLE), chosen, 2, context, sizeof context, places, 8);
    default: return baggage_quote(BAGGAGE_STRING, TEXT("a\"b"), (char *)room, sizeof room);
    }
}

int main(int argc, char **argv) {
    const int may_ask = argc > 1 && !strcmp(argv[1], "any");
    static uint8_t untouched[sizeof room], good[sizeof room];
    int which;
    long refused = 0;
    memset(untouched, 0xee, sizeof untouched);
    for (which = 0; which < 16; which++) {
        baggage_answer answer, first = call(which);
        memcpy(good, room, sizeof good);
        if (first.status != BAGGAGE_OK) {
            fprintf(stderr, "call %d: status %u\n", which, (unsigned)first.status);
            return 1;
        }
        for (granted = 0;; granted++) {
            memset(room, 0xee, sizeof room);
            asked = 0;
            answer = call(which);
            if (asked <= granted)
                break;
            refused++;
            /* A request may be one that the call can do without; else it says so, and has written nothing. */
            if (answer.status == BAGGAGE_OK ? memcmp(&answer, &first, sizeof answer) != 0
                                            : answer.status != BAGGAGE_MEMORY || memcmp(room, untouched, sizeof room) != 0) {
                fprintf(stderr, "call %d, request %ld: status %u\n", which, granted, (unsigned)answer.status);
                return 1;
            }
        }
        granted = -1;
        if ((which == 0 || which == 1 || which == 15) && asked && !may_ask) {
            fprintf(stderr, "call %d asked for memory\n", which);
            return 1;
        }
    }
    printf("%ld requests refused\n", refused);
    return 0;
}
