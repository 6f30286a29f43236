/* Calls of eight threads beside one another. The library has no state, so that a thread sanitizer sees none. */
#include <pthread.h>

#include "baggage_carriers.h"

#define TABLE "baggage table 1\n0 2 hops counter\n"

enum { THREADS = 8, TURNS = 200, ROOM = 4096 };

typedef struct worker {
    pthread_t thread;
    int number, is_bad;
    uint8_t context[ROOM];
    size_t size;
} worker;

static const char table[] = TABLE;

static void *works(void *argument) {
    worker *it = (worker *)argument;
    uint8_t room[BAGGAGE_EXTRACT_ROOM(2 * ROOM)];
    char header[2 * ROOM], writes[32];
    int k, lost;
    for (k = 0; k < TURNS; k++) {
        baggage_span input;
        baggage_answer answer;
        int length = snprintf(writes, sizeof writes, "hops \"%d\":%d\n", it->number, k);
        size_t letters = baggage_to_header(header, it->context, it->size);
        input.length = baggage_from_header(room, header, letters, &lost);
        input.bytes = room;
        answer = baggage_update(BAGGAGE_FORM_ONE, table, sizeof table - 1, &input, 1, writes, (size_t)length, BAGGAGE_NO_BUDGET, it->context, ROOM);
        it->is_bad |= lost || answer.status != BAGGAGE_OK;
        it->size = answer.size;
    }
    return NULL;
}

int main(void) {
    static worker workers[THREADS];
    baggage_span spans[THREADS];
    uint8_t room[ROOM];
    char text[ROOM];
    baggage_answer answer;
    int k, is_bad = 0;
    for (k = 0; k < THREADS; k++) {
        workers[k].number = k;
        if (pthread_create(&workers[k].thread, NULL, works, &workers[k]) != 0)
            return 1;
    }
    for (k = 0; k < THREADS; k++) {
        pthread_join(workers[k].thread, NULL);
        is_bad |= workers[k].is_bad;
        spans[k].bytes = workers[k].context;
        spans[k].length = workers[k].size;
    }
    answer = baggage_merge_many(BAGGAGE_FORM_ONE, spans, THREADS, room, sizeof room);
    answer = baggage_read_field(table, sizeof table - 1, room, answer.size, "hops", 4, text, sizeof text);
    return is_bad || answer.status != BAGGAGE_OK || answer.code != BAGGAGE_EXACT || memcmp(text, "1592{", 5) != 0;
}
