/* Eight threads call the library at once, each on buffers of its own and all on the same inputs. It says nothing where all is well. */
#include <pthread.h>
#include <stdio.h>
#include <string.h>

#include "baggage.h"

static const char TABLE[] = "baggage table 1\n0 0 id scalar fixed32\n0 2 hops counter\n";
static const uint8_t FIRST[] = {2, 0xf8, 0, 5, 0, 0, 0, 0, 7};
static const uint8_t SECOND[] = {2, 0xf8, 2, 2, 0xf1, 'w', 2, 0, 3};

static void *work(void *wrong) {
    const baggage_span inputs[] = {{FIRST, sizeof FIRST}, {SECOND, sizeof SECOND}};
    for (int turn = 0; turn < 500; turn++) {
        uint8_t joined[64], updated[64];
        char text[96];
        baggage_answer join = baggage_join(BAGGAGE_FORM_ONE, inputs, 2, BAGGAGE_NO_BUDGET, joined, sizeof joined);
        baggage_answer update = baggage_update(BAGGAGE_FORM_ONE, TABLE, sizeof TABLE - 1, inputs, 2, "hops \"w\":5\n", 11, BAGGAGE_NO_BUDGET,
                                               updated, sizeof updated);
        baggage_answer report = baggage_report(BAGGAGE_TEXT, TABLE, sizeof TABLE - 1, updated, update.size, text, sizeof text);
        if (join.status != BAGGAGE_OK || join.size != sizeof FIRST + sizeof SECOND || update.status != BAGGAGE_OK ||
            update.size != join.size || updated[update.size - 1] != 5 || report.status != BAGGAGE_OK)
            *(int *)wrong = 1;
    }
    return NULL;
}

int main(void) {
    pthread_t threads[8];
    int wrong[8] = {0};
    for (int i = 0; i < 8; i++)
        if (pthread_create(&threads[i], NULL, work, &wrong[i]))
            return 1;
    int all = 0;
    for (int i = 0; i < 8; i++) {
        pthread_join(threads[i], NULL);
        all |= wrong[i];
    }
    if (all)
        fprintf(stderr, "threads.c: a call answered otherwise\n");
    return all;
}
