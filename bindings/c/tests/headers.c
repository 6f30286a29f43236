/* What a header costs whose parts a stranger chooses, and that its parts are merged as a join of all of them at once does it. It is linked with
 * --wrap=baggage_join, so that the bytes are counted that the library is asked to merge. */
#include <stdlib.h>

#include "baggage_carriers.h"

#define EXPECT(fact)                                                   \
    do {                                                               \
        if (!(fact)) {                                                 \
            fprintf(stderr, "%s:%d: %s\n", __FILE__, __LINE__, #fact); \
            exit(1);                                                   \
        }                                                              \
    } while (0)

enum { LETTERS = 65536, DATA = 5000, PARTS_MAX = 40, DRAWN = 20000 };

baggage_answer __real_baggage_join(uint32_t form, const baggage_span *inputs, size_t inputs_len, uint64_t budget, uint8_t *room, size_t room_len);
baggage_answer __wrap_baggage_join(uint32_t form, const baggage_span *inputs, size_t inputs_len, uint64_t budget, uint8_t *room, size_t room_len);

/* How many bytes were handed in. */
static size_t handed;

baggage_answer __wrap_baggage_join(uint32_t form, const baggage_span *inputs, size_t inputs_len, uint64_t budget, uint8_t *room, size_t room_len) {
    size_t k;
    for (k = 0; k < inputs_len; k++)
        handed += inputs[k].length;
    return __real_baggage_join(form, inputs, inputs_len, budget, room, room_len);
}

/* The context of one header with so many data from a number on, each of two bytes. */
static size_t data_from(uint8_t *context, unsigned first, unsigned count) {
    size_t size = 3;
    unsigned number;
    memcpy(context, "\x02\xf8\x01", 3);
    for (number = first; number < first + count; number++) {
        context[size++] = 3;
        context[size++] = 0;
        context[size++] = (uint8_t)(number >> 8);
        context[size++] = (uint8_t)number;
    }
    return size;
}

/* A header whose length is known, in memory of its own so that a sanitizer sees what is read and written beyond. */
static size_t read_header(uint8_t **room, const char *text, size_t letters, int *lost) {
    *room = malloc(BAGGAGE_EXTRACT_ROOM(letters));
    EXPECT(*room);
    handed = 0;
    return baggage_from_header(*room, text, letters, lost);
}

/* A long context and then nothing but commas: each of them ends a part that can't be read. */
static void commas(void) {
    static char text[LETTERS];
    static uint8_t context[4 * DATA + 4];
    size_t size = data_from(context, 0, DATA), letters = baggage_to_header(text, context, size), found;
    uint8_t *room;
    int lost;
    memset(text + letters, ',', LETTERS - letters);
    found = read_header(&room, text, LETTERS, &lost);
    EXPECT(lost && found == size + 1 && room[0] == 0 && memcmp(room + 1, context, size) == 0);
    EXPECT(handed < 10 * LETTERS);
    free(room);
}

/* As many small contexts as a header has place for, all of them different, in a long one's company. */
static void small_parts(unsigned before, unsigned after) {
    static char text[2 * LETTERS];
    static uint8_t context[4 * (LETTERS + DATA)];
    size_t letters = 0, size, found;
    unsigned count = 0;
    uint8_t *room;
    int lost;
    if (before)
        letters = baggage_to_header(text, context, data_from(context, 0, before));
    while (letters + 18 < LETTERS) {
        if (letters)
            text[letters++] = ',';
        letters += baggage_to_header(text + letters, context, data_from(context, before + (count * 7919 & 8191), 1));
        count++;
    }
    text[letters++] = ',';
    letters += baggage_to_header(text + letters, context, data_from(context, before, 8192 + after));
    found = read_header(&room, text, letters, &lost);
    size = data_from(context, 0, before + 8192 + after);
    EXPECT(count > 2000 && !lost && found == size && memcmp(room, context, size) == 0);
    EXPECT(handed < 30 * letters);
    free(room);
}

static unsigned draw(unsigned below) { return (unsigned)rand() % below; }

/* A drawn part, and what it is read as. */
static size_t drawn_part(char *text, uint8_t *context, size_t *size, int *lost) {
    uint8_t one[32];
    baggage_span span;
    size_t letters, length = draw(5) ? data_from(one, draw(6), draw(4) + 1) : 0;
    uint32_t form = draw(4) ? BAGGAGE_FORM_ONE : BAGGAGE_FORM_TWO;
    baggage_answer written;
    if (!draw(8))
        one[length++] = 0; /* a context that was cut, or the one that was lost */
    span.bytes = one, span.length = length;
    written = baggage_join(form, &span, 1, BAGGAGE_NO_BUDGET, context, 64);
    EXPECT(written.status == BAGGAGE_OK);
    *size = written.size;
    if (!draw(20) && *size)
        context[draw((unsigned)*size)] ^= 0x40; /* its check is right, and it may be no context */
    letters = baggage_to_header(text, context, *size);
    if (!draw(10))
        text[draw((unsigned)letters)] = (char)(draw(2) ? '~' : ' ');
    else if (!draw(10))
        letters = 0;
    else if (baggage_check(context, *size).status == BAGGAGE_OK)
        return letters;
    *lost = 1;
    context[0] = 0;
    *size = 1;
    return letters;
}

/* Drawn headers of drawn parts, with blanks around them. */
static void drawn_header(void) {
    static char text[4][PARTS_MAX * 120];
    static uint8_t contexts[PARTS_MAX][64], expected[PARTS_MAX * 64];
    baggage_span parts[PARTS_MAX], values[4];
    size_t values_len = draw(4), parts_len = 0, total = 0, found, k;
    int lost = 0, said;
    uint8_t *room;
    baggage_answer answer;
    for (k = 0; k < values_len; k++) {
        size_t letters = 0;
        unsigned count = draw(4) ? draw(4) + 1 : draw(10) + 1;
        for (; count; count--) {
            while (!draw(3))
                text[k][letters++] = (char)(draw(2) ? ' ' : '\t');
            letters += drawn_part(text[k] + letters, contexts[parts_len], &parts[parts_len].length, &lost);
            parts[parts_len].bytes = contexts[parts_len];
            parts_len++;
            while (!draw(3))
                text[k][letters++] = ' ';
            if (count > 1)
                text[k][letters++] = ',';
        }
        values[k].bytes = (const uint8_t *)text[k];
        values[k].length = letters;
        total += letters;
    }
    answer = baggage_merge_many(BAGGAGE_FORM_ONE, parts, parts_len, expected, sizeof expected);
    room = malloc(BAGGAGE_EXTRACT_ROOM(total));
    EXPECT(answer.status == BAGGAGE_OK && room);
    found = baggage_extract(room, values, values_len, BAGGAGE_ABSENT_EMPTY, &said);
    EXPECT(found == answer.size && memcmp(room, expected, found) == 0 && said == lost);
    free(room);
}

int main(void) {
    unsigned k;
    commas();
    small_parts(0, 0);
    small_parts(1000, 0);
    small_parts(0, 1000);
    srand(1);
    for (k = 0; k < DRAWN; k++)
        drawn_header();
    return 0;
}
