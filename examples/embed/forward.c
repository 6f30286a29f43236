/* forward A B N: sends on the contexts of the files A and B, N times, in form one and within 2^30 bytes. With N = 1 the result goes to
 * standard output. */
#include <stdio.h>
#include <stdlib.h>

#include "baggage.h"

static uint8_t *whole_file(const char *name, size_t *len) {
    FILE *file = fopen(name, "rb");
    if (!file) {
        perror(name);
        exit(1);
    }
    fseek(file, 0, SEEK_END);
    *len = (size_t)ftell(file);
    rewind(file);
    uint8_t *bytes = malloc(*len + 1);
    if (!bytes || fread(bytes, 1, *len, file) != *len) {
        fprintf(stderr, "%s: can't be read\n", name);
        exit(1);
    }
    fclose(file);
    return bytes;
}

int main(int count, char **words) {
    if (count != 4) {
        fprintf(stderr, "usage: forward A B N\n");
        return 64;
    }
    size_t first_len, second_len;
    uint8_t *first = whole_file(words[1], &first_len);
    uint8_t *second = whole_file(words[2], &second_len);
    size_t room_len = BAGGAGE_ROOM_FOR(first_len + second_len);
    uint8_t *room = malloc(room_len);
    long times = strtol(words[3], NULL, 10);
    baggage_answer answer = {0};
    for (long i = 0; i < times; i++) {
        answer = baggage_forward(BAGGAGE_FORM_ONE, first, first_len, second, second_len, (uint64_t)1 << 30, room, room_len);
        if (answer.status != BAGGAGE_OK) {
            fprintf(stderr, "status %u, code %u, context %zu, offset %zu, size %zu\n", answer.status, answer.code, answer.context,
                    answer.offset, answer.size);
            return 1;
        }
    }
    if (times == 1)
        fwrite(room, 1, answer.size, stdout);
    return 0;
}
