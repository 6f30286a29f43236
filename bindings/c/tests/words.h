/* Words, digits and growing texts, for the programs of this folder. Out of memory ends them. */
#ifndef WORDS_H
#define WORDS_H

#include <stdint.h>
#include <stdio.h>
#include <stdlib.h>
#include <string.h>

/* A part of a text, without a null byte. */
typedef struct word {
    const char *text;
    size_t length;
} word;

/* Bytes that grow. */
typedef struct buffer {
    char *text;
    size_t length, room;
} buffer;

static inline void *taken(void *memory) {
    if (!memory) {
        fputs("out of memory\n", stderr);
        exit(1);
    }
    return memory;
}

static inline char *reserve(buffer *to, size_t more) {
    if (to->room - to->length < more || !to->text) {
        to->room = 2 * to->room + more + 64;
        to->text = (char *)taken(realloc(to->text, to->room));
    }
    return to->text + to->length;
}

static inline void add(buffer *to, const char *text, size_t length) {
    char *room = reserve(to, length);
    if (length)
        memcpy(room, text, length);
    to->length += length;
}

static inline void add_text(buffer *to, const char *text) { add(to, text, strlen(text)); }

static inline void add_number(buffer *to, size_t number) {
    char digits[24];
    add(to, digits, (size_t)snprintf(digits, sizeof digits, "%zu", number));
}

static inline void add_digits(buffer *to, const uint8_t *bytes, size_t length) {
    size_t k;
    if (!length)
        add_text(to, "-");
    for (k = 0; k < length; k++) {
        char pair[2];
        pair[0] = "0123456789abcdef"[bytes[k] >> 4];
        pair[1] = "0123456789abcdef"[bytes[k] & 15];
        add(to, pair, 2);
    }
}

static inline int digit(char letter) {
    if (letter >= '0' && letter <= '9')
        return letter - '0';
    if (letter >= 'a' && letter <= 'f')
        return letter - 'a' + 10;
    return letter >= 'A' && letter <= 'F' ? letter - 'A' + 10 : -1;
}

/* Adds the bytes that `-` or pairs of digits say; 0 where they are neither. */
static inline int add_bytes(buffer *to, word digits) {
    size_t k;
    if (digits.length == 1 && digits.text[0] == '-')
        return 1;
    if (!digits.length || digits.length % 2)
        return 0;
    for (k = 0; k < digits.length; k += 2) {
        int high = digit(digits.text[k]), low = digit(digits.text[k + 1]);
        char byte = (char)(16 * high + low);
        if (high < 0 || low < 0)
            return 0;
        add(to, &byte, 1);
    }
    return 1;
}

static inline int is_word(word it, const char *text) { return it.length == strlen(text) && !memcmp(it.text, text, it.length); }

/* Cuts a text at a byte. The words are the caller's to free. */
static inline word *split(word text, char at, size_t *count) {
    size_t room = 8;
    word *words = (word *)taken(malloc(room * sizeof *words));
    *count = 0;
    for (;;) {
        const char *end = text.length ? (const char *)memchr(text.text, at, text.length) : NULL;
        size_t length = end ? (size_t)(end - text.text) : text.length;
        if (*count == room)
            words = (word *)taken(realloc(words, (room *= 2) * sizeof *words));
        words[*count].text = text.text;
        words[(*count)++].length = length;
        if (!end)
            return words;
        text.text += length + 1;
        text.length -= length + 1;
    }
}

static inline void add_file(buffer *to, FILE *file) {
    for (;;) {
        size_t count = fread(reserve(to, 65536), 1, 65536, file);
        to->length += count;
        if (!count)
            return;
    }
}

#endif
