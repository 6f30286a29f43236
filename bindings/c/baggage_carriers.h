/* How a context travels, and how a string is written: what a C program needs beside baggage.h. These functions are tested, not proved.
 *
 * On a carrier of text a context is DATA.CHECK: base64url without padding of its bytes, a dot, and six letters, which are base64url of the
 * CRC-32 of the bytes. A text that was cut or damaged on the way reads as lost, and never as a shorter context. Several values with commas
 * between them, or several header lines, are merged. A carrier of bytes, as gRPC's metadata with `-bin`, takes form two, which says how long it is.
 *
 * A pointer may be null where the length after it is 0. No room shares a byte with an input. The functions named .._into take a room with its
 * length and answer as those of baggage.h do: BAGGAGE_OK, or BAGGAGE_ROOM with the `size` that is needed and nothing written. The others of the same
 * name write as sprintf does, into a room that is long enough.
 */
#ifndef BAGGAGE_CARRIERS_H
#define BAGGAGE_CARRIERS_H

#include <string.h>

#include "baggage.h"

#ifdef __cplusplus
extern "C" {
#endif

/* The names under which a context travels: the header of HTTP, and the key of gRPC's metadata. */
#define BAGGAGE_HEADER "terncommode"
#define BAGGAGE_GRPC_KEY "terncommode-bin"

/* The header of a reply that says which request it answers, and the directive that a reply with a context has in its Cache-Control, so that no shared cache
 * answers another request with it. */
#define BAGGAGE_FOR_HEADER "terncommode-for"
#define BAGGAGE_NO_CACHE "no-cache=\"terncommode\""

/* How many bytes a context may have in a request's header, in a reply's, and in gRPC's metadata. Whoever sends cuts to them: no function here does. */
#define BAGGAGE_REQUEST_BUDGET 3000
#define BAGGAGE_REPLY_BUDGET 2000
#define BAGGAGE_GRPC_BUDGET 4000

/* How many letters a header's value has that carries so many bytes. */
static inline size_t baggage_header_letters(size_t context_len) { return context_len / 3 * 4 + (context_len % 3 ? context_len % 3 + 1 : 0) + 7; }

/* The greatest budget whose contexts have a header's value of at most so many letters; 0 where none has. */
static inline size_t baggage_budget_of(size_t letters) {
    size_t data = letters < 7 ? 0 : letters - 7;
    return data / 4 * 3 + (data % 4 ? data % 4 - 1 : 0);
}

/* How long a room baggage_update needs at most, where its inputs have `total` bytes together. */
#define BAGGAGE_UPDATE_ROOM(total, writes_len) ((total) + 5 * (writes_len) + 12)

/* How long a room baggage_extract needs at most, where its values have `total` bytes together: four letters carry three bytes, and those stand
 * in it twice while they are merged. */
#define BAGGAGE_EXTRACT_ROOM(total) (2 * (total) + 32)

/* What stands for a header that isn't there. */
enum baggage_absent {
    BAGGAGE_ABSENT_EMPTY = 1, /* the empty context: at an edge, where a request begins */
    BAGGAGE_ABSENT_LOST = 2   /* the context that was lost: inside, where one was promised */
};

/* ---- what the functions below are made of */

static inline uint32_t baggage_crc32(const uint8_t *bytes, size_t length) {
    static const uint32_t table[256] = {
        0x00000000, 0x77073096, 0xee0e612c, 0x990951ba, 0x076dc419, 0x706af48f, 0xe963a535, 0x9e6495a3, 0x0edb8832, 0x79dcb8a4, 0xe0d5e91e, 0x97d2d988,
        0x09b64c2b, 0x7eb17cbd, 0xe7b82d07, 0x90bf1d91, 0x1db71064, 0x6ab020f2, 0xf3b97148, 0x84be41de, 0x1adad47d, 0x6ddde4eb, 0xf4d4b551, 0x83d385c7,
        0x136c9856, 0x646ba8c0, 0xfd62f97a, 0x8a65c9ec, 0x14015c4f, 0x63066cd9, 0xfa0f3d63, 0x8d080df5, 0x3b6e20c8, 0x4c69105e, 0xd56041e4, 0xa2677172,
        0x3c03e4d1, 0x4b04d447, 0xd20d85fd, 0xa50ab56b, 0x35b5a8fa, 0x42b2986c, 0xdbbbc9d6, 0xacbcf940, 0x32d86ce3, 0x45df5c75, 0xdcd60dcf, 0xabd13d59,
        0x26d930ac, 0x51de003a, 0xc8d75180, 0xbfd06116, 0x21b4f4b5, 0x56b3c423, 0xcfba9599, 0xb8bda50f, 0x2802b89e, 0x5f058808, 0xc60cd9b2, 0xb10be924,
        0x2f6f7c87, 0x58684c11, 0xc1611dab, 0xb6662d3d, 0x76dc4190, 0x01db7106, 0x98d220bc, 0xefd5102a, 0x71b18589, 0x06b6b51f, 0x9fbfe4a5, 0xe8b8d433,
        0x7807c9a2, 0x0f00f934, 0x9609a88e, 0xe10e9818, 0x7f6a0dbb, 0x086d3d2d, 0x91646c97, 0xe6635c01, 0x6b6b51f4, 0x1c6c6162, 0x856530d8, 0xf262004e,
        0x6c0695ed, 0x1b01a57b, 0x8208f4c1, 0xf50fc457, 0x65b0d9c6, 0x12b7e950, 0x8bbeb8ea, 0xfcb9887c, 0x62dd1ddf, 0x15da2d49, 0x8cd37cf3, 0xfbd44c65,
        0x4db26158, 0x3ab551ce, 0xa3bc0074, 0xd4bb30e2, 0x4adfa541, 0x3dd895d7, 0xa4d1c46d, 0xd3d6f4fb, 0x4369e96a, 0x346ed9fc, 0xad678846, 0xda60b8d0,
        0x44042d73, 0x33031de5, 0xaa0a4c5f, 0xdd0d7cc9, 0x5005713c, 0x270241aa, 0xbe0b1010, 0xc90c2086, 0x5768b525, 0x206f85b3, 0xb966d409, 0xce61e49f,
        0x5edef90e, 0x29d9c998, 0xb0d09822, 0xc7d7a8b4, 0x59b33d17, 0x2eb40d81, 0xb7bd5c3b, 0xc0ba6cad, 0xedb88320, 0x9abfb3b6, 0x03b6e20c, 0x74b1d29a,
        0xead54739, 0x9dd277af, 0x04db2615, 0x73dc1683, 0xe3630b12, 0x94643b84, 0x0d6d6a3e, 0x7a6a5aa8, 0xe40ecf0b, 0x9309ff9d, 0x0a00ae27, 0x7d079eb1,
        0xf00f9344, 0x8708a3d2, 0x1e01f268, 0x6906c2fe, 0xf762575d, 0x806567cb, 0x196c3671, 0x6e6b06e7, 0xfed41b76, 0x89d32be0, 0x10da7a5a, 0x67dd4acc,
        0xf9b9df6f, 0x8ebeeff9, 0x17b7be43, 0x60b08ed5, 0xd6d6a3e8, 0xa1d1937e, 0x38d8c2c4, 0x4fdff252, 0xd1bb67f1, 0xa6bc5767, 0x3fb506dd, 0x48b2364b,
        0xd80d2bda, 0xaf0a1b4c, 0x36034af6, 0x41047a60, 0xdf60efc3, 0xa867df55, 0x316e8eef, 0x4669be79, 0xcb61b38c, 0xbc66831a, 0x256fd2a0, 0x5268e236,
        0xcc0c7795, 0xbb0b4703, 0x220216b9, 0x5505262f, 0xc5ba3bbe, 0xb2bd0b28, 0x2bb45a92, 0x5cb36a04, 0xc2d7ffa7, 0xb5d0cf31, 0x2cd99e8b, 0x5bdeae1d,
        0x9b64c2b0, 0xec63f226, 0x756aa39c, 0x026d930a, 0x9c0906a9, 0xeb0e363f, 0x72076785, 0x05005713, 0x95bf4a82, 0xe2b87a14, 0x7bb12bae, 0x0cb61b38,
        0x92d28e9b, 0xe5d5be0d, 0x7cdcefb7, 0x0bdbdf21, 0x86d3d2d4, 0xf1d4e242, 0x68ddb3f8, 0x1fda836e, 0x81be16cd, 0xf6b9265b, 0x6fb077e1, 0x18b74777,
        0x88085ae6, 0xff0f6a70, 0x66063bca, 0x11010b5c, 0x8f659eff, 0xf862ae69, 0x616bffd3, 0x166ccf45, 0xa00ae278, 0xd70dd2ee, 0x4e048354, 0x3903b3c2,
        0xa7672661, 0xd06016f7, 0x4969474d, 0x3e6e77db, 0xaed16a4a, 0xd9d65adc, 0x40df0b66, 0x37d83bf0, 0xa9bcae53, 0xdebb9ec5, 0x47b2cf7f, 0x30b5ffe9,
        0xbdbdf21c, 0xcabac28a, 0x53b39330, 0x24b4a3a6, 0xbad03605, 0xcdd70693, 0x54de5729, 0x23d967bf, 0xb3667a2e, 0xc4614ab8, 0x5d681b02, 0x2a6f2b94,
        0xb40bbe37, 0xc30c8ea1, 0x5a05df1b, 0x2d02ef8d};
    uint32_t crc = 0xffffffff;
    size_t k;
    for (k = 0; k < length; k++)
        crc = crc >> 8 ^ table[(crc ^ bytes[k]) & 255];
    return ~crc;
}

/* Writes base64url without padding, and gives the number of letters. */
static inline size_t baggage_put_letters(char *out, const uint8_t *bytes, size_t length) {
    static const char letters[] = "ABCDEFGHIJKLMNOPQRSTUVWXYZabcdefghijklmnopqrstuvwxyz0123456789-_";
    char *to = out;
    size_t k;
    for (k = 0; length - k >= 3; k += 3, to += 4) {
        uint32_t group = (uint32_t)bytes[k] << 16 | (uint32_t)bytes[k + 1] << 8 | bytes[k + 2];
        to[0] = letters[group >> 18];
        to[1] = letters[group >> 12 & 63];
        to[2] = letters[group >> 6 & 63];
        to[3] = letters[group & 63];
    }
    if (length > k) {
        uint32_t group = (uint32_t)bytes[k] << 16 | (length - k == 2 ? (uint32_t)bytes[k + 1] << 8 : 0u);
        *to++ = letters[group >> 18];
        *to++ = letters[group >> 12 & 63];
        if (length - k == 2)
            *to++ = letters[group >> 6 & 63];
    }
    return (size_t)(to - out);
}

/* What a letter stands for, or 64. */
static inline uint32_t baggage_letter(char letter) {
    static const uint8_t values[256] = {
        64, 64, 64, 64, 64, 64, 64, 64, 64, 64, 64, 64, 64, 64, 64, 64, 64, 64, 64, 64, 64, 64, 64, 64, 64, 64, 64, 64, 64, 64, 64, 64,
        64, 64, 64, 64, 64, 64, 64, 64, 64, 64, 64, 64, 64, 62, 64, 64, 52, 53, 54, 55, 56, 57, 58, 59, 60, 61, 64, 64, 64, 64, 64, 64,
        64, 0, 1, 2, 3, 4, 5, 6, 7, 8, 9, 10, 11, 12, 13, 14, 15, 16, 17, 18, 19, 20, 21, 22, 23, 24, 25, 64, 64, 64, 64, 63,
        64, 26, 27, 28, 29, 30, 31, 32, 33, 34, 35, 36, 37, 38, 39, 40, 41, 42, 43, 44, 45, 46, 47, 48, 49, 50, 51, 64, 64, 64, 64, 64,
        64, 64, 64, 64, 64, 64, 64, 64, 64, 64, 64, 64, 64, 64, 64, 64, 64, 64, 64, 64, 64, 64, 64, 64, 64, 64, 64, 64, 64, 64, 64, 64,
        64, 64, 64, 64, 64, 64, 64, 64, 64, 64, 64, 64, 64, 64, 64, 64, 64, 64, 64, 64, 64, 64, 64, 64, 64, 64, 64, 64, 64, 64, 64, 64,
        64, 64, 64, 64, 64, 64, 64, 64, 64, 64, 64, 64, 64, 64, 64, 64, 64, 64, 64, 64, 64, 64, 64, 64, 64, 64, 64, 64, 64, 64, 64, 64,
        64, 64, 64, 64, 64, 64, 64, 64, 64, 64, 64, 64, 64, 64, 64, 64, 64, 64, 64, 64, 64, 64, 64, 64, 64, 64, 64, 64, 64, 64, 64, 64};
    return values[(unsigned char)letter];
}

/* Reads base64url without padding into length / 4 * 3 + 2 bytes at most. 0 where the letters are none, and what was written is of no use. */
static inline int baggage_get_letters(const char *text, size_t length, uint8_t *out, size_t *out_len) {
    uint8_t *to = out;
    uint32_t first, second, third, unused;
    size_t k;
    for (k = 0; length - k >= 4; k += 4, to += 3) {
        uint32_t fourth = baggage_letter(text[k + 3]);
        first = baggage_letter(text[k]), second = baggage_letter(text[k + 1]), third = baggage_letter(text[k + 2]);
        if ((first | second | third | fourth) > 63)
            return 0;
        to[0] = (uint8_t)(first << 2 | second >> 4);
        to[1] = (uint8_t)(second << 4 | third >> 2);
        to[2] = (uint8_t)(third << 6 | fourth);
    }
    if (length - k == 1)
        return 0;
    if (length > k) {
        first = baggage_letter(text[k]), second = baggage_letter(text[k + 1]);
        third = length - k == 3 ? baggage_letter(text[k + 2]) : 0;
        unused = length - k == 3 ? third & 3 : second & 15;
        if ((first | second | third) > 63 || unused != 0)
            return 0;
        *to++ = (uint8_t)(first << 2 | second >> 4);
        if (length - k == 3)
            *to++ = (uint8_t)(second << 4 | third >> 2);
    }
    *out_len = (size_t)(to - out);
    return 1;
}

/* The bytes that a part of a header's value carries, with their check compared; whether they are a context's isn't looked at. */
static inline int baggage_get_part(const char *text, size_t length, uint8_t *out, size_t *out_len) {
    uint8_t check[5];
    size_t check_len;
    uint32_t crc;
    if (length < 7 || text[length - 7] != '.' || !baggage_get_letters(text, length - 7, out, out_len) ||
        !baggage_get_letters(text + length - 6, 6, check, &check_len))
        return 0;
    crc = (uint32_t)check[0] << 24 | (uint32_t)check[1] << 16 | (uint32_t)check[2] << 8 | check[3];
    return crc == baggage_crc32(out, *out_len);
}

/* Contexts that are being merged: runs that stand one after the other in a room, each the merge of a power of two of parts. Two runs of as many
 * parts are merged at once. So there are no more runs than the number of parts has bits, and each byte is merged about as often. */
typedef struct baggage_runs {
    uint8_t *room;
    size_t room_len;
    size_t size;                          /* the bytes of all runs */
    size_t parts;                         /* how many parts went into them */
    size_t count;                         /* how many runs there are, */
    size_t sizes[8 * sizeof(size_t) + 2]; /* and the bytes of each: two more stand here while a part is added */
    size_t left;                          /* how many parts are still read: what comes after them is lost */
    int lost;                             /* whether anything couldn't be read */
} baggage_runs;

/* Merges the last two runs. Where the second is no context, or both together would be too long, it is lost and the first stays. */
static inline void baggage_merge_last(baggage_runs *it) {
    size_t second_len = it->sizes[--it->count], first_len = it->sizes[it->count - 1];
    uint8_t *merged = it->room + it->size, *second = merged - second_len, *first = second - first_len;
    baggage_answer answer = baggage_merge(BAGGAGE_FORM_ONE, first, first_len, second, second_len, merged, it->room_len - it->size);
    if (answer.status == BAGGAGE_OK) {
        memmove(first, merged, answer.size);
    } else {
        it->lost = 1;
        answer.size = first_len;
    }
    it->sizes[it->count - 1] = answer.size;
    it->size = (size_t)(first - it->room) + answer.size;
}

/* Adds a part of a header's value, first as a run of its own: what it carries, merged into the empty context, which looks at it too. */
static inline void baggage_add_part(baggage_runs *it, const char *text, size_t length) {
    size_t part_len, parts;
    if (!baggage_get_part(text, length, it->room + it->size, &part_len)) {
        it->lost = 1;
        return;
    }
    it->sizes[it->count++] = 0;
    it->sizes[it->count++] = part_len;
    it->size += part_len;
    baggage_merge_last(it);
    for (parts = ++it->parts; parts % 2 == 0; parts /= 2)
        baggage_merge_last(it);
}

/* Takes the blanks at both ends of a part away. */
static inline void baggage_trim_blanks(const char *text, size_t *from, size_t *to) {
    while (*from < *to && (text[*from] == ' ' || text[*from] == '\t'))
        ++*from;
    while (*from < *to && (text[*to - 1] == ' ' || text[*to - 1] == '\t'))
        --*to;
}

/* Where the part ends that begins here: at the next comma, or at the end. */
static inline size_t baggage_part_end(const char *text, size_t from, size_t length) {
    const char *comma = length > from ? (const char *)memchr(text + from, ',', length - from) : NULL;
    return comma ? (size_t)(comma - text) : length;
}

/* Adds the parts of one value. */
static inline void baggage_add_value(baggage_runs *it, const char *text, size_t length) {
    size_t next = 0;
    while (next <= length) {
        size_t from = next, to = baggage_part_end(text, from, length);
        next = to + 1;
        if (!it->left) {
            it->lost = 1;
            return;
        }
        it->left--;
        baggage_trim_blanks(text, &from, &to);
        if (from == to)
            it->lost = 1;
        else
            baggage_add_part(it, text + from, to - from);
    }
}

/* The bytes of all spans together. */
static inline size_t baggage_length_of_all(const baggage_span *spans, size_t count) {
    size_t total = 0, k;
    for (k = 0; k < count; k++)
        total += spans[k].length;
    return total;
}

/* Whether so many bytes fit a room, as an answer. */
static inline baggage_answer baggage_fits(size_t needed, size_t room_len) {
    baggage_answer answer;
    memset(&answer, 0, sizeof answer);
    answer.status = needed <= room_len ? BAGGAGE_OK : BAGGAGE_ROOM;
    answer.size = needed;
    return answer;
}

/* Merges all runs, and what was lost, into the one context that the room begins with, and gives its size. */
static inline size_t baggage_merge_runs(baggage_runs *it) {
    uint8_t *merged;
    baggage_answer answer;
    while (it->count > 1)
        baggage_merge_last(it);
    if (!it->lost)
        return it->size;
    merged = it->room + it->size;
    answer = baggage_merge(BAGGAGE_FORM_ONE, it->room, it->size, BAGGAGE_LOST, sizeof BAGGAGE_LOST, merged, it->room_len - it->size);
    if (answer.status != BAGGAGE_OK) { /* together they would be too long: all is lost */
        it->room[0] = 0;
        return 1;
    }
    memmove(it->room, merged, answer.size);
    return answer.size;
}

/* ---- headers */

/* Writes the value of a header that carries the context: baggage_header_letters(context_len) letters, and no null byte. It gives their number. */
static inline size_t baggage_to_header(char *out, const uint8_t *context, size_t context_len) {
    uint32_t crc = baggage_crc32(context, context_len);
    uint8_t check[4];
    size_t letters = baggage_put_letters(out, context, context_len);
    check[0] = (uint8_t)(crc >> 24);
    check[1] = (uint8_t)(crc >> 16);
    check[2] = (uint8_t)(crc >> 8);
    check[3] = (uint8_t)crc;
    out[letters++] = '.';
    return letters + baggage_put_letters(out + letters, check, sizeof check);
}

/* The same into a room with its length: `size` is the number of letters. */
BAGGAGE_NODISCARD static inline baggage_answer baggage_to_header_into(const uint8_t *context, size_t context_len, char *room, size_t room_len) {
    baggage_answer answer = baggage_fits(baggage_header_letters(context_len), room_len);
    if (answer.status == BAGGAGE_OK)
        baggage_to_header(room, context, context_len);
    return answer;
}

/* The context that all values of a header carry, merged; each value is the bytes of one header line. It never fails: what can't be read counts
 * as BAGGAGE_LOST, and then `lost`, unless it is null, becomes 1, else 0. `absent`, an enum baggage_absent, says what stands for no value at
 * all; any other number than BAGGAGE_ABSENT_EMPTY is taken as lost. The room has BAGGAGE_EXTRACT_ROOM(total) bytes. It gives the number of
 * the context's bytes, which are in form one, or in form two where an atom needs it. It takes no memory, and of n letters the time of
 * n * log n, whatever stands in them. */
static inline size_t baggage_extract(uint8_t *room, const baggage_span *values, size_t values_len, uint32_t absent, int *lost) {
    size_t size, k;
    baggage_runs runs;
    runs.room = room;
    runs.room_len = BAGGAGE_EXTRACT_ROOM(baggage_length_of_all(values, values_len));
    runs.size = runs.parts = runs.count = 0;
    runs.left = SIZE_MAX;
    runs.lost = !values_len && absent != BAGGAGE_ABSENT_EMPTY;
    for (k = 0; k < values_len; k++)
        baggage_add_value(&runs, (const char *)values[k].bytes, values[k].length);
    size = baggage_merge_runs(&runs);
    if (lost)
        *lost = runs.lost;
    return size;
}

/* The same, answered: BAGGAGE_OK with the `size` of the context and, as `code`, BAGGAGE_PARTIAL where anything was lost, else BAGGAGE_EXACT; or BAGGAGE_ROOM. */
BAGGAGE_NODISCARD static inline baggage_answer baggage_extract_into(const baggage_span *values, size_t values_len, uint32_t absent, uint8_t *room,
                                                                    size_t room_len) {
    size_t needed = BAGGAGE_EXTRACT_ROOM(baggage_length_of_all(values, values_len));
    int lost = 0;
    baggage_answer answer = baggage_fits(needed, room_len);
    if (answer.status == BAGGAGE_OK) {
        answer.size = baggage_extract(room, values, values_len, absent, &lost);
        answer.code = lost ? BAGGAGE_PARTIAL : BAGGAGE_EXACT;
    }
    return answer;
}

/* The same of one value. The room has BAGGAGE_EXTRACT_ROOM(text_len) bytes. */
static inline size_t baggage_from_header(uint8_t *room, const char *text, size_t text_len, int *lost) {
    baggage_span values[1];
    values[0].bytes = (const uint8_t *)text;
    values[0].length = text_len;
    return baggage_extract(room, values, 1, BAGGAGE_ABSENT_LOST, lost);
}

/* The same of one value, into a room with its length: as baggage_extract_into answers. */
BAGGAGE_NODISCARD static inline baggage_answer baggage_from_header_into(const char *text, size_t text_len, uint8_t *room, size_t room_len) {
    baggage_span values[1];
    values[0].bytes = (const uint8_t *)text;
    values[0].length = text_len;
    return baggage_extract_into(values, 1, BAGGAGE_ABSENT_LOST, room, room_len);
}

/* ---- replies
 *
 * A reply says which request it answers: its header terncommode-for is the check of the first part of the value that came. So the reply to another
 * request, which a shared cache gives, is known as such and counts as lost. */

/* The check of the first part of a header's value: where it stands, of 6 letters; null where the part has none. */
static inline const char *baggage_check_of(const char *value, size_t value_len) {
    size_t from = 0, to = baggage_part_end(value, 0, value_len);
    uint8_t check[5];
    size_t check_len;
    baggage_trim_blanks(value, &from, &to);
    if (to - from < 7 || value[to - 7] != '.' || !baggage_get_letters(value + to - 6, 6, check, &check_len))
        return NULL;
    return value + to - 6;
}

/* Whether a reply with this value of terncommode-for answers the request that was sent with this value of terncommode. Where it isn't so, also where one of
 * both is missing or comes twice, the reply's context is BAGGAGE_LOST. */
static inline int baggage_is_answer(const char *answers, size_t answers_len, const char *sent, size_t sent_len) {
    const char *check = baggage_check_of(sent, sent_len);
    return check && answers_len == 6 && memcmp(answers, check, 6) == 0;
}

/* ---- carriers of bytes */

/* What is sent over a carrier of bytes: the context in form two, of which no part is taken for the whole. As baggage_join answers. */
BAGGAGE_NODISCARD static inline baggage_answer baggage_to_binary(const uint8_t *context, size_t context_len, uint8_t *room, size_t room_len) {
    return baggage_trim(BAGGAGE_FORM_TWO, context, context_len, BAGGAGE_NO_BUDGET, room, room_len);
}

/* The context that came over such a carrier: bytes in form two, or in form one from older senders. It never fails: no byte at all, and what is no
 * context, is lost. The room has BAGGAGE_ROOM_FOR(bytes_len) bytes. */
static inline size_t baggage_from_binary(uint8_t *room, const uint8_t *bytes, size_t bytes_len, int *lost) {
    baggage_answer answer = baggage_trim(BAGGAGE_FORM_ONE, bytes, bytes_len, BAGGAGE_NO_BUDGET, room, BAGGAGE_ROOM_FOR(bytes_len));
    int is_lost = !bytes_len || answer.status != BAGGAGE_OK;
    if (lost)
        *lost = is_lost;
    if (!is_lost)
        return answer.size;
    room[0] = 0;
    return 1;
}

/* The same into a room with its length: as baggage_extract_into answers. */
BAGGAGE_NODISCARD static inline baggage_answer baggage_from_binary_into(const uint8_t *bytes, size_t bytes_len, uint8_t *room, size_t room_len) {
    int lost = 0;
    baggage_answer answer = baggage_fits(BAGGAGE_ROOM_FOR(bytes_len), room_len);
    if (answer.status == BAGGAGE_OK) {
        answer.size = baggage_from_binary(room, bytes, bytes_len, &lost);
        answer.code = lost ? BAGGAGE_PARTIAL : BAGGAGE_EXACT;
    }
    return answer;
}

/* ---- writes */

/* The line of a write to a counter: `PATH 0xWRITER:TOTAL` and a line feed. The writer is 8 random bytes that are drawn once for each visit of this service, and
 * total is what this visit has counted in all for this counter, whatever other tables call it: the greatest count of a writer stays. Two branches of a
 * request never share a writer. */
BAGGAGE_NODISCARD static inline baggage_answer baggage_count_into(const char *path, size_t path_len, const uint8_t writer[8], uint64_t total, char *room,
                                                                  size_t room_len) {
    char rest[48];
    int written;
    uint64_t name = 0;
    baggage_answer answer;
    size_t k;
    for (k = 0; k < 8; k++)
        name = name << 8 | writer[k];
    written = snprintf(rest, sizeof rest, " 0x%016llx:%llu\n", (unsigned long long)name, (unsigned long long)total);
    answer = baggage_fits(path_len + (size_t)written, room_len);
    if (answer.status == BAGGAGE_OK) {
        memcpy(room, path, path_len);
        memcpy(room + path_len, rest, (size_t)written);
    }
    return answer;
}

/* ---- texts for people */

/* How many bytes at this place a terminal or a log could obey: those of control characters, of line and paragraph separators, and of marks that turn the
 * direction of writing; 0 where another character stands there. */
static inline size_t baggage_obeyed(const unsigned char *text, size_t length) {
    if (text[0] < 0x20 || text[0] == 0x7f)
        return 1;
    if (length > 1 && text[0] == 0xc2 && text[1] >= 0x80 && text[1] < 0xa0)
        return 2;
    if (length > 2 && text[0] == 0xe2 && text[1] == 0x80 && text[2] >= 0xa8 && text[2] <= 0xae)
        return 3;
    return length > 2 && text[0] == 0xe2 && text[1] == 0x81 && text[2] >= 0xa6 && text[2] <= 0xa9 ? 3 : 0;
}

/* Writes what is shown of a text, unless `out` is null, and gives how many letters that are. */
static inline size_t baggage_put_visible(char *out, const unsigned char *text, size_t length) {
    size_t size = 0, k = 0;
    while (k < length) {
        size_t obeyed = baggage_obeyed(text + k, length - k), letters = !obeyed ? 1 : obeyed == 1 ? 4 : 6;
        unsigned mark = obeyed == 3 ? 0x2000u | (text[k + 1] & 63u) << 6 | (text[k + 2] & 63u) : obeyed == 2 ? text[k + 1] : text[k];
        char one[8];
        if (obeyed)
            snprintf(one, sizeof one, obeyed == 1 ? "\\x%02x" : "\\u%04x", mark);
        else
            one[0] = (char)text[k];
        if (out)
            memcpy(out + size, one, letters);
        size += letters;
        k += obeyed ? obeyed : 1;
    }
    return size;
}

/* A text as it may be shown to people, with \xHH or \uHHHH in the place of each character that a terminal or a log could obey, line feeds among them: hand in
 * a report line by line. */
BAGGAGE_NODISCARD static inline baggage_answer baggage_visible_into(const char *text, size_t text_len, char *room, size_t room_len) {
    baggage_answer answer = baggage_fits(baggage_put_visible(NULL, (const unsigned char *)text, text_len), room_len);
    if (answer.status == BAGGAGE_OK)
        baggage_put_visible(room, (const unsigned char *)text, text_len);
    return answer;
}

#ifdef __cplusplus
}
#endif

#endif
