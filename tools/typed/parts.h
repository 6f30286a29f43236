#ifndef BAGGAGE_PARTS_H
#define BAGGAGE_PARTS_H

/* ---- what all accessors share: atoms, the spellings of values, and the lines of writes */

#include <string.h>

/* A string or bytes. In `bytes`, inside the context itself, `ff` stands after each zero byte where `is_escaped` isn't 0: baggage_copy takes them
 * away. */
typedef struct baggage_text {
    const uint8_t *bytes;
    size_t length;
    int is_escaped;
} baggage_text;

/* The atoms under a header, in which headers have this level and higher ones. */
typedef struct baggage_part {
    const uint8_t *at;
    size_t length;
    uint32_t form;
    uint32_t level;
} baggage_part;

/* A sum of counts, which may pass 2^64: high * 2^64 + low. */
typedef struct baggage_total {
    uint64_t high;
    uint64_t low;
} baggage_total;

/* The lines of writes, which go into the room. Where they are too long for it, `size` is above `room_len`, and they are no lines. */
typedef struct baggage_lines {
    char *room;
    size_t room_len;
    size_t size;
} baggage_lines;

/* The text of a string that ends in a null byte. */
static inline baggage_text baggage_text_of(const char *string) {
    baggage_text text;
    text.bytes = (const uint8_t *)string;
    text.length = strlen(string);
    text.is_escaped = 0;
    return text;
}

/* The text of bytes. */
static inline baggage_text baggage_text_from(const void *bytes, size_t length) {
    baggage_text text;
    text.bytes = (const uint8_t *)bytes;
    text.length = length;
    text.is_escaped = 0;
    return text;
}

/* Copies a text into a room that is as long as it, and gives how many bytes it has. There is no null byte after it. */
static inline size_t baggage_copy(uint8_t *room, baggage_text text) {
    size_t from, to = 0;
    for (from = 0; from < text.length; from++) {
        room[to++] = text.bytes[from];
        if (text.is_escaped && text.bytes[from] == 0)
            from++;
    }
    return to;
}

/* Atoms */

static inline uint8_t baggage_take_byte(baggage_text *rest) {
    if (!rest->length)
        return 0;
    rest->length--;
    return *rest->bytes++;
}

static inline unsigned baggage_ones_of(uint8_t first) {
    unsigned ones = 0;
    while (ones < 8 && (first & (0x80u >> ones)) != 0)
        ones++;
    return ones;
}

/* In a context no number is cut off, so the bytes that would be missing are never read. */
static inline uint64_t baggage_take_big_endian(baggage_text *rest, uint64_t number, unsigned count, uint8_t flip) {
    const uint8_t *bytes = rest->bytes;
    unsigned at;
    if (rest->length < count)
        count = (unsigned)rest->length;
    for (at = 0; at < count; at++)
        number = number << 8 | (uint8_t)(bytes[at] ^ flip);
    rest->bytes = bytes + count;
    rest->length -= count;
    return number;
}

static inline uint64_t baggage_take_varint(baggage_text *rest) {
    uint8_t first = baggage_take_byte(rest);
    unsigned more = baggage_ones_of(first);
    return baggage_take_big_endian(rest, first & (0x7fu >> more), more, 0);
}

static inline size_t baggage_take_length(baggage_text *rest, uint32_t form) {
    size_t length = 0;
    unsigned shift;
    if (form == BAGGAGE_FORM_TWO)
        return (size_t)baggage_take_varint(rest);
    for (shift = 0; shift < 21; shift += 7) {
        uint8_t group = baggage_take_byte(rest);
        length |= (size_t)(group & 0x7f) << shift;
        if (group < 0x80)
            break;
    }
    return length;
}

static inline baggage_text baggage_rest_of(const baggage_part *part) { return baggage_text_from(part->at, part->length); }

/* The next atom, which is taken off; 0 where there is none. */
static inline int baggage_next_atom(baggage_part *part, baggage_text *atom) {
    baggage_text rest = baggage_rest_of(part);
    if (!rest.length)
        return 0;
    *atom = rest;
    atom->length = baggage_take_length(&rest, part->form);
    atom->bytes = rest.bytes;
    if (atom->length > rest.length)
        atom->length = rest.length;
    part->at = rest.bytes + atom->length;
    part->length = rest.length - atom->length;
    return 1;
}

static inline int baggage_is_header(const baggage_text *atom) { return atom->length != 0 && atom->bytes[0] != 0; }

static inline int baggage_is_keyed(const baggage_text *header) { return header->bytes[0] & 1; }

static inline uint32_t baggage_level_of(const baggage_text *header) { return (0xf8u - (header->bytes[0] & 0xf8u)) / 8; }

static inline baggage_text baggage_body_of(baggage_text atom) {
    atom.bytes++;
    atom.length--;
    return atom;
}

/* The payload of the next datum before the first header; 0 where there is none. */
static inline int baggage_next_datum(baggage_part *part, baggage_text *payload) {
    baggage_part after = *part;
    baggage_text atom;
    while (baggage_next_atom(&after, &atom) && !baggage_is_header(&atom)) {
        *part = after;
        if (atom.length) {
            *payload = baggage_body_of(atom);
            return 1;
        }
    }
    return 0;
}

/* The next header of the part's level, and what stands under it; 0 where there is none. */
static inline int baggage_next_header(baggage_part *part, baggage_text *header, baggage_part *under) {
    while (baggage_next_atom(part, header)) {
        if (!baggage_is_header(header) || baggage_level_of(header) != part->level)
            continue;
        *under = *part;
        under->level = part->level + 1;
        for (;;) {
            baggage_part before = *part;
            baggage_text atom;
            if (!baggage_next_atom(part, &atom) || (baggage_is_header(&atom) && baggage_level_of(&atom) <= part->level)) {
                *part = before;
                under->length -= before.length;
                return 1;
            }
        }
    }
    return 0;
}

/* The next key, and what stands under it; 0 where there is none. */
static inline int baggage_next_key(baggage_part *part, baggage_text *key, baggage_part *under) {
    while (baggage_next_header(part, key, under)) {
        if (baggage_is_keyed(key)) {
            *key = baggage_body_of(*key);
            return 1;
        }
    }
    return 0;
}

/* What stands under the header with this number. */
static inline baggage_part baggage_field_of(baggage_part part, uint64_t number) {
    baggage_part under = part;
    baggage_text header;
    while (baggage_next_header(&part, &header, &under)) {
        baggage_text body = baggage_body_of(header);
        if (!baggage_is_keyed(&header) && baggage_take_varint(&body) == number)
            return under;
    }
    under = part;
    under.length = 0;
    under.level = part.level + 1;
    return under;
}

/* The part of a slot whose headers below have this level; without atoms where it is absent or ill typed. */
static inline baggage_part baggage_part_at(const uint8_t *context, uint32_t form, const baggage_place *place, uint32_t level) {
    baggage_part part;
    part.at = place->length ? context + place->offset : context;
    part.length = place->length;
    part.form = form;
    part.level = level;
    return part;
}

/* The first datum of a part, or the last; 0 where there is none. */
static inline int baggage_least_of(baggage_part part, baggage_text *payload) { return baggage_next_datum(&part, payload); }

static inline int baggage_greatest_of(baggage_part part, baggage_text *payload) {
    int found = 0;
    while (baggage_next_datum(&part, payload))
        found = 1;
    return found;
}

/* Whether a taint is on. */
static inline int baggage_is_on(baggage_part part) {
    baggage_text payload;
    return baggage_next_datum(&part, &payload);
}

/* Counters */

/* The next writer of a counter, and its count; 0 where there is none. */
static inline int baggage_next_count(baggage_part *part, baggage_text *writer, uint64_t *count) {
    baggage_part under;
    baggage_text payload;
    if (!baggage_next_key(part, writer, &under))
        return 0;
    *count = baggage_greatest_of(under, &payload) ? baggage_take_varint(&payload) : 0;
    return 1;
}

/* The sum of a counter's counts. */
static inline baggage_total baggage_total_of(baggage_part part) {
    baggage_total total = {0, 0};
    baggage_text writer;
    uint64_t count;
    while (baggage_next_count(&part, &writer, &count)) {
        total.low += count;
        total.high += total.low < count;
    }
    return total;
}

/* Spellings: each takes a value off, all of the text or, inside a struct, what is its own. */

static inline int64_t baggage_take_signed(baggage_text *rest) {
    uint8_t first = baggage_take_byte(rest), flip = first < 0x80 ? 0xff : 0, turned = first ^ flip;
    unsigned ones = baggage_ones_of(turned);
    uint64_t number = baggage_take_big_endian(rest, turned & (0x7fu >> ones), ones == 8 ? 8 : ones - 1, flip);
    int64_t positive = (int64_t)(number & INT64_MAX);
    return flip ? -1 - positive : positive;
}

static inline int baggage_take_bool(baggage_text *rest, int is_inside) { return (void)is_inside, baggage_take_byte(rest) == 1; }

static inline int32_t baggage_take_int32(baggage_text *rest, int is_inside) { return (void)is_inside, (int32_t)baggage_take_signed(rest); }

static inline int64_t baggage_take_int64(baggage_text *rest, int is_inside) { return (void)is_inside, baggage_take_signed(rest); }

static inline uint32_t baggage_take_uint32(baggage_text *rest, int is_inside) { return (void)is_inside, (uint32_t)baggage_take_varint(rest); }

static inline uint64_t baggage_take_uint64(baggage_text *rest, int is_inside) { return (void)is_inside, baggage_take_varint(rest); }

static inline uint32_t baggage_take_fixed32(baggage_text *rest, int is_inside) {
    const uint8_t *bytes = rest->bytes;
    if (rest->length < 4)
        return (void)is_inside, (uint32_t)baggage_take_big_endian(rest, 0, 4, 0);
    rest->bytes += 4;
    rest->length -= 4;
    return (uint32_t)bytes[0] << 24 | (uint32_t)bytes[1] << 16 | (uint32_t)bytes[2] << 8 | bytes[3];
}

static inline uint64_t baggage_take_fixed64(baggage_text *rest, int is_inside) { return (void)is_inside, baggage_take_big_endian(rest, 0, 8, 0); }

static inline int32_t baggage_take_sfixed32(baggage_text *rest, int is_inside) {
    return (int32_t)((int64_t)baggage_take_fixed32(rest, is_inside) + INT32_MIN);
}

static inline int64_t baggage_take_sfixed64(baggage_text *rest, int is_inside) {
    uint64_t number = baggage_take_fixed64(rest, is_inside);
    return number >> 63 ? (int64_t)(number & INT64_MAX) : (int64_t)number + INT64_MIN;
}

static inline baggage_text baggage_take_bytes(baggage_text *rest, int is_inside) {
    baggage_text text = *rest;
    if (!is_inside) {
        rest->bytes += rest->length;
        rest->length = 0;
        return text;
    }
    text.length = 0;
    text.is_escaped = 1;
    while (rest->length) {
        if (baggage_take_byte(rest) == 0 && baggage_take_byte(rest) == 1)
            break;
        text.length = (size_t)(rest->bytes - text.bytes);
    }
    return text;
}

/* Lines */

static inline void baggage_put(baggage_lines *lines, const char *text, size_t length) {
    if (length && lines->size <= lines->room_len && length <= lines->room_len - lines->size)
        memcpy(lines->room + lines->size, text, length);
    lines->size += length;
}

static inline void baggage_put_text(baggage_lines *lines, const char *text) { baggage_put(lines, text, strlen(text)); }

static inline void baggage_put_unsigned(baggage_lines *lines, uint64_t number) {
    char digits[20];
    size_t first = sizeof digits;
    do {
        digits[--first] = (char)('0' + number % 10);
        number /= 10;
    } while (number);
    baggage_put(lines, digits + first, sizeof digits - first);
}

static inline void baggage_put_signed(baggage_lines *lines, int64_t number) {
    if (number < 0)
        baggage_put(lines, "-", 1);
    baggage_put_unsigned(lines, number < 0 ? 0 - (uint64_t)number : (uint64_t)number);
}

static inline void baggage_put_bool(baggage_lines *lines, int value) { baggage_put_text(lines, value ? "true" : "false"); }

static inline void baggage_put_hex(baggage_lines *lines, uint8_t byte) {
    static const char digits[] = "0123456789abcdef";
    char pair[2];
    pair[0] = digits[byte >> 4];
    pair[1] = digits[byte & 15];
    baggage_put(lines, pair, 2);
}

/* The literal of bytes. */
static inline void baggage_put_bytes(baggage_lines *lines, baggage_text text) {
    size_t k;
    baggage_put(lines, "0x", 2);
    for (k = 0; k < text.length; k++) {
        baggage_put_hex(lines, text.bytes[k]);
        if (text.is_escaped && text.bytes[k] == 0)
            k++;
    }
}

/* The literal of a string. One that isn't UTF-8 makes a line that is no write. */
static inline void baggage_put_string(baggage_lines *lines, baggage_text text) {
    size_t k;
    baggage_put(lines, "\"", 1);
    for (k = 0; k < text.length; k++) {
        uint8_t byte = text.bytes[k];
        if (byte < 0x20 || byte == 0x7f) {
            baggage_put(lines, "\\x", 2);
            baggage_put_hex(lines, byte);
        } else {
            if (byte == '"' || byte == '\\')
                baggage_put(lines, "\\", 1);
            baggage_put(lines, (const char *)text.bytes + k, 1);
        }
        if (text.is_escaped && byte == 0)
            k++;
    }
    baggage_put(lines, "\"", 1);
}

#endif
