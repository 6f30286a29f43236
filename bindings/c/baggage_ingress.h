/* What strangers may say: the values of a header from outside, of which only the fields of a bag come in. This function is tested, not proved.
 *
 * A stranger can write any field, any marker, and bytes that no table names. So nothing of what came goes on as it came: each field is read under its own line
 * of the table and written anew. What the table doesn't name, what is ill typed, too long or beyond a limit stays outside, and where anything stayed
 * outside all fields are partial, unless the caller says that the request begins here. */
#ifndef BAGGAGE_INGRESS_H
#define BAGGAGE_INGRESS_H

#include "baggage_carriers.h"

#ifdef __cplusplus
extern "C" {
#endif

/* What is let in at most. */
typedef struct baggage_limits {
    size_t letters;     /* of all values of the header together; where they have more, nothing of them is read */
    size_t parts;       /* of all values, separated by commas */
    size_t text;        /* the letters of a literal: of a string, of bytes, of a key, of a struct; never more than `letters` */
    uint64_t budget;    /* the bytes of the context, in form one */
    int drops_partial;  /* not 0: the request begins here. Fields that aren't exact, or of which anything stays outside, are left out, and nothing is said of them:
                           what comes in is exact, and no stranger makes the fields of others partial */
} baggage_limits;

/* The limits where the caller has no others: { 8192 letters, 16 parts, 1024 letters a literal, a request's budget, and what stays outside is told. */
#define BAGGAGE_LIMITS {8192, 16, 1024, BAGGAGE_REQUEST_BUDGET, 0}

/* How long a scratch room baggage_ingress takes. */
#define BAGGAGE_INGRESS_SCRATCH(limit_of_letters, table_len) (13 * (limit_of_letters) + 6 * (table_len) + 136)

/* ---- what the function below is made of */

/* A table's text and the text of one of its fields. */
typedef struct baggage_slot {
    const char *table;
    size_t table_len;
    size_t from;         /* where the next line begins */
    size_t ways[17];     /* where the line of the bag of each depth begins that is open, */
    size_t way_ends[17]; /* and ends */
    char *excerpt;       /* the table of the slot alone, and then its path and a blank */
    size_t excerpt_len;
    size_t path_len;
} baggage_slot;

/* Where the line ends that begins here, with its line feed. */
static inline size_t baggage_line_end(const baggage_slot *it, size_t from) {
    return (size_t)((const char *)memchr(it->table + from, '\n', it->table_len - from) - it->table) + 1;
}

static inline size_t baggage_depth_of(const baggage_slot *it, size_t from) {
    size_t depth = 0;
    for (; it->table[from] != ' '; from++)
        depth = 10 * depth + (size_t)(it->table[from] - '0');
    return depth;
}

/* Where the word with this number begins of the line that begins here. */
static inline size_t baggage_word_of(const baggage_slot *it, size_t from, int number) {
    for (; number; number--)
        from = (size_t)((const char *)memchr(it->table + from, ' ', it->table_len - from) - it->table) + 1;
    return from;
}

static inline void baggage_put_excerpt(baggage_slot *it, size_t from, size_t to) {
    memcpy(it->excerpt + it->excerpt_len, it->table + from, to - from);
    it->excerpt_len += to - from;
}

/* Adds the name of the field of the line that begins here, and a letter. */
static inline void baggage_put_name(baggage_slot *it, size_t line, char after) {
    size_t from = baggage_word_of(it, line, 2), to = baggage_word_of(it, line, 3) - 1;
    char *path = it->excerpt + it->excerpt_len + it->path_len;
    memcpy(path, it->table + from, to - from);
    path[to - from] = after;
    it->path_len += to - from + 1;
}

/* Goes on to the next slot of a table that was checked: its excerpt and its path, with a blank after it; 0 where there is none. The room of excerpts has twice the
 * bytes of the table. */
static inline int baggage_next_slot(baggage_slot *it) {
    size_t depth = 0, line = 0, k;
    for (; it->from < it->table_len; it->ways[depth] = line, it->way_ends[depth] = it->from) {
        line = it->from;
        depth = baggage_depth_of(it, line);
        it->from = baggage_line_end(it, line);
        if (it->from - baggage_word_of(it, line, 3) != 4 || memcmp(it->table + it->from - 4, "bag", 3) != 0)
            break;
    }
    if (!line || it->ways[depth] == line)
        return 0;
    while (it->from < it->table_len && baggage_depth_of(it, it->from) > depth)
        it->from = baggage_line_end(it, it->from); /* inside of a map */
    it->excerpt_len = it->path_len = 0;
    baggage_put_excerpt(it, 0, baggage_line_end(it, 0));
    for (k = 0; k < depth; k++)
        baggage_put_excerpt(it, it->ways[k], it->way_ends[k]);
    baggage_put_excerpt(it, line, it->from);
    for (k = 0; k < depth; k++)
        baggage_put_name(it, it->ways[k], '.');
    baggage_put_name(it, line, ' ');
    return 1;
}

/* What comes in of one field: the context with it, and lines of writes that aren't in it yet. */
typedef struct baggage_coming {
    const baggage_limits *limits;
    const baggage_slot *slot;
    uint8_t *context, *other; /* two rooms of as many bytes, which change places */
    size_t context_len, context_room;
    char *lines;
    size_t lines_len, lines_room;
    char *prefix; /* of the next line: the path, keys and names of fields */
    size_t prefix_len, prefix_room; /* how long it may be */
    int is_outside; /* whether what is read now stays outside */
    int stays;      /* whether anything of the field stays outside */
} baggage_coming;

/* Writes the lines into the context. */
static inline void baggage_write_lines(baggage_coming *it) {
    uint8_t *written = it->other;
    baggage_span input;
    baggage_answer answer;
    input.bytes = it->context;
    input.length = it->context_len;
    answer = baggage_update(BAGGAGE_FORM_ONE, it->slot->excerpt, it->slot->excerpt_len, &input, 1, it->lines, it->lines_len, BAGGAGE_NO_BUDGET, written,
                            it->context_room);
    it->lines_len = 0;
    if (answer.status != BAGGAGE_OK) {
        it->stays = 1;
        return;
    }
    it->other = it->context;
    it->context = written;
    it->context_len = answer.size;
}

/* Adds a line: the prefix, and a literal. */
static inline void baggage_add_line(baggage_coming *it, const char *text, size_t length) {
    size_t needed = it->prefix_len + length + 1;
    if (it->is_outside || length > it->limits->text || length > it->limits->letters) {
        it->stays = 1;
        return;
    }
    if (needed > it->lines_room - it->lines_len)
        baggage_write_lines(it);
    memcpy(it->lines + it->lines_len, it->prefix, it->prefix_len);
    memcpy(it->lines + it->lines_len + it->prefix_len, text, length);
    it->lines_len += needed;
    it->lines[it->lines_len - 1] = '\n';
}

/* Adds letters to the prefix, of which there are at most `limit`, and beside the path at most as many as in a header; where they are more, what is below them stays
 * outside. */
static inline void baggage_add_prefix(baggage_coming *it, const char *text, size_t length, size_t limit) {
    if (length > limit || length > it->prefix_room - it->prefix_len) {
        it->is_outside = it->stays = 1;
        return;
    }
    memcpy(it->prefix + it->prefix_len, text, length);
    it->prefix_len += length;
}

/* Where a literal ends that begins here: after its quotes or its brackets, else before the next letter that isn't its own. */
static inline const char *baggage_literal_end(const char *at, const char *end) {
    int depth = 0, is_quoted = 0;
    for (; at < end; at++) {
        if (is_quoted && *at == '\\')
            at++;
        else if (*at == '"')
            is_quoted = !is_quoted;
        else if (!is_quoted && *at == '(')
            depth++;
        else if (!is_quoted && *at == ')' && --depth == 0)
            return at + 1;
        else if (!is_quoted && !depth && memchr(",:{}]", *at, 5))
            break;
    }
    return at;
}

static inline const char *baggage_let_in(baggage_coming *it, const char *at, const char *end, size_t *count);

/* Lets a value in that stands below a key or the name of a field, which is at `from` and `length` letters long with the letter after it; gives where it ends. */
static inline const char *baggage_let_below_in(baggage_coming *it, const char *from, size_t length, size_t limit, const char *end, size_t *count) {
    size_t prefix_len = it->prefix_len;
    int is_outside = it->is_outside;
    const char *at;
    baggage_add_prefix(it, from, length, limit);
    at = baggage_let_in(it, from + length, end, count);
    it->prefix_len = prefix_len;
    it->is_outside = is_outside;
    return at;
}

/* Lets the entries of a set, a counter or a map in, of which the text begins after its bracket. */
static inline const char *baggage_let_entries_in(baggage_coming *it, const char *at, const char *end, size_t *count) {
    while (at < end && *at != '}') {
        const char *literal = at;
        size_t written = 0;
        at = baggage_literal_end(at, end);
        if (at < end && *at == ':') {
            at = baggage_let_below_in(it, literal, (size_t)(at + 1 - literal), it->limits->text + 1, end, &written);
            it->stays |= !written; /* a key without a value can't be written */
        } else {
            baggage_add_line(it, literal, (size_t)(at - literal));
            written = 1;
        }
        *count += written;
        at += at < end && *at == ',';
    }
    return at + (at < end);
}

/* The same of the fields of a bag inside of a map. */
static inline const char *baggage_let_fields_in(baggage_coming *it, const char *at, const char *end, size_t *count) {
    size_t prefix_len = it->prefix_len;
    baggage_add_prefix(it, ".", 1, 1);
    while (at < end && *at != ']') {
        const char *equals = (const char *)memchr(at, '=', (size_t)(end - at));
        if (!equals)
            return end;
        at = baggage_let_below_in(it, at, (size_t)(equals + 1 - at), SIZE_MAX, end, count);
        at += at < end && *at == ',';
    }
    it->prefix_len = prefix_len;
    return at + (at < end);
}

/* Lets the value in whose text begins here, counts what is written of it, and gives where the text ends. */
static inline const char *baggage_let_in(baggage_coming *it, const char *at, const char *end, size_t *count) {
    const char *literal = at;
    at = at < end && *at == '[' ? at : baggage_literal_end(at, end);
    if (at < end && *at == '[')
        return baggage_let_fields_in(it, at + 1, end, count);
    if (at < end && *at == '{') /* before it stood the total of a counter, or nothing */
        return baggage_let_entries_in(it, at + 1, end, count);
    if ((at - literal == 1 && *literal == '-') || (at - literal == 3 && memcmp(literal, "off", 3) == 0))
        return at;
    baggage_add_line(it, literal, (size_t)(at - literal));
    ++*count;
    return at;
}

/* Lets one field in, of the context that came, beside what is already in. */
static inline void baggage_let_field_in(baggage_coming *it, baggage_span came, char *text, size_t text_room) {
    const baggage_slot *slot = it->slot;
    const char *path = slot->excerpt + slot->excerpt_len;
    size_t count = 0;
    baggage_answer answer = baggage_read_field(slot->excerpt, slot->excerpt_len, came.bytes, came.length, path, slot->path_len - 1, text, text_room);
    it->prefix_len = it->lines_len = 0;
    it->prefix_room = slot->path_len + it->limits->letters;
    it->is_outside = 0;
    it->stays = answer.status != BAGGAGE_OK || (it->limits->drops_partial && answer.code != BAGGAGE_EXACT);
    if (it->stays)
        return;
    baggage_add_prefix(it, path, slot->path_len, SIZE_MAX);
    baggage_let_in(it, text, text + answer.size, &count);
    if (it->lines_len)
        baggage_write_lines(it);
}

/* A room's bytes, which are given away from its front. */
typedef struct baggage_space {
    uint8_t *at;
    size_t left;
    int is_short;
} baggage_space;

static inline uint8_t *baggage_give(baggage_space *it, size_t size) {
    uint8_t *at = it->at;
    it->is_short |= size > it->left;
    if (it->is_short)
        return at;
    it->at += size;
    it->left -= size;
    return at;
}

/* What came, merged in a part of the space that it takes. Where anything of it was lost, or it has too many letters, `lost` becomes 1. */
static inline baggage_span baggage_came(baggage_space *space, const baggage_span *values, size_t values_len, const baggage_limits *limits, int *lost) {
    size_t k, total = baggage_length_of_all(values, values_len);
    baggage_runs runs;
    baggage_span came;
    runs.lost = total > limits->letters;
    values_len = runs.lost ? 0 : values_len;
    runs.room_len = BAGGAGE_EXTRACT_ROOM(values_len ? total : 0);
    came.bytes = runs.room = baggage_give(space, runs.room_len);
    runs.size = runs.parts = runs.count = 0;
    runs.left = limits->parts;
    for (k = 0; k < values_len && !space->is_short; k++)
        baggage_add_value(&runs, (const char *)values[k].bytes, values[k].length);
    *lost = runs.lost;
    came.length = space->is_short ? 0 : baggage_merge_runs(&runs);
    return came;
}

/* The places of all slots in what came, so that the fields of which nothing is said aren't read one by one; null where there is no memory for them. A line of a
 * table has more than half the bytes of a place. */
static inline const baggage_place *baggage_places_of(baggage_space *space, const baggage_slot *slot, size_t slots, baggage_span came) {
    size_t unaligned = (8 - ((uintptr_t)space->at & 7)) & 7;
    baggage_place *places;
    baggage_give(space, unaligned);
    places = (baggage_place *)(void *)baggage_give(space, slots * sizeof *places);
    if (space->is_short || baggage_places(slot->table, slot->table_len, came.bytes, came.length, places, slots).status != BAGGAGE_OK)
        return NULL;
    return places;
}

/* Lets all fields of what came in, each beside those before it, and gives whether anything of them stays outside. */
static inline int baggage_let_all_in(baggage_coming *it, baggage_slot *slot, baggage_span came, const baggage_place *places, char *text, size_t text_room, uint8_t *in,
                                     size_t *in_len) {
    int stays = 0;
    size_t k;
    for (k = 0; baggage_next_slot(slot); k++) {
        if (places && !places[k].length && places[k].state != BAGGAGE_ILL_TYPED)
            continue;
        memcpy(it->context, in, it->context_len = *in_len);
        baggage_let_field_in(it, came, text, text_room);
        stays |= it->stays;
        if (it->limits->drops_partial && (it->stays || it->context_len > it->limits->budget))
            continue;
        memcpy(in, it->context, *in_len = it->context_len);
    }
    return stays;
}

/* Gives the rooms for what comes in, and that of what is in. What is left of the space has four times the letters of a header, for the text of a field. */
static inline uint8_t *baggage_divide(baggage_space *space, baggage_coming *it, size_t came_len) {
    size_t room_len = BAGGAGE_ROOM_FOR(came_len), letters = it->limits->letters;
    uint8_t *in = baggage_give(space, room_len);
    it->context_room = room_len;
    it->context = baggage_give(space, room_len);
    it->other = baggage_give(space, room_len);
    it->prefix = (char *)baggage_give(space, it->slot->table_len + letters);
    it->lines_room = it->slot->table_len + 2 * letters + 1;
    it->lines = (char *)baggage_give(space, it->lines_room);
    return in;
}

/* Whether what is in is all that came, as a service that knows the table takes it. */
static inline int baggage_is_all_in(baggage_coming *it, const baggage_slot *slot, baggage_span came, baggage_span in) {
    baggage_answer answer = baggage_update(BAGGAGE_FORM_ONE, slot->table, slot->table_len, &came, 1, "", 0, BAGGAGE_NO_BUDGET, it->other, it->context_room);
    return answer.status == BAGGAGE_OK && answer.size == in.length && memcmp(it->other, in.bytes, in.length) == 0;
}

/* ---- the way in */

/* The context that comes in from outside: of what the values of a header carry the fields of the table, each read and written anew, within the limits. Where anything
 * of what came stays outside, it is joined with BAGGAGE_LOST and `code` is BAGGAGE_PARTIAL, else BAGGAGE_EXACT. Without a value it is the empty context, since a
 * request begins here. It answers BAGGAGE_OK with the `size` of the context; BAGGAGE_TABLE as baggage_check_table does; BAGGAGE_BUDGET; BAGGAGE_ROOM with the size that is
 * needed, of the room or else of the scratch room; or BAGGAGE_MEMORY. The bytes of the scratch room are of no use afterwards. */
BAGGAGE_NODISCARD static inline baggage_answer baggage_ingress(const baggage_span *values, size_t values_len, const char *table, size_t table_len,
                                                               const baggage_limits *limits, void *scratch, size_t scratch_len, uint8_t *room, size_t room_len) {
    baggage_space space;
    baggage_slot slot;
    baggage_coming coming;
    baggage_span spans[2], came;
    const baggage_place *places;
    int lost = 0, stays;
    uint8_t *in;
    baggage_answer answer = baggage_check_table(table, table_len);
    if (answer.status != BAGGAGE_OK)
        return answer;
    if (scratch_len < BAGGAGE_INGRESS_SCRATCH(limits->letters, table_len))
        return baggage_fits(BAGGAGE_INGRESS_SCRATCH(limits->letters, table_len), scratch_len);
    memset(&slot, 0, sizeof slot);
    memset(&coming, 0, sizeof coming);
    space.at = (uint8_t *)scratch, space.left = scratch_len, space.is_short = 0;
    slot.table = table, slot.table_len = table_len, slot.from = baggage_line_end(&slot, 0);
    slot.excerpt = (char *)baggage_give(&space, 2 * table_len);
    coming.limits = limits, coming.slot = &slot;
    came = baggage_came(&space, values, values_len, limits, &lost);
    in = baggage_divide(&space, &coming, came.length);
    places = baggage_places_of(&space, &slot, answer.size, came);
    spans[0].bytes = in, spans[0].length = 0;
    spans[1].bytes = BAGGAGE_LOST, spans[1].length = sizeof BAGGAGE_LOST;
    stays = baggage_let_all_in(&coming, &slot, came, places, (char *)space.at, 4 * limits->letters, in, &spans[0].length);
    lost = !limits->drops_partial && (lost || stays || !baggage_is_all_in(&coming, &slot, came, spans[0]));
    answer = baggage_join(BAGGAGE_FORM_ONE, spans, lost ? 2 : 1, limits->budget, room, room_len);
    if (answer.status == BAGGAGE_OK)
        answer.code = lost || spans[0].length > limits->budget ? BAGGAGE_PARTIAL : BAGGAGE_EXACT;
    return answer;
}

#ifdef __cplusplus
}
#endif

#endif
