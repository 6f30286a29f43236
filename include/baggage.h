/* The library of baggage contexts: bytes in, bytes out, into a buffer of the caller's.
 *
 * A context is what a request carries along. Where branches of a request join, their contexts are merged; where a channel has a budget, a
 * context is cut to it. Both are done on bytes, without any definition of what they mean. Who has the table of a definition updates, reads
 * and writes its fields as well. docs/FORMATS.md has the bytes, the tables and the texts, docs/LIBRARY.md a request's whole life.
 *
 * Each call but those that are `static inline` is an export of the crate baggage_c whose result is proved: crates/baggage_c/src has the
 * statements. That this header says the same is read and tested, and so are its inline functions. That memory is given back and that no
 * state is kept is what Rattle's owned values give. The caller owes this:
 *
 * - A pointer and the length after it, in a span too, are those of an array that can be read, or written where it is `room`, for the whole
 *   call, and that nobody else writes meanwhile. It may be null where the length is 0. No array has more than 2^63 - 1 bytes. Spans and
 *   places are aligned as C aligns them.
 * - The room shares no byte with an input. Inputs may share bytes, and may be the same.
 * - `malloc`, `realloc` and `free` are from one allocator. No call is made in a signal handler, nor in a forked child of a process with
 *   threads before it calls exec.
 * - The thread has the stack that docs/LIBRARY.md names.
 * - No other object of the program defines a name that begins with `baggage_`.
 *
 * Any other value of an argument is answered. No call keeps a pointer, and the library has no state: any call may run beside any other, on
 * whatever thread. Memory that a call takes is given back before it returns.
 */
#ifndef BAGGAGE_H
#define BAGGAGE_H

#include <stddef.h>
#include <stdint.h>
#include <stdio.h>

#ifdef __cplusplus
extern "C" {
#endif

/* The version that this header belongs to: major * 10000 + minor * 100 + patch. baggage_version() tells the library's. */
#define BAGGAGE_VERSION 20000

#if defined(__GNUC__) || defined(__clang__)
#define BAGGAGE_NODISCARD __attribute__((warn_unused_result))
#else
#define BAGGAGE_NODISCARD
#endif

/* What a call came to. A status that you don't know is a refusal: the room is as it was. */
enum baggage_status {
    BAGGAGE_OK = 0,      /* done */
    BAGGAGE_FAULT = 1,   /* an input isn't the bytes of a context: the first such input, and its first fault */
    BAGGAGE_ROOM = 2,    /* the room is too short: `size` says how much is needed */
    BAGGAGE_MEMORY = 3,  /* out of memory, or a list would have 2^32 bytes or more; nothing is said of the inputs */
    BAGGAGE_FORM = 4,    /* no form has this number */
    BAGGAGE_BUDGET = 5,  /* the budget is below the least one: 1 in form one, 13 in form two */
    BAGGAGE_TABLE = 6,   /* the text isn't that of a table: its first bad line */
    BAGGAGE_FIELD = 7,   /* no slot of the table has the name path: a bag has none, nor has a field inside a map's values */
    BAGGAGE_WRITE = 8,   /* the text is no write to the field in this form, or a line of writes has no blank or no line feed */
    BAGGAGE_TYPE = 9,    /* a datum or a key isn't spelled as the type of its field says: the first such atom of the first such input */
    BAGGAGE_CHOICE = 10, /* a choice that the call offers no number for */
    BAGGAGE_WIDTH = 11,  /* a piece carries at most 4 to 300 bytes */
    BAGGAGE_LONG = 12,   /* more than 1,048,576 bytes can't be carried as pieces: `size` says how many there are */
    BAGGAGE_PIECES = 13, /* the lines carry no bytes: the first bad line, or what is wrong with all of them */
    BAGGAGE_OVERLAP = 255 /* of the inline functions of this header alone: the room shares bytes with an input, and nothing was done */
};

/* The order of causes: at each call the first of these that applies is reported, but BAGGAGE_MEMORY, which may stand for any from the table on:
 * form, budget, choice, width; the table; the field and the write, line by line; the pieces; the inputs in their order, of each first
 * the bytes and then the types; what is too long; the room. */

/* The forms of bytes. Inputs are read in the form that their own bytes begin with; what is written takes a form. Form one holds atoms of up to
 * 65,535 bytes: a list with a longer one is written in form two whatever was asked for. Form one has no end of its own: where a channel
 * may cut a text, send form two, or a length or a check beside it. */
enum baggage_form {
    BAGGAGE_FORM_ONE = 1,
    BAGGAGE_FORM_TWO = 2
};

/* What is wrong where bytes cease to be those of a context. */
enum baggage_code {
    BAGGAGE_CUT_LENGTH = 1,    /* the input ends inside the head or a length */
    BAGGAGE_BAD_COUNT = 2,     /* the number in the head isn't that of the bytes after it */
    BAGGAGE_ATOM_TOO_LONG = 3, /* a length is above the form's limit */
    BAGGAGE_LONG_FORM = 4,     /* a length has more bytes than it needs */
    BAGGAGE_CUT_BODY = 5,      /* fewer bytes follow than a length says */
    BAGGAGE_BAD_PREFIX = 6,    /* no kind of atom begins with this byte */
    BAGGAGE_BAD_INDEX = 7,     /* after the first byte of an indexed header stands anything but one varint */
    BAGGAGE_LEVEL_JUMP = 8,    /* a header is more than one level below the one before it */
    BAGGAGE_OUT_OF_ORDER = 9   /* an atom doesn't come after the one before it */
};

/* What is wrong with a line of a table's text. At one line the first of these counts. */
enum baggage_table_code {
    BAGGAGE_HEAD = 1,            /* the first line isn't `baggage table 1` */
    BAGGAGE_LINE_FORM = 2,       /* the line hasn't the form of a field's, or its line feed is missing */
    BAGGAGE_DEPTH = 3,           /* the field stands deeper than the lines before it let it */
    BAGGAGE_ORDER = 4,           /* its number isn't greater than that of the field before it in the same bag */
    BAGGAGE_DUPLICATE_FIELD = 5, /* an earlier field of the same bag has the name */
    BAGGAGE_TOO_DEEP = 6,        /* its headers would need more levels than there are */
    BAGGAGE_TOO_MANY_SLOTS = 7   /* as many fields as a table may have stand before it */
};

/* What is wrong with lines of pieces. The first five are told of a line, whose number `offset` is; the last three of all lines. */
enum baggage_piece_code {
    BAGGAGE_PIECE_FORM = 1,    /* the line hasn't the form of a piece's */
    BAGGAGE_PIECE_RANGE = 2,   /* its numbers are out of range */
    BAGGAGE_BAD_BASE64 = 3,    /* its text is no base64 */
    BAGGAGE_OTHER_COUNT = 4,   /* it says another count than the first piece */
    BAGGAGE_CLASH = 5,         /* an earlier piece with its number has another text */
    BAGGAGE_NO_LINE = 6,       /* there is no piece: `offset` is 0 */
    BAGGAGE_MISSING = 7,       /* a piece is missing: `offset` is the least number of one, from 0 on */
    BAGGAGE_TOO_MANY_BYTES = 8 /* together they carry more than 1,048,576 bytes: `offset` is 0 */
};

/* Whether what is read of a field is all that was said of it. */
enum baggage_state {
    BAGGAGE_EXACT = 1,    /* nothing of it can have been cut off */
    BAGGAGE_PARTIAL = 2,  /* something may have been cut off */
    BAGGAGE_ILL_TYPED = 3 /* of places alone: an atom of the field isn't spelled as its type says */
};

/* What baggage_keep does about the fields that it drops. */
enum baggage_others {
    BAGGAGE_CUT = 1,   /* they are marked as cut off: no field is read as exact that isn't, under any table */
    BAGGAGE_UNSAID = 2 /* nothing is said of them, but markers that were among them are still told of: kept fields are exactly as exact
                          as before, for readers with this table */
};

/* The form of a report. */
enum baggage_as {
    BAGGAGE_TEXT = 1, /* as `baggage decode` prints it */
    BAGGAGE_JSON = 2  /* the same as a JSON object, without a line feed */
};

/* What baggage_quote writes bytes as. */
enum baggage_literal {
    BAGGAGE_STRING = 1, /* between quotation marks */
    BAGGAGE_BYTES = 2   /* as hexadecimal digits after `0x` */
};

/* A room that is long enough for the literal of `length` bytes. */
#define BAGGAGE_QUOTE_ROOM(length) (4 * (length) + 2)

/* What baggage_evolve says of two tables. */
enum baggage_change {
    BAGGAGE_FITS = 0,  /* the next table may take the place of the old one */
    BAGGAGE_SHAPE = 1, /* a field has another shape */
    BAGGAGE_KEY = 2,   /* the keys of a map have another type */
    BAGGAGE_KIND = 3   /* a value has a type that doesn't hold the old one's */
};

/* The answer of a call. A number that its status doesn't speak of is 0. */
typedef struct baggage_answer {
    uint32_t status; /* an enum baggage_status */
    uint32_t code;   /* beside BAGGAGE_FAULT an enum baggage_code, beside BAGGAGE_TABLE an enum baggage_table_code, beside BAGGAGE_PIECES an
                        enum baggage_piece_code; beside BAGGAGE_OK: of baggage_read_field an enum baggage_state, of baggage_places and
                        baggage_chosen_places the form that the context's bytes are in, of baggage_evolve an enum baggage_change */
    size_t context;  /* beside BAGGAGE_FAULT and BAGGAGE_TYPE: which input it is, from 0 on; those before it are contexts. Beside
                        BAGGAGE_TABLE of baggage_evolve: 0 for the old table, 1 for the next; beside BAGGAGE_FIELD of baggage_chosen_places:
                        which of the chosen numbers it is, from 0 on */
    size_t offset;   /* beside BAGGAGE_FAULT and BAGGAGE_TYPE: how many bytes of that input stand before what is wrong; beside
                        BAGGAGE_TABLE, BAGGAGE_PIECES, and BAGGAGE_FIELD and BAGGAGE_WRITE of baggage_update: the number of the line, from 1 on;
                        of the last three codes of pieces as their enum says it */
    size_t size;     /* beside BAGGAGE_OK and BAGGAGE_ROOM: a number of bytes; of baggage_check one of atoms, of baggage_places,
                        baggage_chosen_places and baggage_check_table one of slots; beside BAGGAGE_LONG one of bytes */
} baggage_answer;

/* One of several inputs. */
typedef struct baggage_span {
    const uint8_t *bytes;
    size_t length;
} baggage_span;

/* The greatest budget. No context is cut to it. */
#define BAGGAGE_NO_BUDGET UINT64_MAX

/* How long a room baggage_join needs at most: `total` is the number of bytes of all inputs, whatever the form and the budget. */
#define BAGGAGE_ROOM_FOR(total) ((total) + 12)

/* The context of one marker: anything may be missing, so every field reads as partial. It stands for a context that was promised and
 * can't be read: a header that was lost, cut or damaged on the way. Join it; never take the empty context in its place. */
static const uint8_t BAGGAGE_LOST[1] = {0};

/* The library's version, as BAGGAGE_VERSION. */
BAGGAGE_NODISCARD uint32_t baggage_version(void);

/* ---- for services that know no type */

/* Whether the bytes are those of a context, in either form. `size` is how many atoms it has. It takes no memory. */
BAGGAGE_NODISCARD baggage_answer baggage_check(const uint8_t *context, size_t context_len);

/* The calls below write into the room. After BAGGAGE_OK its first `size` bytes are the result and all others are as before; after any other
 * status all are as before. A caller who doesn't know how much room is needed hands in none and is told. */

/* The merge of any number of contexts, the one context that has exactly the paths of all of them, cut to the budget: where it has at most
 * `budget` bytes in this form it stays as it is; otherwise its longest prefix stays that leaves place for a marker, and the marker, which
 * says that something was cut off. The merge of no context is the empty one. Of up to two inputs it takes no memory. */
BAGGAGE_NODISCARD baggage_answer baggage_join(uint32_t form, const baggage_span *inputs, size_t inputs_len, uint64_t budget, uint8_t *room,
                                              size_t room_len);

/* baggage_join, for the functions below, which look whether the room shares bytes with an input: a context isn't merged or cut in place. */
BAGGAGE_NODISCARD static inline baggage_answer baggage_join_apart(uint32_t form, const baggage_span *inputs, size_t inputs_len, uint64_t budget,
                                                                  uint8_t *room, size_t room_len) {
    static const baggage_answer overlap = {BAGGAGE_OVERLAP, 0, 0, 0, 0};
    uintptr_t first = (uintptr_t)room, last = first + room_len;
    size_t k;
    for (k = 0; k < inputs_len; k++)
        if (room_len && inputs[k].length && (uintptr_t)inputs[k].bytes < last && first < (uintptr_t)inputs[k].bytes + inputs[k].length)
            return overlap;
    return baggage_join(form, inputs, inputs_len, budget, room, room_len);
}

/* The merge of any number of contexts. */
BAGGAGE_NODISCARD static inline baggage_answer baggage_merge_many(uint32_t form, const baggage_span *inputs, size_t inputs_len, uint8_t *room,
                                                                  size_t room_len) {
    return baggage_join_apart(form, inputs, inputs_len, BAGGAGE_NO_BUDGET, room, room_len);
}

/* The merge of two contexts, cut to the budget: what a service sends on that received both. It takes no memory. */
BAGGAGE_NODISCARD static inline baggage_answer baggage_forward(uint32_t form, const uint8_t *first, size_t first_len, const uint8_t *second,
                                                               size_t second_len, uint64_t budget, uint8_t *room, size_t room_len) {
    baggage_span inputs[2];
    inputs[0].bytes = first;
    inputs[0].length = first_len;
    inputs[1].bytes = second;
    inputs[1].length = second_len;
    return baggage_join_apart(form, inputs, 2, budget, room, room_len);
}

/* The merge of two contexts. It takes no memory. */
BAGGAGE_NODISCARD static inline baggage_answer baggage_merge(uint32_t form, const uint8_t *first, size_t first_len, const uint8_t *second,
                                                             size_t second_len, uint8_t *room, size_t room_len) {
    return baggage_forward(form, first, first_len, second, second_len, BAGGAGE_NO_BUDGET, room, room_len);
}

/* A context within a budget. It takes no memory. */
BAGGAGE_NODISCARD static inline baggage_answer baggage_trim(uint32_t form, const uint8_t *context, size_t context_len, uint64_t budget,
                                                            uint8_t *room, size_t room_len) {
    baggage_span inputs[1];
    inputs[0].bytes = context;
    inputs[0].length = context_len;
    return baggage_join_apart(form, inputs, 1, budget, room, room_len);
}

/* ---- for services that know the types of a bag
 *
 * `table` is the text that `baggage table FILE BAG` prints of a definition, to the byte; a program can hold it as a constant. A table with
 * fewer field lines is an excerpt: it knows fewer fields. A bag that is a map's value keeps all its lines, or the table is that of other
 * values. `name` is the name path of a slot, as `baggage decode` prints it: names with dots between them. No text ends in a null byte, or
 * its length doesn't count it. */

/* One step of a service that knows the table: the merge of the inputs and of what is written, in normal form for the slots of this table (a
 * scalar keeps its one value, a counter each writer's greatest count), cut to the budget. `writes` are lines `PATH TEXT`, each with its line
 * feed: `id 7`, `tags "spring"`, `hops "cart":3`. With one input and no write this is what receiving or forwarding does, with one write
 * a set, with several inputs of its own a join, with none the start. Data of other fields are left as they are. */
BAGGAGE_NODISCARD baggage_answer baggage_update(uint32_t form, const char *table, size_t table_len, const baggage_span *inputs,
                                                size_t inputs_len, const char *writes, size_t writes_len, uint64_t budget, uint8_t *room,
                                                size_t room_len);

/* What may leave a trust boundary: of the merge of the inputs only what stands below the slots of the table, cut to the budget. It looks at
 * bytes alone: what stands below a kept slot leaves as it is, well typed or not. `others` says what becomes of the rest. */
BAGGAGE_NODISCARD baggage_answer baggage_keep(uint32_t form, uint32_t others, const char *table, size_t table_len, const baggage_span *inputs,
                                              size_t inputs_len, uint64_t budget, uint8_t *room, size_t room_len);

/* Where a slot's atoms stand in the caller's own bytes. */
typedef struct baggage_place {
    size_t offset;  /* how many bytes of the context stand before them; of an ill-typed slot, before its first misspelled atom */
    size_t length;  /* how many bytes they have, their lengths included; 0 where the slot is absent or ill typed */
    uint32_t state; /* an enum baggage_state */
    uint32_t zero;  /* 0 */
} baggage_place;

/* The places of all slots of the table, in its order, by one pass over the context. `size` is the number of slots, for which there must be
 * room; `code` is the form of the context's bytes, which the lengths between them are in. */
BAGGAGE_NODISCARD baggage_answer baggage_places(const char *table, size_t table_len, const uint8_t *context, size_t context_len,
                                                baggage_place *places, size_t places_len);

/* The places of chosen slots alone, in the order of their numbers, the same that baggage_places gives of them. `chosen` has numbers of slots
 * in the table's order, from 0 on. `size` is how many numbers there are, and there must be room for as many places. Each slot is looked for
 * by itself: a few of many slots cost less than all, and all of many cost more. BAGGAGE_FIELD says that a number is that of no slot, and
 * `context` which of them, from 0 on. */
BAGGAGE_NODISCARD baggage_answer baggage_chosen_places(const char *table, size_t table_len, const size_t *chosen, size_t chosen_len,
                                                       const uint8_t *context, size_t context_len, baggage_place *places, size_t places_len);

/* What a context says of all slots of the table: the text that `baggage decode` prints, or the same as a JSON object. */
BAGGAGE_NODISCARD baggage_answer baggage_report(uint32_t as, const char *table, size_t table_len, const uint8_t *context, size_t context_len,
                                                char *room, size_t room_len);

/* What a context says of a field: the text of its value as in a report, with `code` for whether that is all that was said. Of a field of
 * which nothing is said the text is that of its bottom, as `-`, `off` or `{}`. */
BAGGAGE_NODISCARD baggage_answer baggage_read_field(const char *table, size_t table_len, const uint8_t *context, size_t context_len,
                                                    const char *name, size_t name_len, char *room, size_t room_len);

/* The context that says what `text` writes to the field, and nothing else; a merge with another context adds the write to that one. The
 * text is as in a `set` line of a graph: `7`, `"spring"`, `on`, `"writer":3` and so on. */
BAGGAGE_NODISCARD baggage_answer baggage_write_field(uint32_t form, const char *table, size_t table_len, const char *name, size_t name_len,
                                                     const char *text, size_t text_len, uint8_t *room, size_t room_len);

/* The literal of the bytes, as writes have it: `"spring"` or `0x07ff`. In a string a quotation mark or a backslash follows a backslash, and a
 * control character is its two digits after `\x`; of bytes that aren't UTF-8 a string is no write. It takes no memory. */
BAGGAGE_NODISCARD baggage_answer baggage_quote(uint32_t literal, const char *text, size_t text_len, char *room, size_t room_len);

/* ---- tables */

/* Whether the text is that of a table. `size` is how many slots it has. */
BAGGAGE_NODISCARD baggage_answer baggage_check_table(const char *table, size_t table_len);

/* Whether the next table may take the place of the old one, as `baggage evolve` says it: the line that it prints, and `code` for the change. */
BAGGAGE_NODISCARD baggage_answer baggage_evolve(const char *old_table, size_t old_len, const char *next_table, size_t next_len, char *room,
                                                size_t room_len);

/* ---- pieces, for channels that carry lines of text */

/* The lines of pieces that carry the bytes of the context, each piece at most `width` bytes of it, in base64. */
BAGGAGE_NODISCARD baggage_answer baggage_carry(const uint8_t *context, size_t context_len, size_t width, char *room, size_t room_len);

/* The bytes that the lines carry, which are a context's. The lines may come in any order, and more than once. */
BAGGAGE_NODISCARD baggage_answer baggage_collect(const char *lines, size_t lines_len, uint8_t *room, size_t room_len);

/* ---- answers as text */

/* What a status means; "?" for a number that isn't one. */
static inline const char *baggage_status_text(uint32_t status) {
    switch (status) {
    case BAGGAGE_OK: return "done";
    case BAGGAGE_FAULT: return "not the bytes of a context";
    case BAGGAGE_ROOM: return "room too short";
    case BAGGAGE_MEMORY: return "out of memory";
    case BAGGAGE_FORM: return "no such form";
    case BAGGAGE_BUDGET: return "budget below the least one";
    case BAGGAGE_TABLE: return "not a table";
    case BAGGAGE_FIELD: return "no such field";
    case BAGGAGE_WRITE: return "no write";
    case BAGGAGE_TYPE: return "ill typed";
    case BAGGAGE_CHOICE: return "no such choice";
    case BAGGAGE_WIDTH: return "width not from 4 to 300";
    case BAGGAGE_LONG: return "too long to be carried";
    case BAGGAGE_PIECES: return "not the pieces of a context";
    case BAGGAGE_OVERLAP: return "the room shares bytes with an input";
    default: return "?";
    }
}

/* The name of a code beside a status that has codes, as the program prints it; "" beside other statuses, "?" for a number that isn't one. */
static inline const char *baggage_code_text(uint32_t status, uint32_t code) {
    static const char *const bytes[] = {"?", "CutLength", "BadCount", "AtomTooLong", "LongForm", "CutBody", "BadPrefix", "BadIndex",
                                        "LevelJump", "OutOfOrder"};
    static const char *const tables[] = {"?", "Head", "Form", "Depth", "Order", "DuplicateField", "TooDeep", "TooManySlots"};
    static const char *const pieces[] = {"?", "Form", "PieceRange", "BadBase64", "OtherCount", "Clash", "NoLine", "Missing",
                                         "TooManyBytes"};
    switch (status) {
    case BAGGAGE_FAULT: return code < sizeof bytes / sizeof *bytes ? bytes[code] : "?";
    case BAGGAGE_TABLE: return code < sizeof tables / sizeof *tables ? tables[code] : "?";
    case BAGGAGE_PIECES: return code < sizeof pieces / sizeof *pieces ? pieces[code] : "?";
    default: return "";
    }
}

/* A sentence about an answer, as snprintf writes it: "context 1: CutBody at byte 6". */
static inline int baggage_describe(const baggage_answer *answer, char *text, size_t text_len) {
    const char *status = baggage_status_text(answer->status);
    const char *code = baggage_code_text(answer->status, answer->code);
    switch (answer->status) {
    case BAGGAGE_FAULT: return snprintf(text, text_len, "context %zu: %s at byte %zu", answer->context, code, answer->offset);
    case BAGGAGE_TYPE: return snprintf(text, text_len, "context %zu: ill typed at byte %zu", answer->context, answer->offset);
    case BAGGAGE_TABLE: return snprintf(text, text_len, "table %zu line %zu: %s", answer->context, answer->offset, code);
    case BAGGAGE_PIECES: return snprintf(text, text_len, "pieces: %s at %zu", code, answer->offset);
    case BAGGAGE_FIELD:
    case BAGGAGE_WRITE:
        return answer->offset ? snprintf(text, text_len, "write line %zu: %s", answer->offset, status) : snprintf(text, text_len, "%s", status);
    case BAGGAGE_ROOM:
    case BAGGAGE_LONG: return snprintf(text, text_len, "%s: %zu", status, answer->size);
    default: return snprintf(text, text_len, "%s", status);
    }
}

#ifdef __cplusplus
}
#endif

#endif
