/* Calls of libbaggage for Node, by Node-API; other calls are declared in the same way. It is built without node-gyp:
 *
 *     cc -shared -fPIC -I/usr/include/node baggage.c $(pkg-config --cflags --libs baggage) -o baggage.node
 *
 * update(table, contexts, writes, budget) gives a Buffer, and field(table, context, path) an object with `text` and `exact`; toHeader(context) gives a string;
 * extract(values) the Buffer of the context that all values of a header carry, of which there is at least one, and ingress(table, values, limits) of what comes in from
 * strangers; toBinary(context) and fromBinary(bytes) are for carriers of bytes. Tables, writes, paths and values are Buffers as well; a budget is a BigInt from 0n to
 * 2n ** 64n - 1n, which is none. A call that is refused throws an error whose `code` is the status. An argument of another type throws a TypeError, and a
 * budget out of range a RangeError; so does memory that is shared between threads, since another one might write while it is read. carriers.mjs,
 * request.mjs and http.mjs stand over this file. */
#include <node_api.h>
#include <stdlib.h>

#include "baggage_ingress.h"

typedef struct made {
    baggage_answer answer;
    uint8_t *room;
} made;

/* The bytes of a Buffer or of another Uint8Array; false where the value is none, or is one whose memory was transferred away or is shared. */
static bool buffer(napi_env env, napi_value value, baggage_span *span) {
    napi_typedarray_type type;
    napi_value memory;
    void *bytes = NULL;
    size_t length = 0;
    bool is_detached = false, is_own = false;
    if (napi_get_typedarray_info(env, value, &type, &length, &bytes, &memory, NULL) != napi_ok || type != napi_uint8_array ||
        napi_is_arraybuffer(env, memory, &is_own) != napi_ok || !is_own || napi_is_detached_arraybuffer(env, memory, &is_detached) != napi_ok || is_detached)
        return false;
    span->bytes = (const uint8_t *)bytes;
    span->length = length;
    return true;
}

/* The bytes of each Buffer of an array; false where an element is none. A getter of an element may run code that transfers the memory of an
 * element before it, so the bytes are looked up again when all elements are fetched. */
static bool buffers(napi_env env, napi_value array, uint32_t count, napi_value *elements, baggage_span *spans) {
    uint32_t k;
    for (k = 0; k < count; k++)
        if (napi_get_element(env, array, k, &elements[k]) != napi_ok || !buffer(env, elements[k], &spans[k]))
            return false;
    for (k = 0; k < count; k++)
        if (!buffer(env, elements[k], &spans[k]))
            return false;
    return true;
}

static napi_value refused(napi_env env, uint32_t status) {
    char code[12];
    snprintf(code, sizeof code, "%u", (unsigned)status);
    napi_throw_error(env, code, baggage_status_text(status));
    return NULL;
}

static napi_value wrong_type(napi_env env, const char *what) {
    napi_throw_type_error(env, "ERR_INVALID_ARG_TYPE", what);
    return NULL;
}

static napi_value updated(napi_env env, baggage_span table, const baggage_span *inputs, uint32_t inputs_len, baggage_span writes, uint64_t budget) {
    napi_value found = NULL;
    size_t room = BAGGAGE_ROOM_FOR(2 * writes.length);
    uint32_t k;
    for (k = 0; k < inputs_len; k++)
        room += inputs[k].length;
    made it = {{BAGGAGE_MEMORY, 0, 0, 0, 0}, (uint8_t *)malloc(room)};
    while (it.room) {
        it.answer = baggage_update(BAGGAGE_FORM_ONE, (const char *)table.bytes, table.length, inputs, inputs_len, (const char *)writes.bytes, writes.length, budget, it.room, room);
        if (it.answer.status != BAGGAGE_ROOM)
            break;
        free(it.room);
        it.room = (uint8_t *)malloc(room = it.answer.size);
        it.answer.status = BAGGAGE_MEMORY;
    }
    if (it.answer.status == BAGGAGE_OK)
        napi_create_buffer_copy(env, it.answer.size, it.room, NULL, &found);
    free(it.room);
    return it.answer.status == BAGGAGE_OK ? found : refused(env, it.answer.status);
}

/* A list of Buffers, until it is dropped. */
typedef struct list {
    napi_value *elements;
    baggage_span *spans;
    uint32_t count;
} list;

static void drop(list *it) {
    free(it->elements);
    free(it->spans);
}

/* Takes the Buffers of an array; false, with an error thrown, where it is none, or one of them is. */
static bool take(napi_env env, napi_value array, list *it) {
    it->elements = NULL;
    it->spans = NULL;
    if (napi_get_array_length(env, array, &it->count) != napi_ok)
        return wrong_type(env, "contexts is no array"), false;
    it->elements = (napi_value *)calloc((size_t)it->count + 1, sizeof *it->elements);
    it->spans = (baggage_span *)calloc((size_t)it->count + 1, sizeof *it->spans);
    if (!it->elements || !it->spans)
        return refused(env, BAGGAGE_MEMORY), false;
    if (!buffers(env, array, it->count, it->elements, it->spans))
        return wrong_type(env, "a context is no Buffer"), false;
    return true;
}

static napi_value update(napi_env env, napi_callback_info info) {
    napi_value words[4], found = NULL;
    size_t count = 4;
    uint64_t budget = 0;
    bool is_lossless = false;
    baggage_span table, writes;
    list inputs = {NULL, NULL, 0};
    if (napi_get_cb_info(env, info, &count, words, NULL, NULL) != napi_ok || !take(env, words[1], &inputs))
        return drop(&inputs), NULL;
    if (!buffer(env, words[0], &table))
        wrong_type(env, "table is no Buffer");
    else if (!buffer(env, words[2], &writes))
        wrong_type(env, "writes is no Buffer");
    else if (napi_get_value_bigint_uint64(env, words[3], &budget, &is_lossless) != napi_ok)
        wrong_type(env, "budget is no BigInt");
    else if (!is_lossless)
        napi_throw_range_error(env, "ERR_OUT_OF_RANGE", "budget isn't from 0n to 2n ** 64n - 1n");
    else
        found = updated(env, table, inputs.spans, inputs.count, writes, budget);
    drop(&inputs);
    return found;
}

/* How many bytes the text of a field may have where the caller doesn't say: a stranger's context of a few thousand may have one of many millions. */
#define TEXT_LIMIT 1048576

static napi_value field(napi_env env, napi_callback_info info) {
    napi_value words[4], found = NULL, text, exact;
    size_t count = 4, room = 64;
    int64_t limit = TEXT_LIMIT;
    baggage_span table, context, path;
    if (napi_get_cb_info(env, info, &count, words, NULL, NULL) != napi_ok || !buffer(env, words[0], &table))
        return wrong_type(env, "table is no Buffer");
    if (!buffer(env, words[1], &context))
        return wrong_type(env, "context is no Buffer");
    if (!buffer(env, words[2], &path))
        return wrong_type(env, "path is no Buffer");
    if (count > 3 && napi_get_value_int64(env, words[3], &limit) != napi_ok)
        return wrong_type(env, "limit is no number");
    limit = limit < 0 ? 0 : limit;
    made it = {{BAGGAGE_MEMORY, 0, 0, 0, 0}, (uint8_t *)malloc(room)};
    while (it.room) {
        it.answer = baggage_read_field((const char *)table.bytes, table.length, context.bytes, context.length, (const char *)path.bytes, path.length, (char *)it.room, room);
        if (it.answer.status != BAGGAGE_ROOM || it.answer.size > (uint64_t)limit)
            break;
        free(it.room);
        it.room = (uint8_t *)malloc(room = it.answer.size);
        it.answer.status = BAGGAGE_MEMORY;
    }
    if (it.answer.status == BAGGAGE_OK && it.answer.size > (uint64_t)limit)
        it.answer.status = BAGGAGE_ROOM;
    if (it.answer.status == BAGGAGE_OK && napi_create_object(env, &found) == napi_ok &&
        napi_create_string_utf8(env, (const char *)it.room, it.answer.size, &text) == napi_ok &&
        napi_get_boolean(env, it.answer.code == BAGGAGE_EXACT, &exact) == napi_ok) {
        napi_set_named_property(env, found, "text", text);
        napi_set_named_property(env, found, "exact", exact);
    }
    free(it.room);
    return it.answer.status == BAGGAGE_OK ? found : refused(env, it.answer.status);
}

/* The one argument of a call, as a Buffer; false, with an error thrown, where it is none. */
static bool only(napi_env env, napi_callback_info info, baggage_span *span) {
    napi_value word;
    size_t count = 1;
    if (napi_get_cb_info(env, info, &count, &word, NULL, NULL) != napi_ok || !buffer(env, word, span))
        return wrong_type(env, "a context is no Buffer"), false;
    return true;
}

/* A Buffer with a copy of these bytes, whose room is freed. */
static napi_value copied(napi_env env, uint8_t *room, size_t size) {
    napi_value found = NULL;
    napi_create_buffer_copy(env, size, room, NULL, &found);
    free(room);
    return found;
}

static napi_value to_header(napi_env env, napi_callback_info info) {
    napi_value found = NULL;
    baggage_span context;
    if (!only(env, info, &context))
        return NULL;
    char *room = (char *)malloc(baggage_header_letters(context.length));
    if (!room)
        return refused(env, BAGGAGE_MEMORY);
    napi_create_string_latin1(env, room, baggage_to_header(room, context.bytes, context.length), &found);
    free(room);
    return found;
}

static napi_value extract(napi_env env, napi_callback_info info) {
    napi_value words[1], found = NULL;
    size_t count = 1;
    list values = {NULL, NULL, 0};
    if (napi_get_cb_info(env, info, &count, words, NULL, NULL) != napi_ok || !take(env, words[0], &values))
        return drop(&values), NULL;
    uint8_t *room = (uint8_t *)malloc(BAGGAGE_EXTRACT_ROOM(baggage_length_of_all(values.spans, values.count)));
    if (room)
        found = copied(env, room, baggage_extract(room, values.spans, values.count, BAGGAGE_ABSENT_LOST, NULL));
    else
        refused(env, BAGGAGE_MEMORY);
    drop(&values);
    return found;
}

static napi_value to_binary(napi_env env, napi_callback_info info) {
    baggage_span context;
    if (!only(env, info, &context))
        return NULL;
    size_t room_len = BAGGAGE_ROOM_FOR(context.length);
    uint8_t *room = (uint8_t *)malloc(room_len);
    if (!room)
        return refused(env, BAGGAGE_MEMORY);
    baggage_answer answer = baggage_to_binary(context.bytes, context.length, room, room_len);
    if (answer.status == BAGGAGE_OK)
        return copied(env, room, answer.size);
    free(room);
    return refused(env, answer.status);
}

static napi_value from_binary(napi_env env, napi_callback_info info) {
    baggage_span bytes;
    if (!only(env, info, &bytes))
        return NULL;
    uint8_t *room = (uint8_t *)malloc(BAGGAGE_ROOM_FOR(bytes.length));
    return room ? copied(env, room, baggage_from_binary(room, bytes.bytes, bytes.length, NULL)) : refused(env, BAGGAGE_MEMORY);
}

/* A limit of an object, which stays as it is where the object doesn't have it; false where it is no number from 0 to 2^32 - 1. */
static bool limit(napi_env env, napi_value object, const char *name, size_t *value) {
    napi_value found;
    bool is_there = false;
    uint32_t number;
    double exact;
    if (napi_has_named_property(env, object, name, &is_there) != napi_ok)
        return false;
    if (!is_there)
        return true;
    if (napi_get_named_property(env, object, name, &found) != napi_ok || napi_get_value_double(env, found, &exact) != napi_ok ||
        napi_get_value_uint32(env, found, &number) != napi_ok || exact != (double)number)
        return false;
    *value = number;
    return true;
}

static bool limits_of(napi_env env, napi_value object, baggage_limits *limits) {
    napi_value drops;
    napi_valuetype type;
    size_t budget = BAGGAGE_REQUEST_BUDGET;
    bool is_there = false, is_set = false;
    if (napi_typeof(env, object, &type) != napi_ok || type != napi_object || !limit(env, object, "letters", &limits->letters) || !limit(env, object, "parts", &limits->parts) || !limit(env, object, "text", &limits->text) ||
        !limit(env, object, "budget", &budget) || napi_has_named_property(env, object, "dropsPartial", &is_there) != napi_ok ||
        (is_there && (napi_get_named_property(env, object, "dropsPartial", &drops) != napi_ok || napi_get_value_bool(env, drops, &is_set) != napi_ok)))
        return false;
    limits->budget = budget;
    limits->drops_partial = is_set;
    return true;
}

static napi_value ingress(napi_env env, napi_callback_info info) {
    napi_value words[3], found = NULL;
    size_t count = 3;
    list values = {NULL, NULL, 0};
    baggage_span table;
    baggage_limits limits = BAGGAGE_LIMITS;
    /* A getter of the limits may run code, so they are read before any memory is looked up. */
    if (napi_get_cb_info(env, info, &count, words, NULL, NULL) != napi_ok || !limits_of(env, words[2], &limits))
        return wrong_type(env, "limits is no object of numbers");
    if (!take(env, words[1], &values))
        return drop(&values), NULL;
    if (!buffer(env, words[0], &table))
        return drop(&values), wrong_type(env, "table is no Buffer");
    size_t scratch_len = BAGGAGE_INGRESS_SCRATCH(limits.letters, table.length), room_len = limits.letters + 64;
    uint8_t *room = (uint8_t *)malloc(room_len + scratch_len);
    baggage_answer answer = {BAGGAGE_MEMORY, 0, 0, 0, 0};
    if (room)
        answer = baggage_ingress(values.spans, values.count, (const char *)table.bytes, table.length, &limits, room + room_len, scratch_len, room, room_len);
    if (answer.status == BAGGAGE_OK)
        found = copied(env, room, answer.size);
    else
        free(room), refused(env, answer.status);
    drop(&values);
    return found;
}

static napi_value begin(napi_env env, napi_value exports) {
    static const struct {
        const char *name;
        napi_callback call;
    } calls[] = {{"update", update}, {"field", field}, {"toHeader", to_header}, {"extract", extract}, {"toBinary", to_binary}, {"fromBinary", from_binary}, {"ingress", ingress}};
    size_t k;
    for (k = 0; k < sizeof calls / sizeof *calls; k++) {
        napi_value call;
        if (napi_create_function(env, calls[k].name, NAPI_AUTO_LENGTH, calls[k].call, NULL, &call) == napi_ok)
            napi_set_named_property(env, exports, calls[k].name, call);
    }
    return exports;
}

NAPI_MODULE(baggage, begin)
