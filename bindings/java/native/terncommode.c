/* The calls of the library for Java, by JNI: the natives of org.terncommode.Native. This file is tested, not proved.
 *
 * A call copies what Java hands in, so that no array of Java's is held while the library works. What can't be copied for want of memory is answered as the library
 * does it, by BAGGAGE_MEMORY; where Java's own memory is out, an OutOfMemoryError is pending. No call keeps anything. */
#include <baggage.h>
#include <jni.h>
#include <stdlib.h>

#define FEW 2048
#define FEW_INPUTS 16
#define LONGEST 2147483639 /* bytes of a Java array that every virtual machine makes */

/* A copy of an array of Java's. */
typedef struct copy {
    uint8_t few[FEW];
    uint8_t *bytes; /* `few`, or memory of its own */
    size_t length;
} copy;

/* Copies an array; 0 where memory is out. */
static int take(JNIEnv *env, jbyteArray array, copy *to) {
    jsize length = (*env)->GetArrayLength(env, array);
    to->length = (size_t)length;
    to->bytes = to->length <= FEW ? to->few : malloc(to->length);
    if (to->bytes)
        (*env)->GetByteArrayRegion(env, array, 0, length, (jbyte *)to->bytes);
    return to->bytes != NULL;
}

static void give_back(copy *it) {
    if (it->bytes != it->few)
        free(it->bytes);
}

/* What a call is given: the parts that it has no use for are empty. */
typedef struct arguments {
    uint32_t form, choice;
    uint64_t budget;
    copy table, text, inputs; /* the inputs stand one after another */
    baggage_span few[FEW_INPUTS], *spans;
    size_t count;
} arguments;

static void nothing(copy *it) {
    it->bytes = it->few;
    it->length = 0;
}

static void begin(arguments *given) {
    given->form = given->choice = 0;
    given->budget = BAGGAGE_NO_BUDGET;
    nothing(&given->table);
    nothing(&given->text);
    nothing(&given->inputs);
    given->spans = given->few;
    given->count = 0;
}

static void end(arguments *given) {
    give_back(&given->table);
    give_back(&given->text);
    give_back(&given->inputs);
    if (given->spans != given->few)
        free(given->spans);
}

/* Copies inputs of these lengths; 0 where memory is out. */
static int take_inputs(JNIEnv *env, jbyteArray inputs, jintArray lengths, arguments *given) {
    size_t k, offset = 0;
    given->count = (size_t)(*env)->GetArrayLength(env, lengths);
    if (given->count > FEW_INPUTS)
        given->spans = malloc(given->count * sizeof *given->spans);
    if (!given->spans || !take(env, inputs, &given->inputs))
        return 0;
    for (k = 0; k < given->count; k++) {
        jint length;
        (*env)->GetIntArrayRegion(env, lengths, (jsize)k, 1, &length);
        given->spans[k].bytes = given->inputs.bytes + offset;
        given->spans[k].length = (size_t)length;
        offset += (size_t)length;
    }
    return 1;
}

/* Tells Java the five numbers of an answer. */
static void tell(JNIEnv *env, jlongArray told, const baggage_answer *answer) {
    jlong numbers[5];
    numbers[0] = answer->status;
    numbers[1] = answer->code;
    numbers[2] = (jlong)answer->context;
    numbers[3] = (jlong)answer->offset;
    numbers[4] = (jlong)answer->size;
    (*env)->SetLongArrayRegion(env, told, 0, 5, numbers);
}

typedef baggage_answer (*call)(const arguments *given, uint8_t *room, size_t room_len);

/* Tells Java an answer, and gives the bytes that the call has made; NULL where it is refused, or Java has no memory. */
static jbyteArray answered(JNIEnv *env, jlongArray told, const baggage_answer *answer, const uint8_t *room) {
    jbyteArray made = NULL;
    tell(env, told, answer);
    if (answer->status == BAGGAGE_OK)
        made = (*env)->NewByteArray(env, (jsize)answer->size);
    if (made)
        (*env)->SetByteArrayRegion(env, made, 0, (jsize)answer->size, (const jbyte *)room);
    return made;
}

/* What a call makes in a room that is long enough. One that would be longer than the limit is answered by BAGGAGE_ROOM. */
static jbyteArray made(JNIEnv *env, jlongArray told, const arguments *given, call makes, jlong limit) {
    uint8_t few[FEW], *longer = NULL;
    jbyteArray result;
    baggage_answer answer = makes(given, few, sizeof few);
    if (answer.status == BAGGAGE_ROOM && answer.size <= (size_t)limit) {
        size_t size = answer.size;
        longer = size <= LONGEST ? malloc(size) : NULL;
        answer.status = BAGGAGE_MEMORY;
        if (longer)
            answer = makes(given, longer, size);
    } else if (answer.status == BAGGAGE_OK && answer.size > (size_t)limit) {
        answer.status = BAGGAGE_ROOM;
    }
    result = answered(env, told, &answer, longer ? longer : few);
    free(longer);
    return result;
}

/* The answer where the arguments have no place. */
static jbyteArray no_memory(JNIEnv *env, jlongArray told) {
    static const baggage_answer answer = {BAGGAGE_MEMORY, 0, 0, 0, 0};
    tell(env, told, &answer);
    return NULL;
}

JNIEXPORT jint JNICALL Java_org_terncommode_Native_version(JNIEnv *env, jclass type) {
    (void)env;
    (void)type;
    return (jint)baggage_version();
}

/* ---- for services that know no type */

static baggage_answer join(const arguments *given, uint8_t *room, size_t room_len) {
    return baggage_join(given->form, given->spans, given->count, given->budget, room, room_len);
}

JNIEXPORT jbyteArray JNICALL Java_org_terncommode_Native_join(JNIEnv *env, jclass type, jlongArray told, jint form, jbyteArray inputs, jintArray lengths, jlong budget) {
    arguments given;
    jbyteArray result;
    (void)type;
    begin(&given);
    given.form = (uint32_t)form;
    given.budget = (uint64_t)budget;
    result = take_inputs(env, inputs, lengths, &given) ? made(env, told, &given, join, LONGEST) : no_memory(env, told);
    end(&given);
    return result;
}

/* Puts the lost context in place of each input that isn't the bytes of a context. */
static void lose(arguments *given) {
    size_t k;
    for (k = 0; k < given->count; k++)
        if (baggage_check(given->spans[k].bytes, given->spans[k].length).status != BAGGAGE_OK) {
            given->spans[k].bytes = BAGGAGE_LOST;
            given->spans[k].length = sizeof BAGGAGE_LOST;
        }
}

JNIEXPORT jbyteArray JNICALL Java_org_terncommode_Native_read(JNIEnv *env, jclass type, jlongArray told, jbyteArray inputs, jintArray lengths) {
    arguments given;
    jbyteArray result;
    (void)type;
    begin(&given);
    given.form = BAGGAGE_FORM_ONE;
    if (take_inputs(env, inputs, lengths, &given)) {
        lose(&given);
        result = made(env, told, &given, join, LONGEST);
    } else {
        result = no_memory(env, told);
    }
    end(&given);
    return result;
}

/* ---- for services that know a table */

static const char *text_of(const copy *it) { return (const char *)it->bytes; }

static baggage_answer update(const arguments *given, uint8_t *room, size_t room_len) {
    return baggage_update(given->form, text_of(&given->table), given->table.length, given->spans, given->count, text_of(&given->text), given->text.length, given->budget, room, room_len);
}

JNIEXPORT jbyteArray JNICALL Java_org_terncommode_Native_update(JNIEnv *env, jclass type, jlongArray told, jint form, jbyteArray table, jbyteArray inputs, jintArray lengths,
                                                                jbyteArray writes, jlong budget) {
    arguments given;
    jbyteArray result;
    (void)type;
    begin(&given);
    given.form = (uint32_t)form;
    given.budget = (uint64_t)budget;
    if (take(env, table, &given.table) && take(env, writes, &given.text) && take_inputs(env, inputs, lengths, &given))
        result = made(env, told, &given, update, LONGEST);
    else
        result = no_memory(env, told);
    end(&given);
    return result;
}

static baggage_answer keep(const arguments *given, uint8_t *room, size_t room_len) {
    return baggage_keep(given->form, given->choice, text_of(&given->table), given->table.length, given->spans, given->count, given->budget, room, room_len);
}

JNIEXPORT jbyteArray JNICALL Java_org_terncommode_Native_keep(JNIEnv *env, jclass type, jlongArray told, jint form, jint others, jbyteArray table, jbyteArray inputs,
                                                              jintArray lengths, jlong budget) {
    arguments given;
    jbyteArray result;
    (void)type;
    begin(&given);
    given.form = (uint32_t)form;
    given.choice = (uint32_t)others;
    given.budget = (uint64_t)budget;
    result = take(env, table, &given.table) && take_inputs(env, inputs, lengths, &given) ? made(env, told, &given, keep, LONGEST) : no_memory(env, told);
    end(&given);
    return result;
}

static baggage_answer report(const arguments *given, uint8_t *room, size_t room_len) {
    return baggage_report(BAGGAGE_TEXT, text_of(&given->table), given->table.length, given->inputs.bytes, given->inputs.length, (char *)room, room_len);
}

JNIEXPORT jbyteArray JNICALL Java_org_terncommode_Native_report(JNIEnv *env, jclass type, jlongArray told, jbyteArray table, jbyteArray context, jlong limit) {
    arguments given;
    jbyteArray result;
    (void)type;
    begin(&given);
    result = take(env, table, &given.table) && take(env, context, &given.inputs) ? made(env, told, &given, report, limit) : no_memory(env, told);
    end(&given);
    return result;
}

static baggage_answer read_field(const arguments *given, uint8_t *room, size_t room_len) {
    return baggage_read_field(text_of(&given->table), given->table.length, given->inputs.bytes, given->inputs.length, text_of(&given->text), given->text.length, (char *)room, room_len);
}

JNIEXPORT jbyteArray JNICALL Java_org_terncommode_Native_readField(JNIEnv *env, jclass type, jlongArray told, jbyteArray table, jbyteArray context, jbyteArray name, jlong limit) {
    arguments given;
    jbyteArray result;
    (void)type;
    begin(&given);
    if (take(env, table, &given.table) && take(env, context, &given.inputs) && take(env, name, &given.text))
        result = made(env, told, &given, read_field, limit);
    else
        result = no_memory(env, told);
    end(&given);
    return result;
}

/* Tells for each slot the length of what is said of it, below zero where that is ill typed. */
static void tell_lengths(JNIEnv *env, jlongArray lengths, const baggage_place *places, size_t count) {
    size_t k;
    for (k = 0; k < count; k++) {
        jlong length = places[k].state == BAGGAGE_ILL_TYPED ? -1 : (jlong)places[k].length;
        (*env)->SetLongArrayRegion(env, lengths, (jsize)k, 1, &length);
    }
}

JNIEXPORT void JNICALL Java_org_terncommode_Native_places(JNIEnv *env, jclass type, jlongArray told, jbyteArray table, jbyteArray context, jlongArray lengths) {
    size_t slots = (size_t)(*env)->GetArrayLength(env, lengths);
    baggage_answer answer = {BAGGAGE_MEMORY, 0, 0, 0, 0};
    baggage_place *places = malloc((slots + 1) * sizeof *places); /* one more, so that it is never of no bytes */
    arguments given;
    (void)type;
    begin(&given);
    if (places && take(env, table, &given.table) && take(env, context, &given.inputs))
        answer = baggage_places(text_of(&given.table), given.table.length, given.inputs.bytes, given.inputs.length, places, slots);
    tell(env, told, &answer);
    if (answer.status == BAGGAGE_OK)
        tell_lengths(env, lengths, places, slots);
    end(&given);
    free(places);
}

JNIEXPORT void JNICALL Java_org_terncommode_Native_checkTable(JNIEnv *env, jclass type, jlongArray told, jbyteArray table) {
    baggage_answer answer = {BAGGAGE_MEMORY, 0, 0, 0, 0};
    copy text;
    (void)type;
    if (take(env, table, &text))
        answer = baggage_check_table(text_of(&text), text.length);
    tell(env, told, &answer);
    give_back(&text);
}

JNIEXPORT jint JNICALL JNI_OnLoad(JavaVM *machine, void *reserved) {
    (void)machine;
    (void)reserved;
    return JNI_VERSION_1_8;
}
