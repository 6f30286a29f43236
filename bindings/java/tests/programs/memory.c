/* Each request of memory of the natives is refused in turn, and all of it is given back: the natives of Memory. It is linked with them and the library, with --wrap for
 * malloc, realloc and free. */
#include <jni.h>
#include <stdlib.h>

void *__real_malloc(size_t size);
void *__real_realloc(void *memory, size_t size);
void __real_free(void *memory);
void *__wrap_malloc(size_t size);
void *__wrap_realloc(void *memory, size_t size);
void __wrap_free(void *memory);

static long granted = -1, asked, held;

static int is_refused(void) { return asked++ >= granted && granted >= 0; }

void *__wrap_malloc(size_t size) {
    void *memory = is_refused() ? NULL : __real_malloc(size);
    held += memory != NULL;
    return memory;
}

void *__wrap_realloc(void *memory, size_t size) {
    void *longer = is_refused() ? NULL : __real_realloc(memory, size);
    held += !memory && longer;
    return longer;
}

void __wrap_free(void *memory) {
    held -= memory != NULL;
    __real_free(memory);
}

JNIEXPORT void JNICALL Java_Memory_grant(JNIEnv *env, jclass type, jlong number) {
    (void)env;
    (void)type;
    granted = (long)number;
    asked = 0;
}

JNIEXPORT jlong JNICALL Java_Memory_asked(JNIEnv *env, jclass type) {
    (void)env;
    (void)type;
    return asked;
}

JNIEXPORT jlong JNICALL Java_Memory_held(JNIEnv *env, jclass type) {
    (void)env;
    (void)type;
    return held;
}
