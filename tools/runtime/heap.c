/* The heap of the library and the program, over the C library's: three functions that the toolchain declares and whose contracts it assumes. For
 * x86-64 its own archive has them; for another processor they are these. A size is never above 2^63 - 1, an alignment divides 16, and malloc
 * aligns to 16 on every target of tools/targets. */
#include <stdbool.h>
#include <stddef.h>
#include <stdlib.h>

/* Whether there was memory, and where it is. */
typedef struct tried {
    bool ok;
    void *place;
} tried;

/* Where a request was refused the place is read by nobody, but it is no null pointer. */
static _Alignas(16) char nowhere[16];

static tried answer(void *place) {
    tried it = {place != NULL, place ? place : nowhere};
    return it;
}

/* A block of no bytes is one all the same, since malloc may answer null for it. */
tried rattle_alloc(size_t size, size_t alignment) {
    return answer(malloc(size ? size : alignment));
}

tried rattle_realloc(void *old, size_t kept, size_t size, size_t alignment) {
    (void)kept;
    return answer(realloc(old, size ? size : alignment));
}

void rattle_dealloc(void *old) {
    free(old);
}
