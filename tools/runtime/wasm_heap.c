/* The heap of the WebAssembly module, which has no C library: what heap.c does elsewhere, over the module's own memory. A host places the arguments of a call
 * in a frame, and makes the call. The library keeps nothing, so the next frame takes the place of all that came before it.
 *
 * Behind the frame stand blocks. Each has a head with its class: sizes go in four steps to the next power of two, so that less than a fifth
 * of a block is unused, and a block that was given back serves the next request of its class. */
#include <stdbool.h>
#include <stddef.h>
#include <stdint.h>

enum { PAGE = 65536, HEAD = 16, CLASSES = 160 };

/* As much as a memory with 32 bits of address can have, but for its last page, so that no address is ever that of its end. */
#define MOST ((size_t)UINT32_MAX - PAGE)

typedef struct block {
    size_t class;
    struct block *next;
} block;

typedef struct tried {
    bool ok;
    void *place;
} tried;

extern char __heap_base;
static _Alignas(16) char nowhere[16];
static size_t first_free;
static block *given_back[CLASSES];

static size_t round_up(size_t size, size_t step) {
    return (size + step - 1) / step * step;
}

/* Whether the memory reaches so far, or was made to. What memory.grow answers is compared in 32 bits: it is -1 of the memory that the module has
 * once its addresses are lowered, which is then widened without its sign. */
static bool reaches(size_t end) {
    size_t pages = __builtin_wasm_memory_size(0), wanted = round_up(end, PAGE) / PAGE;
    return wanted <= pages || (uint32_t)__builtin_wasm_memory_grow(0, wanted - pages) != UINT32_MAX;
}

/* Takes the memory from the first free byte on; null where there is none. */
static void *advance(size_t size) {
    size_t at = first_free;
    if (size > MOST || at > MOST - size || !reaches(at + size))
        return NULL;
    first_free = at + size;
    return (void *)at;
}

/* The class of a size, and the size of each block of that class. */
static size_t class_of(size_t *size) {
    size_t rounded = round_up(*size, 16) - 1, shift = 61 - (size_t)__builtin_clzl(rounded), steps = (rounded >> shift) + 1;
    *size = steps << shift;
    return 4 * shift + steps - 5;
}

static void *take(size_t size) {
    size_t class;
    block *found;
    if (size > MOST)
        return NULL;
    size += HEAD;
    class = class_of(&size);
    found = given_back[class];
    if (found)
        given_back[class] = found->next;
    else if (!(found = advance(size)))
        return NULL;
    found->class = class;
    return (char *)found + HEAD;
}

static tried answer(void *place) {
    tried it = {place != NULL, place ? place : nowhere};
    return it;
}

/* Memory for a call: so many bytes from an address that 16 divides, and 0 where there isn't as much. What was taken before is gone. */
__attribute__((export_name("baggage_frame"))) void *baggage_frame(size_t size) {
    for (size_t class = 0; class < CLASSES; class++)
        given_back[class] = NULL;
    first_free = round_up((size_t)&__heap_base, 16);
    return size > MOST ? NULL : advance(round_up(size, 16));
}

tried rattle_alloc(size_t size, size_t alignment) {
    return answer(take(size ? size : alignment));
}

void rattle_dealloc(void *old) {
    block *it = (block *)((char *)old - HEAD);
    it->next = given_back[it->class];
    given_back[it->class] = it;
}

tried rattle_realloc(void *old, size_t kept, size_t size, size_t alignment) {
    size_t wanted = (size ? size : alignment) + HEAD;
    void *place;
    if (size <= MOST && class_of(&wanted) == ((block *)((char *)old - HEAD))->class)
        return answer(old);
    place = take(size ? size : alignment);
    if (place) {
        __builtin_memcpy(place, old, kept < size ? kept : size);
        rattle_dealloc(old);
    }
    return answer(place);
}
