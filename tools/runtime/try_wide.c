/* Holds wasm_wide.c to the compiler's own numbers of 128 bits, at edges and at random. */
#include <stdio.h>

#define __multi3 own_product
#define __ashlti3 own_left
#define __lshrti3 own_right
#define __udivti3 own_quotient
#include "wasm_wide.c"

static uint64_t seed = 1;

static uint64_t draw(void) {
    seed = seed * 6364136223846793005u + 1442695040888963407u;
    return seed ^ seed >> 29;
}

/* A number with bits at its edges as often as anywhere. */
static uint64_t half(void) {
    static const uint64_t edges[] = {0, 1, 2, UINT32_MAX, (uint64_t)UINT32_MAX + 1, INT64_MAX, (uint64_t)INT64_MAX + 1, UINT64_MAX};
    return draw() % 2 ? edges[draw() % (sizeof edges / sizeof *edges)] : draw() >> draw() % 64;
}

static int differs(const char *name, wide own, wide wanted) {
    if (own != wanted)
        fprintf(stderr, "try_wide.c: %s: another number\n", name);
    return own != wanted;
}

int main(void) {
    for (int round = 0; round < 200000; round++) {
        wide a = joined(half(), half()), b = joined(half(), half());
        int count = (int)(draw() % 128);
        if (differs("product", own_product(a, b), a * b) || differs("left", own_left(a, count), a << count) || differs("right", own_right(a, count), a >> count) ||
            (b && differs("quotient", own_quotient(a, b), a / b)))
            return 1;
    }
    printf("200000 pairs of numbers of 128 bits\n");
    return 0;
}
