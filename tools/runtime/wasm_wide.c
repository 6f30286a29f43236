/* Numbers of 128 bits, which WebAssembly hasn't: what the compiler calls for a product, a quotient and shifts of them. */
#include <stdint.h>

typedef unsigned __int128 wide;

static uint64_t high(wide it) {
    return (uint64_t)(it >> 64);
}

static wide joined(uint64_t upper, uint64_t lower) {
    return (wide)upper << 64 | lower;
}

/* The product of two numbers of 64 bits, by halves of 32. */
static wide product(uint64_t a, uint64_t b) {
    uint64_t half = UINT32_MAX, low = (a & half) * (b & half), one = (a >> 32) * (b & half) + (low >> 32), other = (a & half) * (b >> 32) + (one & half);
    return joined((a >> 32) * (b >> 32) + (one >> 32) + (other >> 32), other << 32 | (low & half));
}

wide __multi3(wide a, wide b) {
    wide low = product((uint64_t)a, (uint64_t)b);
    return joined(high(low) + high(a) * (uint64_t)b + (uint64_t)a * high(b), (uint64_t)low);
}

wide __ashlti3(wide it, int count) {
    uint64_t low = (uint64_t)it;
    if (count >= 64)
        return joined(low << (count - 64), 0);
    return count ? joined(high(it) << count | low >> (64 - count), low << count) : it;
}

wide __lshrti3(wide it, int count) {
    uint64_t upper = high(it);
    if (count >= 64)
        return upper >> (count - 64);
    return count ? joined(upper >> count, upper << (64 - count) | (uint64_t)it >> count) : it;
}

/* Bit by bit, the highest first. A divisor of 0 is never handed in. */
wide __udivti3(wide number, wide divisor) {
    wide quotient = 0, rest = 0;
    for (int bit = 127; bit >= 0; bit--) {
        rest = rest << 1 | (number >> bit & 1);
        if (rest >= divisor) {
            rest -= divisor;
            quotient |= (wide)1 << bit;
        }
    }
    return quotient;
}
