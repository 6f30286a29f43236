// Which edges of the library a run reaches. It is linked with `fuzz.cc -DALONE` and the instrumented module of tools/fuzz/build, whose counters it looks at
// after each case. At the end it writes a line for each edge into the file that EDGES names: its address, and 1 where it was reached, else 0.
#include <cstdint>
#include <cstdio>
#include <cstdlib>
#include <vector>

struct Place {
    uintptr_t address, is_entry;
};

static uint8_t *counters;
static const Place *places;

// (the counters are handed over before statics of this file are made)
static std::vector<bool> &reached() {
    static std::vector<bool> them;
    return them;
}

extern "C" void __sanitizer_cov_8bit_counters_init(uint8_t *begin, uint8_t *end) {
    counters = begin;
    reached().resize(static_cast<size_t>(end - begin));
}

extern "C" void __sanitizer_cov_pcs_init(const uintptr_t *begin, const uintptr_t *) {
    places = reinterpret_cast<const Place *>(begin);
}

// (a counter has eight bits, and begins anew after 255)
extern "C" void after_case() {
    for (size_t at = 0; at < reached().size(); at++) {
        reached()[at] = reached()[at] || counters[at];
        counters[at] = 0;
    }
}

extern "C" void after_all() {
    const char *name = getenv("EDGES");
    FILE *file = name ? fopen(name, "w") : nullptr;
    if (!file)
        abort();
    for (size_t at = 0; at < reached().size(); at++)
        fprintf(file, "%llx %d\n", static_cast<unsigned long long>(places[at].address), reached()[at] ? 1 : 0);
    fclose(file);
}
