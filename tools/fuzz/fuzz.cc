// A harness for libFuzzer, and, with -DALONE, a program that runs the cases of files like those of vectors/corpus, each line one in hexadecimal
// digits. Each case is tried as it is, and then with memory refused (refusing.hh). CALLS names the calls that are tried, with commas between them; where it
// isn't set or is empty, all are.
#include "refusing.hh"

// The bit of the call of this name. The program ends where there is none.
static unsigned named(const slow::Bytes &name) {
    for (unsigned call = 0; call < cases::calls; call++)
        if (name == cases::call_name(call))
            return 1u << call;
    fprintf(stderr, "CALLS: no call is named %s\n", name.c_str());
    exit(2);
}

static unsigned chosen() {
    static unsigned mask = [] {
        const char *names = getenv("CALLS");
        if (!names || !*names)
            return ~0u;
        unsigned found = 0;
        for (const slow::Bytes &name : slow::split(names, ','))
            found |= named(name);
        return found;
    }();
    return mask;
}

// Which request for memory is refused follows from the bytes of the case.
static uint64_t sum_of(const uint8_t *bytes, size_t size) {
    uint64_t sum = 0;
    for (size_t at = 0; at < size; at++)
        sum = 31 * sum + bytes[at];
    return sum;
}

// It answers whether the call is done and not refused where there is memory.
static bool tries(const cases::Case &it, size_t extra, bool with_laws, uint64_t request) {
    slow::Answer wanted = judge::expected(it);
    bool is_done = judge::run(it, wanted, extra, with_laws);
    refusing::try_one(it, wanted, request);
    return is_done;
}

extern "C" int LLVMFuzzerTestOneInput(const uint8_t *bytes, size_t size) {
    cases::Case it = cases::read(bytes, size);
    if (chosen() >> it.call & 1)
        tries(it, size % 7, size % 3 == 0, sum_of(bytes, size));
    return 0;
}

#ifdef ALONE
#include <fstream>

// What edges.cc does, where it is linked.
extern "C" void after_case() __attribute__((weak));
extern "C" void after_all() __attribute__((weak));

int main(int count, char **names) {
    unsigned long tried = 0, done = 0;
    for (int at = 1; at < count; at++) {
        std::ifstream file(names[at]);
        for (slow::Bytes line; std::getline(file, line); tried++) {
            slow::Bytes text = cases::of_digits(line);
            const uint8_t *bytes = reinterpret_cast<const uint8_t *>(text.data());
            done += tries(cases::read(bytes, text.size()), 5, true, sum_of(bytes, text.size()));
            if (after_case)
                after_case();
        }
    }
    if (after_all)
        after_all();
    printf("%lu cases of the corpus agree, %lu of them done and not refused; of %lu more calls, with memory refused or not, %lu answer out of memory\n", tried,
           done, refusing::counts().calls, refusing::counts().wanting);
    return tried == 0;
}
#else
extern "C" size_t LLVMFuzzerMutate(uint8_t *bytes, size_t size, size_t most);

// Half of the time an argument of the case is drawn anew or damaged, and else the fuzzer changes bytes as it likes.
extern "C" size_t LLVMFuzzerCustomMutator(uint8_t *bytes, size_t size, size_t most, unsigned seed) {
    cases::Dice dice(seed);
    if (dice.one_in(2))
        return LLVMFuzzerMutate(bytes, size, most);
    cases::Case it = cases::read(bytes, size);
    while (!(chosen() >> it.call & 1))
        it.call = static_cast<unsigned>(dice.below(cases::calls));
    slow::Bytes out = cases::written(dice.one_in(20) ? cases::draw(dice, it.call) : cases::mutated(dice, it));
    if (out.size() > most)
        return LLVMFuzzerMutate(bytes, size, most);
    memcpy(bytes, out.data(), out.size());
    return out.size();
}
#endif
