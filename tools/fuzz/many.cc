// So many random cases through the library: many FIRST COUNT. Case K is drawn from the seed K alone, so one that differs is drawn again by
// `many K 1`. A last line says how many cases of each call there were, and how many of each were done and not refused. With a third word
// the cases aren't tried, but written into that folder, for a fuzzer to begin with.
#include <fstream>

#include "judge.hh"

static void write_to(const char *folder, uint64_t seed, const cases::Case &it) {
    slow::Bytes bytes = cases::written(it);
    std::ofstream(std::string(folder) + "/" + std::to_string(seed), std::ios::binary).write(bytes.data(), static_cast<long>(bytes.size()));
}

int main(int count, char **words) {
    uint64_t first = count > 1 ? strtoull(words[1], nullptr, 10) : 0, cases_ = count > 2 ? strtoull(words[2], nullptr, 10) : 1000;
    uint64_t done[cases::calls] = {}, tried[cases::calls] = {};
    for (uint64_t seed = first; seed < first + cases_; seed++) {
        cases::Dice dice(seed);
        unsigned call = static_cast<unsigned>(dice.below(cases::calls));
        cases::Case it = cases::draw(dice, call);
        tried[call]++;
        if (count > 3)
            write_to(words[3], seed, it);
        else
            done[call] += judge::run(it, dice.below(6), seed % 8 == 0);
    }
    printf("%llu cases %s from %llu on:", static_cast<unsigned long long>(cases_), count > 3 ? "written" : "agree", static_cast<unsigned long long>(first));
    for (unsigned call = 0; call < cases::calls; call++)
        printf(" %s %llu (%llu done)", cases::call_name(call), static_cast<unsigned long long>(tried[call]), static_cast<unsigned long long>(done[call]));
    printf("\n");
}
