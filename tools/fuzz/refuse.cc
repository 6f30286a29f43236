// Refuses the library memory: each request of a call in turn, alone and with all that follow, as refusing.hh has it. usage: refuse FIRST COUNT, as
// many; the cases are those of `many`, and a last line counts them.
#include "refusing.hh"

int main(int count, char **words) {
    uint64_t first = count > 1 ? strtoull(words[1], nullptr, 10) : 0, cases_ = count > 2 ? strtoull(words[2], nullptr, 10) : 1000;
    long most = 0;
    for (uint64_t seed = first; seed < first + cases_; seed++) {
        cases::Dice dice(seed);
        cases::Case it = cases::draw(dice, static_cast<unsigned>(dice.below(cases::calls)));
        slow::Answer wanted = judge::expected(it);
        long made = refusing::call(it, wanted, 0, 0);
        most = std::max(most, made);
        for (long number = 1; number <= made; number++) {
            refusing::call(it, wanted, number, 0);
            refusing::call(it, wanted, 0, number);
        }
    }
    refusing::Counts them = refusing::counts();
    printf("%llu cases, %lu calls with memory refused or not, at most %ld requests a call: %lu gave their own answer and %lu out of memory\n",
           static_cast<unsigned long long>(cases_), them.calls, most, them.own, them.wanting);
}
