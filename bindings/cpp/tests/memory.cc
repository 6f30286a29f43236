// Each request of memory that the library makes is refused in turn: what comes is std::bad_alloc or the answer. It is linked with
// --wrap=malloc and --wrap=realloc.
#include <cstdio>
#include <cstdlib>
#include <optional>

#include "baggage.hpp"

extern "C" {
void *__real_malloc(std::size_t size);
void *__real_realloc(void *memory, std::size_t size);
void *__wrap_malloc(std::size_t size);
void *__wrap_realloc(void *memory, std::size_t size);
}

namespace {

long granted = -1, asked = 0;

bool is_refused() { return asked++ >= granted && granted >= 0; }

} // namespace

void *__wrap_malloc(std::size_t size) { return is_refused() ? nullptr : __real_malloc(size); }
void *__wrap_realloc(void *memory, std::size_t size) { return is_refused() ? nullptr : __real_realloc(memory, size); }

int main() {
    using namespace terncommode;
    const bag known = bag::from("baggage table 1\n0 0 id scalar fixed32\n0 1 tags set string\n0 2 hops counter\n").value();
    const auto make = [&known] {
        const writes said = writes().set("id", "7").set("tags", quote("a longer text that needs memory of its own")).set("hops", "\"w\":3");
        const context one = known.update(context(), said).value();
        const bag some = known.only({"tags", "hops"}).value();
        const context both = context::join(std::vector<context>{one, some.update(from_header(to_header(one)), said.lines().empty() ? said : writes()).value(), one});
        return known.report(some.keep(both, others::cut).cut(60)).value() + bag::from(known.table()).value().text(both, "tags").value().value;
    };
    const std::string good = make();
    long refused = 0;
    for (long number = 0;; number++) {
        std::optional<std::string> made;
        granted = number;
        asked = 0;
        try {
            made = make();
        } catch (const std::bad_alloc &) {
            refused++;
        }
        granted = -1;
        if (made && *made != good)
            return std::puts("the answer is another"), 1;
        if (asked <= number)
            break;
    }
    std::printf("%ld requests refused\n", refused);
    return refused ? 0 : 1;
}
