// One of two objects that are compiled by different standards and hand contexts to each other, since both define TERNCOMMODE_OWN_RESULT. With
// BEGINS it has `main`.
#define TERNCOMMODE_OWN_RESULT
#include "baggage.hpp"

terncommode::result<terncommode::context, terncommode::refusal> marked(const terncommode::context &it, std::string_view text);

#if defined(BEGINS)
int main() {
    const auto made = marked(terncommode::context(), "on"), refused = marked(*made, "x");
    return made->view() == std::string_view("\x02\xf8\x03\x01\0", 5) && !refused && refused.error().line == 1 ? 0 : 1;
}
#else
terncommode::result<terncommode::context, terncommode::refusal> marked(const terncommode::context &it, std::string_view text) {
    return terncommode::bag::from("baggage table 1\n0 3 debug taint\n").value().update(it, terncommode::writes().set("debug", text));
}
#endif
