// One of two objects of a program that are compiled by different standards, where a result may be another class: SAYS is what this one is called,
// OTHER, in the one that has `main`, the other. Each uses inline functions that give results, of the header and of its own.
#include "baggage.hpp"

bool SAYS(const char *handed, std::size_t length);

namespace users {

inline terncommode::result<int, std::string> half(int number) {
    if (number % 2)
        return terncommode::unexpected<std::string>("odd");
    return number / 2;
}

} // namespace users

bool SAYS(const char *handed, std::size_t length) {
    using namespace terncommode;
    const auto all = bag::from("baggage table 1\n0 0 id scalar fixed32\n0 3 debug taint\n"), none = bag::from("no table\n");
    if (!all || none || none.error().line != 1)
        return false;
    const auto good = context::from(std::string_view(handed, length)), bad = context::from(std::string_view(handed, length - 1));
    if (!good || bad || bad.error().offset != 3 || from_binary(std::string_view(handed, length)) != *good)
        return false;
    const auto read = all->text(*good, "id"), unread = all->text(*good, "idd");
    if (!read || read->value != "7" || !read->exact || unread || unread.error().why != refusal::cause::no_field)
        return false;
    const auto made = all->update(*good, writes().set("debug", "on")), refused = all->update(*good, writes().set("id", "x"));
    const auto received = all->receive("\x80");
    return made && !refused && refused.error().line == 1 && all->only({"debug"}) && !all->only({"x"}) && all->report(*made) && !received &&
           users::half(4).value() == 2 && users::half(3).error() == "odd" && extract(std::vector<std::string>{to_header(*good)}, context()) == *good;
}

#if defined(OTHER)
bool OTHER(const char *handed, std::size_t length);

int main() {
    const char id_seven[] = {2, '\xf8', 0, 5, 0, 0, 0, 0, 7};
    return SAYS(id_seven, sizeof id_seven) && OTHER(id_seven, sizeof id_seven) ? 0 : 1;
}
#endif
