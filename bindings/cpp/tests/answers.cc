// answers < QUESTIONS: a line for each, made through the binding. See bindings/tests/README.md.
#include "baggage.hpp"
#include "words.hpp"

namespace {

using terncommode::bag;
using terncommode::context;
using terncommode::form;
using terncommode::refusal;
using words = std::vector<std::string_view>;

/// An answer that is a refusal.
struct refused {
    std::string text;
};

[[noreturn]] void refuse(const refusal &why) {
    switch (why.why) {
    case refusal::cause::bad_table: throw refused{"BadTable " + std::to_string(why.line) + " " + why.name()};
    case refusal::cause::no_field: throw refused{"NoField " + std::to_string(why.line)};
    case refusal::cause::bad_write: throw refused{"BadWrite " + std::to_string(why.line)};
    case refusal::cause::bad_bytes: throw refused{"Fault " + std::to_string(why.offset) + " " + why.name()};
    case refusal::cause::ill_typed: throw refused{"IllTyped " + std::to_string(why.input) + " " + std::to_string(why.offset)};
    case refusal::cause::too_long:
    case refusal::cause::no_request: break;
    }
    throw refused{"?"};
}

template <class T> T checked(terncommode::result<T, refusal> found) {
    if (!found)
        refuse(found.error());
    return std::move(*found);
}

std::string bytes(std::string_view digits) { return bytes_of(digits).value(); }

context parsed(std::string_view digits) {
    auto found = context::from(bytes(digits));
    if (!found)
        throw refused{"Fault " + std::to_string(found.error().offset) + " " + found.error().name()};
    return std::move(*found);
}

std::vector<context> parsed_from(const words &all, std::size_t from) {
    std::vector<context> contexts;
    for (std::size_t k = from; k < all.size(); k++)
        contexts.push_back(parsed(all[k]));
    return contexts;
}

form form_of(std::string_view word) { return word == "2" ? form::two : form::one; }

std::uint64_t budget_of(std::string_view word) { return word == "-" ? terncommode::no_budget : std::stoull(std::string(word)); }

std::string shown(const context &it) { return digits_of(it.bytes()); }

terncommode::writes writes_of(const std::string &text) {
    terncommode::writes said;
    for (std::string_view rest = text; !rest.empty();) {
        const std::size_t feed = rest.find('\n');
        const std::string_view line = rest.substr(0, feed), path = line.substr(0, line.find(' '));
        said.set(path, line.substr(std::min(line.size(), path.size() + 1)));
        rest.remove_prefix(feed == std::string_view::npos ? rest.size() : feed + 1);
    }
    return said;
}

std::string extracted(const words &all) {
    std::vector<std::string> values;
    for (std::size_t k = 2; k < all.size(); k++)
        values.push_back(bytes(all[k]));
    return shown(terncommode::extract(values, all[1] == "lost" ? context::lost() : context()));
}

std::string of_table(const words &all) {
    const bag known = checked(bag::from(bytes(all[1])));
    if (all[0] == "only")
        return digits_of(checked(known.only(words(all.begin() + 2, all.end()))).table());
    if (all[0] == "receive")
        return shown(checked(known.receive(bytes(all[2]))));
    if (all[0] == "update") {
        const auto said = writes_of(bytes(all[4]));
        return shown(checked(known.in_form(form_of(all[2])).update(parsed_from(all, 5), said, budget_of(all[3]))));
    }
    if (all[0] == "set")
        return shown(checked(known.update(context(), terncommode::writes().set(bytes(all[2]), bytes(all[3])))));
    if (all[0] == "keep") {
        const auto rest = all[3] == "cut" ? terncommode::others::cut : terncommode::others::unsaid;
        return shown(known.in_form(form_of(all[2])).keep(context::join(parsed_from(all, 5)), rest, budget_of(all[4])));
    }
    if (all[0] == "text") {
        const auto read = checked(known.text(parsed(all[3]), all[2]));
        return (read.exact ? "exact " : "partial ") + read.value;
    }
    return all[0] == "report" ? digits_of(checked(known.report(parsed(all[2])))) : "! Unknown";
}

std::string answer(const words &all) {
    if (all[0] == "parse")
        return shown(parsed(all[1]));
    if (all[0] == "bytes")
        return digits_of(parsed(all[2]).bytes(form_of(all[1])));
    if (all[0] == "join")
        return shown(context::join(parsed_from(all, 1)));
    if (all[0] == "cut")
        return shown(parsed(all[3]).cut(budget_of(all[2]), form_of(all[1])));
    if (all[0] == "to_header")
        return to_header(parsed(all[1]));
    if (all[0] == "from_header")
        return shown(terncommode::from_header(bytes(all[1])));
    if (all[0] == "from_binary")
        return shown(terncommode::from_binary(bytes(all[1])));
    if (all[0] == "extract")
        return extracted(all);
    if (all[0] == "quote")
        return digits_of(terncommode::quote(bytes(all[1])));
    return all.size() > 1 ? of_table(all) : "! Unknown";
}

} // namespace

int main() {
    std::ios::sync_with_stdio(false);
    for (std::string line; std::getline(std::cin, line);) {
        try {
            std::cout << answer(split(line, ' ')) << "\n";
        } catch (const refused &why) {
            std::cout << "! " << why.text << "\n";
        }
    }
}
