// run_graph TABLE < GRAPH: the report of a recorded graph, made through the binding. See bindings/tests/README.md.
#include <algorithm>
#include <fstream>
#include <map>

#include "baggage.hpp"
#include "words.hpp"

namespace {

using terncommode::bag;
using terncommode::context;
using terncommode::form;
using terncommode::refusal;
using words = std::vector<std::string_view>;

constexpr std::size_t input_max = 16777216, digits_max = 2097152, steps_max = 100000, parents_max = 4096;
constexpr std::uint64_t budget_max = 4294967295;

/// Why a graph is refused: at a line, and of received bytes at an offset.
struct refused {
    int status;
    std::string code;
    std::size_t offset = 0;
};

[[noreturn]] void refuse(const char *code) { throw refused{2, code}; }

bool is_letter(char c) { return (c >= 'a' && c <= 'z') || (c >= 'A' && c <= 'Z') || c == '_'; }
bool is_digit(char c) { return c >= '0' && c <= '9'; }

bool is_name(std::string_view text) {
    return !text.empty() && is_letter(text[0]) && std::all_of(text.begin(), text.end(), [](char c) { return is_letter(c) || is_digit(c); });
}

bool is_path(std::string_view text) {
    const words names = split(text, '.');
    return std::all_of(names.begin(), names.end(), is_name);
}

std::optional<std::uint64_t> number_of(std::string_view text) {
    if (text.empty() || text.size() > 10 || (text[0] == '0' && text.size() > 1) || !std::all_of(text.begin(), text.end(), is_digit))
        return std::nullopt;
    return std::stoull(std::string(text));
}

bool is_utf8(std::string_view text) {
    for (std::size_t at = 0; at < text.size();) {
        const auto byte = [&](std::size_t k) { return k < text.size() ? static_cast<unsigned char>(text[k]) : 0u; };
        const unsigned first = byte(at), second = byte(at + 1);
        if (first < 0x80) {
            at++;
            continue;
        }
        const std::size_t more = first >= 0xf0 ? 3 : first >= 0xe0 ? 2 : 1;
        const unsigned low = first == 0xe0 ? 0xa0 : first == 0xf0 ? 0x90 : 0x80, high = first == 0xed ? 0x9f : first == 0xf4 ? 0x8f : 0xbf;
        if (first < 0xc2 || first > 0xf4 || second < low || second > high)
            return false;
        for (std::size_t k = 2; k <= more; k++)
            if (byte(at + k) >> 6 != 2)
                return false;
        at += more + 1;
    }
    return true;
}

struct service {
    form as;
    bag view;
};

struct step {
    context list;
    const service *at;
};

class graph {
public:
    explicit graph(bag whole) : whole_(std::move(whole)) {}

    void add(std::string_view line) {
        if (!is_utf8(line))
            refuse("Form");
        const words all = split(line, ' ');
        if (all[0] == "service" || all[0] == "service2")
            add_service(all);
        else if (all[0] == "show")
            add_show(all);
        else
            add_step(line, all);
    }

    [[nodiscard]] std::string report() const {
        std::string text;
        const auto slots = whole_.slots();
        for (const std::size_t number : shown_) {
            const step &it = steps_[number];
            std::string block = "bytes " + digits_of(it.list.bytes(it.at->as)) + "\n";
            for (const std::string &slot : slots) {
                const auto read = whole_.text(it.list, slot).value();
                block += slot + (read.exact ? " exact " : " partial ") + read.value + "\n";
            }
            if (block != whole_.report(it.list, it.at->as).value())
                throw std::runtime_error("the texts aren't those of the report");
            text += "step " + std::to_string(number) + "\n" + block;
        }
        return text;
    }

private:
    void add_service(const words &all) {
        const bool some = all.size() > 3 && all[2] == "only" && std::all_of(all.begin() + 3, all.end(), is_path);
        if (all.size() < 3 || !is_name(all[1]) || !(some || (all.size() == 3 && (all[2] == "all" || all[2] == "none"))))
            refuse("Form");
        if (services_.count(std::string(all[1])))
            refuse("DuplicateService");
        const form as = all[0] == "service2" ? form::two : form::one;
        auto view = all[2] == "all" ? whole_ : whole_.only(words(all.begin() + (some ? 3 : static_cast<std::ptrdiff_t>(all.size())), all.end()));
        if (!view)
            refuse("NoSuchPath");
        services_.emplace(std::string(all[1]), service{as, view->in_form(as)});
    }

    void add_show(const words &all) {
        const auto number = all.size() == 2 ? number_of(all[1]) : std::nullopt;
        if (!number)
            refuse("Form");
        if (*number >= steps_.size())
            refuse("NoSuchStep");
        shown_.push_back(*number);
    }

    /// The parents of a step, after its form.
    static std::vector<std::uint64_t> parents_of(const words &all) {
        static const std::map<std::string_view, std::size_t> counts = {{"start", 3}, {"recv", 4}, {"set", 0}, {"branch", 3}, {"forward", 4}, {"trim", 4}, {"join", 0}};
        const auto count = counts.find(all[0]);
        if (count == counts.end() || (count->second && all.size() != count->second) || all.size() < 3 || !number_of(all[1]))
            refuse("Form");
        if (all[0] == "start" || all[0] == "recv") {
            if (!is_name(all[2]) || all.back().empty())
                refuse("Form");
            return {};
        }
        if ((all[0] == "set" && (all.size() < 5 || !is_path(all[3]) || (all.size() == 5 && all[4].empty()))) || (all[0] == "forward" && !is_name(all[3])) ||
            (all[0] == "trim" && !number_of(all[3])))
            refuse("Form");
        std::vector<std::uint64_t> parents;
        for (auto word = all.begin() + 2; word != (all[0] == "join" ? all.end() : all.begin() + 3); ++word) {
            const auto parent = number_of(*word);
            if (!parent)
                refuse("Form");
            parents.push_back(*parent);
        }
        return parents;
    }

    /// Where a step stands: at a service that it names, or at that of its parents.
    const service *service_of(const words &all, const std::vector<std::uint64_t> &parents) const {
        if (all[0] == "start" || all[0] == "recv" || all[0] == "forward") {
            const auto found = services_.find(std::string(all[all[0] == "forward" ? 3 : 2]));
            if (found == services_.end())
                refuse("NoSuchService");
            return &found->second;
        }
        const service *at = steps_[parents[0]].at;
        for (const std::uint64_t parent : parents)
            if (steps_[parent].at != at)
                refuse("WrongService");
        return at;
    }

    void add_step(std::string_view line, const words &all) {
        const auto parents = parents_of(all);
        if (*number_of(all[1]) != steps_.size())
            refuse("StepNumber");
        for (const std::uint64_t parent : parents)
            if (parent >= steps_.size())
                refuse("NoSuchStep");
        const service *at = service_of(all, parents);
        context list;
        if (all[0] == "set")
            list = written(*at, steps_[parents[0]].list, all[3], line.substr(static_cast<std::size_t>(all[4].data() - line.data())));
        if (all[0] == "trim") {
            const std::uint64_t budget = *number_of(all[3]);
            if (budget < (at->as == form::two ? 13 : 1) || budget > budget_max)
                refuse("BudgetRange");
            list = steps_[parents[0]].list.cut(budget, at->as);
        }
        if (steps_.size() >= steps_max)
            refuse("TooManySteps");
        if (parents.size() > parents_max)
            refuse("TooManyParents");
        if (all[0] == "recv")
            list = received(*at, all[3]);
        if (all[0] == "branch")
            list = steps_[parents[0]].list;
        if (all[0] == "forward" || all[0] == "join") {
            std::vector<context> inputs;
            for (const std::uint64_t parent : parents)
                inputs.push_back(steps_[parent].list);
            list = at->view.update(inputs).value();
        }
        steps_.push_back({std::move(list), at});
    }

    [[nodiscard]] context written(const service &at, const context &before, std::string_view path, std::string_view text) const {
        const auto write = terncommode::writes().set(path, text);
        auto list = at.view.update(before, write);
        if (list)
            return std::move(*list);
        if (list.error().why == refusal::cause::bad_write)
            refuse("BadValue");
        const auto known = whole_.update(context(), write);
        refuse(!known && known.error().why == refusal::cause::no_field ? "NoSuchPath" : "NotKnown");
    }

    [[nodiscard]] context received(const service &at, std::string_view digits) const {
        if (digits.size() > digits_max)
            refuse("HexTooLong");
        const auto bytes = bytes_of(digits);
        if (!bytes)
            refuse("BadHex");
        const auto typed = whole_.receive(*bytes);
        if (!typed) {
            const refusal &why = typed.error();
            throw refused{3, why.why == refusal::cause::ill_typed ? "IllTyped" : why.name(), why.offset};
        }
        return at.view.receive(*bytes).value();
    }

    bag whole_;
    std::map<std::string, service> services_; // its elements stay where they are
    std::vector<step> steps_;
    std::vector<std::size_t> shown_;
};

int run(const bag &whole, const std::string &source) {
    std::size_t number = 0;
    try {
        if (source.size() > input_max)
            refuse("TooLong");
        graph steps(whole);
        const words lines = split(source, '\n');
        for (std::string_view line : lines) {
            number++;
            if (number < lines.size() && !line.empty() && line.back() == '\r')
                line.remove_suffix(1);
            if (!line.empty() && line[0] != '#')
                steps.add(line);
        }
        std::cout << steps.report();
        return 0;
    } catch (const refused &why) {
        std::cerr << (why.status == 2 ? "input" : "context") << " line " << number << (why.status == 3 ? " offset " + std::to_string(why.offset) : "") << " " << why.code << "\n";
        return why.status;
    }
}

} // namespace

int main(int argc, char **argv) {
    std::ios::sync_with_stdio(false);
    if (argc != 2)
        return 64;
    std::ifstream table(argv[1], std::ios::binary);
    return run(bag::from(all_of(table)).value(), all_of(std::cin));
}
