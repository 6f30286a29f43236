// What a program in C++ does with contexts and bags, and a request's whole life. It says nothing where all is well, and otherwise which line
// isn't.
#include <cstdio>
#include <map>
#include <string>
#include <thread>
#include <unordered_map>
#include <unordered_set>

#include "baggage.hpp"

// clang below 16 can't read the views of libstdc++.
#if defined(__cpp_lib_ranges) && (!defined(__clang__) || __clang_major__ > 15)
#include <ranges>
#endif

namespace {

using namespace terncommode;
using namespace std::string_literals;
using cause = refusal::cause;

int failures = 0;

void expect_at(bool fact, const char *text, int line) {
    if (!fact) {
        std::fprintf(stderr, "%s:%d: %s\n", __FILE__, line, text);
        failures++;
    }
}
#define EXPECT(...) expect_at((__VA_ARGS__), #__VA_ARGS__, __LINE__)

constexpr std::string_view table = "baggage table 1\n0 0 id scalar fixed32\n0 1 tags set string\n0 2 hops counter\n0 3 debug taint\n0 4 load map string scalar uint32\n";

std::string count(std::string_view writer, unsigned number) { return quote(writer) + ":" + std::to_string(number); }

bool says(const bag &known, const context &it, std::string_view path, std::string_view value, bool exact) {
    const auto read = known.text(it, path);
    return read && *read == field<std::string>{std::string(value), exact};
}

bool is_refused(const result<context, refusal> &found, cause why, std::size_t line, std::size_t input = 0, std::size_t offset = 0) {
    return !found && found.error().why == why && found.error().line == line && found.error().input == input && found.error().offset == offset;
}

void lives() {
    const bag all = bag::from(table).value();
    // The gateway begins.
    const context start = extract(std::vector<std::string>(), context());
    EXPECT(start.empty());
    const context gateway = all.update(start, writes().set("id", "4711").set("hops", count("gateway", 1))).value();
    // Two branches of it go to services that know a part each.
    const std::string sent = to_header(gateway);
    const bag cart = all.only({"tags", "hops"}).value();
    const context in_cart = cart.update(from_header(sent), writes().set("tags", quote("a \"tag\"\n")).set("hops", count("cart", 3))).value();
    const bag pricing = all.only({"hops", "load"}).value();
    const context in_pricing = pricing.update(from_header(sent), writes().set("load", "\"eur\":1299")).value();
    EXPECT(is_refused(pricing.update(in_pricing, writes().set("id", "1")), cause::no_field, 1));
    // A proxy that knows nothing merges what comes back, as one header line or as two.
    const context proxy = in_cart | in_pricing;
    const std::vector<std::string> lines = {to_header(in_cart), to_header(in_pricing)};
    EXPECT(extract(lines, context::lost()) == proxy);
    EXPECT(from_header(lines[0] + ", " + lines[1]) == proxy);
    // The gateway writes over its earlier count and reads all.
    const context end = all.update({gateway, proxy}, writes().set("hops", count("gateway", 2)).set("debug", "on")).value();
    EXPECT(says(all, end, "id", "4711", true));
    EXPECT(says(all, end, "tags", R"({"a \"tag\"\x0a"})", true));
    EXPECT(says(all, end, "hops", "5{0x63617274:3,0x67617465776179:2}", true));
    EXPECT(says(all, end, "debug", "on", true));
    EXPECT(says(all, end, "load", R"({"eur":1299})", true));
    // A partner gets as much as fits, and knows what may be missing.
    const context partner = proxy.cut(30);
    EXPECT(partner.view().size() <= 30 && says(all, partner, "id", "4711", true) && says(all, partner, "load", "{}", false));
    // Only some of it may leave.
    const bag outside = all.only({"id", "debug"}).value();
    const context left = outside.keep(end, others::cut);
    EXPECT(says(all, left, "id", "4711", true) && says(all, left, "tags", "{}", false));
    EXPECT(says(all, outside.keep(end, others::unsaid, 1000), "debug", "on", true));
    // A copy that is damaged on the way is lost, and adds nothing that isn't so.
    const context damaged = from_header(std::string_view(sent).substr(0, sent.size() - 3));
    EXPECT(damaged == context::lost() && says(all, end | damaged, "id", "4711", false));
}

void values() {
    const bag all = bag::from(table).value();
    const context one = all.update(context(), writes().set("id", "7")).value(), two = all.update(context(), writes().set("id", "9")).value();
    context both = one;
    both |= two;
    EXPECT(both == (two | one) && both != one && one != two);
    EXPECT(context::join(std::vector<context>{two, one, one}) == both && context::join(std::vector<context>()) == context());
    EXPECT(all.update(std::vector<context>{one, two}).value() == one); // of two values of a scalar the least stays
    // What was moved from is the empty context, also where it was too short to be elsewhere.
    context from = one, to = std::move(from);
    EXPECT(to == one && from.empty());
    from = std::move(to);
    EXPECT(from == one && to.empty());
    context &self = from;
    from = std::move(self);
    EXPECT(from == one);
    EXPECT(std::unordered_set<context>{one, one, two}.size() == 2);
    // Bytes of either form are the same context.
    const std::string bytes = one.bytes(form::two);
    EXPECT(bytes.size() == 21 && bytes.substr(0, 4) == "\xff\xff\xff\x02" && context::from(bytes).value() == one && from_binary(bytes) == one);
    EXPECT(one.bytes() == std::string_view("\x02\xf8\0\x05\0\0\0\0\x07", 9) && one.view() == one.bytes());
    EXPECT(from_binary(std::string_view(bytes).substr(1)) == context::lost());
    EXPECT(one.cut(0) == context::lost() && one.cut(0, form::two) == context::lost() && one.cut(9) == one && one.cut(21, form::two) == one);
    const auto faulty = context::from("\x02\xf8");
    EXPECT(!faulty && faulty.error() == fault{0, BAGGAGE_CUT_BODY} && faulty.error().message() == "CutBody at byte 0");
}

void refusals() {
    const bag all = bag::from(table).value();
    const auto bad = bag::from("baggage table 1\n0 0 id scalar\n");
    EXPECT(!bad && bad.error().why == cause::bad_table && bad.error().line == 2 && bad.error().message() == "line 2 is not a table's: Form");
    EXPECT(!bag::from("") && !bag::from(std::string_view()) && bag::from("baggage table 1\n"));
    EXPECT(!all.only({"id", "idd"}) && all.only({"id", "idd"}).error().why == cause::no_field);
    EXPECT(!all.text(context(), "load.eur") && all.text(context(), "").error().why == cause::no_field);
    EXPECT(is_refused(all.update(context(), writes().set("id", "5").set("idd", "4")), cause::no_field, 2));
    EXPECT(is_refused(all.update(context(), writes().set("id", "5").set("id", "x")), cause::bad_write, 2));
    // A write never becomes two.
    EXPECT(is_refused(all.update(context(), writes().set("id", "7\ndebug on")), cause::bad_write, 1));
    EXPECT(is_refused(all.update(context(), writes().set("debug on\nid", "7")), cause::no_field, 1));
    EXPECT(is_refused(all.update(context(), writes().set("tags \"a", "b\"")), cause::no_field, 1));
    const context ill = context::from(std::string_view("\x02\xf8\0\x02\0\0\x05\0\0\0\0\x07", 12)).value();
    const auto untyped = all.update({context(), ill});
    EXPECT(is_refused(untyped, cause::ill_typed, 0, 1, 3) && untyped.error().message() == "input 1: ill typed at byte 3");
    EXPECT(bag().update(ill).value() == ill);
    EXPECT(is_refused(all.receive(ill.bytes(form::two)), cause::ill_typed, 0, 0, 15));
    EXPECT(is_refused(all.receive("\x80"), cause::bad_bytes, 0, 0, 0));
#if !defined(__cpp_lib_expected) || defined(TERNCOMMODE_OWN_RESULT)
    bool is_thrown = false;
    try {
        (void)all.only({"idd"}).value();
    } catch (const bad_result_access &) {
        is_thrown = true;
    }
    EXPECT(is_thrown);
#endif
}

void tables() {
    const bag all = bag::from("baggage table 1\n0 0 route bag\n1 0 zone scalar string\n1 1 retries counter\n0 1 items map fixed64 bag\n"
                              "1 0 coupons set string\n0 4 last taint\n")
                        .value();
    EXPECT(all.slots() == std::vector<std::string>{"route.zone", "route.retries", "items", "last"});
    EXPECT(all.only({"last", "route.zone"}).value().table() == "baggage table 1\n0 0 route bag\n1 0 zone scalar string\n0 4 last taint\n");
    EXPECT(all.only({"items"}).value().table() == "baggage table 1\n0 1 items map fixed64 bag\n1 0 coupons set string\n");
    EXPECT(!all.only({"items.coupons"}) && all.only(std::vector<std::string>{"route"}).value().slots().size() == 2 && bag().slots().empty());
    const context it = all.update(context(), writes().set("items", "17:.coupons=\"x\"")).value();
    EXPECT(all.report(it).value() == "bytes 02f80109f1000000000000001102e8000200" "78\nroute.zone exact -\nroute.retries exact 0{}\nitems exact {17:[coupons={\"x\"}]}\nlast exact off\n");
}

void long_data() {
    const bag known = bag::from("baggage table 1\n0 0 note scalar string\n").value(), wide = known.in_form(form::two);
    const writes said = writes().set("note", quote(std::string(70000, 'x')));
    EXPECT(is_refused(known.update(context(), said), cause::bad_write, 1));
    const context it = wide.update(context(), said).value();
    EXPECT(it.bytes() == it.bytes(form::two) && known.text(it, "note").value().value.size() == 70002 && from_header(to_header(it)) == it);
    EXPECT(wide.update(it, writes(), 100).value() == it.cut(100, form::two));
}

// A budget counts the bytes of the bag's form, also of what may leave.
void forms() {
    const bag all = bag::from(table).value(), wide = all.in_form(form::two);
    const context it = all.update(context(), writes().set("id", "7").set("tags", quote("a")).set("debug", "on")).value();
    EXPECT(it.view().size() == 20 && it.bytes(form::two).size() == 32);
    EXPECT(all.keep(it, others::cut, 20) == it && all.keep(it, others::cut, 19) == it.cut(19));
    EXPECT(wide.keep(it, others::cut, 32) == it && wide.keep(it, others::cut, 31) == it.cut(31, form::two) && it.cut(31, form::two) != it);
    EXPECT(wide.keep(it, others::unsaid) == it && wide.keep(it, others::cut, 0) == context::lost());
}

// A range that gives what a function makes of each element, and nothing that stays; it can be gone through once.
template <class Element, class Make> class made_range {
public:
    class iterator {
    public:
        using iterator_category = std::input_iterator_tag;
        using value_type = Element;
        using difference_type = std::ptrdiff_t;
        using pointer = void;
        using reference = Element;

        iterator(const std::string *at, Make make) : at_(at), make_(make) {}
        Element operator*() const { return make_(*at_); }
        iterator &operator++() { return ++at_, *this; }
        void operator++(int) { ++at_; }
        friend bool operator!=(const iterator &a, const iterator &b) { return a.at_ != b.at_; }

    private:
        const std::string *at_;
        Make make_;
    };

    made_range(const std::vector<std::string> &of, Make make) : of_(of), make_(make) {}
    [[nodiscard]] iterator begin() const { return {of_.data(), make_}; }
    [[nodiscard]] iterator end() const { return {of_.data() + of_.size(), make_}; }

private:
    const std::vector<std::string> &of_;
    Make make_;
};

// A range that gives references to the one element that its iterator holds.
struct held_range {
    struct iterator {
        using iterator_category = std::input_iterator_tag;
        using value_type = context;
        using difference_type = std::ptrdiff_t;
        using pointer = const context *;
        using reference = const context &;

        const std::string *at;
        mutable context held;

        const context &operator*() const { return held = from_header(*at); }
        iterator &operator++() { return ++at, *this; }
        void operator++(int) { ++at; }
        friend bool operator!=(const iterator &a, const iterator &b) { return a.at != b.at; }
    };
    const std::vector<std::string> &of;
    [[nodiscard]] iterator begin() const { return {of.data(), context()}; }
    [[nodiscard]] iterator end() const { return {of.data() + of.size(), context()}; }
};

// A range may give its elements by value: they are kept for the call.
void ranges() {
    const bag all = bag::from(table).value();
    std::vector<context> steps;
    std::vector<std::string> lines;
    for (const char *tag : {"one that needs memory of its own", "another that needs memory of its own", "a"}) {
        steps.push_back(all.update(context(), writes().set("tags", quote(tag))).value());
        lines.push_back(to_header(steps.back()));
    }
    const context both = context::join(steps);
    const auto read = [](const std::string &line) { return from_header(line); };
    const auto copied = [](const std::string &line) { return std::string(line); };
    const auto viewed = [](const std::string &line) { return std::string_view(line); };
    const made_range<context, decltype(read)> made(lines, read);
    EXPECT(context::join(made) == both && all.update(made).value() == both && context::join(held_range{lines}) == both);
    EXPECT(extract(made_range<std::string, decltype(copied)>(lines, copied), context()) == both);
    EXPECT(extract(made_range<std::string_view, decltype(viewed)>(lines, viewed), context()) == both);
    const char *const letters[] = {lines[0].c_str(), lines[1].c_str(), lines[2].c_str()};
    EXPECT(extract(letters, context()) == both && extract(std::vector<const char *>(letters, letters + 3), context()) == both);
#if defined(__cpp_lib_ranges) && (!defined(__clang__) || __clang_major__ > 15)
    EXPECT(context::join(lines | std::views::transform(read)) == both && all.update(lines | std::views::transform(read)).value() == both);
    EXPECT(extract(lines | std::views::transform(copied), context()) == both && extract(lines | std::views::transform(viewed), context()) == both);
    EXPECT(context::join(steps | std::views::reverse) == both && extract(lines | std::views::take(3), context()) == both);
#endif
}

void headers() {
    const context one = context::from("\x02\xf8\x01\x02\x7f"s.replace(4, 1, "\0a"s)).value();
    std::multimap<std::string, std::string> many;
    EXPECT(extract_from(many, context()) == context() && extract_from(many, context::lost()) == context::lost());
    many.emplace(std::string(header_name), "x");
    inject(many, one);
    EXPECT(many.size() == 1 && extract_from(many, context::lost()) == one);
    many.emplace(std::string(header_name), "x");
    EXPECT(extract_from(many, context()) == (one | context::lost()));
    // A name counts in any case, whatever the map thinks of it.
    many.emplace("Terncommode", to_header(context()));
    EXPECT(detail::values_of(many, header_name).size() == 3);
    inject(many, one);
    EXPECT(many.size() == 1);
    std::map<std::string, std::string> from_go{{"Terncommode", to_header(one)}, {"TERNCOMMODE-FOR", std::string(check_of(to_header(context())))}, {"Cache-Control", "private"}};
    EXPECT(extract_from(from_go, context()) == one && extract_reply_from(from_go, to_header(context())) == one);
    std::map<std::string, std::string> back{{"Cache-Control", "private"}, {"Terncommode-For", "x"}};
    inject_reply(back, one, from_go);
    EXPECT(back.size() == 3 && back.at("terncommode-for") == check_of(to_header(one)) && back.at("cache-control") == "private, " BAGGAGE_NO_CACHE);
    std::unordered_map<std::string, std::string> single;
    inject(single, one);
    EXPECT(single.at("terncommode") == to_header(one) && extract_from(single, context()) == one);
    const std::string value = to_header(one);
    for (std::size_t length = 0; length < value.size(); length++)
        EXPECT(from_header(std::string_view(value).substr(0, length)) == context::lost());
    EXPECT(grpc_key == "terncommode-bin");
}

void threads() {
    const bag all = bag::from(table).value();
    std::vector<context> ends(8);
    std::vector<std::thread> workers;
    for (std::size_t number = 0; number < ends.size(); number++)
        workers.emplace_back([&all, &end = ends[number], number] {
            for (unsigned turn = 0; turn < 100; turn++)
                end = all.update(from_header(to_header(end)), writes().set("hops", count(std::to_string(number), turn))).value();
        });
    for (std::thread &worker : workers)
        worker.join();
    const auto hops = all.text(context::join(ends), "hops").value();
    EXPECT(hops.exact && hops.value.substr(0, 4) == "792{");
}

} // namespace

int main() {
    lives();
    values();
    refusals();
    tables();
    long_data();
    forms();
    ranges();
    headers();
    threads();
    return failures ? 1 : 0;
}
