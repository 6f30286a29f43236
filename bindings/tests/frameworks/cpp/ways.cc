// The ways in which C++ runs what belongs to a request: whatever reads exact at the end is the join of all that was said in time, or it is partial.
// `ways` runs them all; `ways ingress` reads lines of what strangers send, and writes what comes in.
#include <atomic>
#include <condition_variable>
#include <cstdio>
#include <cstdlib>
#include <functional>
#include <future>
#include <iostream>
#include <set>
#include <sstream>
#include <thread>
#include <tuple>

#include "baggage_request.hpp"

using namespace terncommode;

#define EXPECT(fact)                                                       \
    do {                                                                   \
        if (!(fact)) {                                                     \
            std::fprintf(stderr, "%s:%d: %s\n", __FILE__, __LINE__, #fact); \
            std::exit(1);                                                  \
        }                                                                  \
    } while (0)

namespace {

const bag &known() {
    static const bag it = bag::from("baggage table 1\n0 0 id scalar fixed32\n0 1 tags set string\n0 2 hops counter\n0 3 debug taint\n").value();
    return it;
}

/// What was told to be in time, by all that works on a visit.
struct noted {
    std::mutex mutex;
    std::set<std::string> tags;
    std::uint64_t hops = 0;

    void tag(const std::string &name, told when) {
        const std::lock_guard<std::mutex> lock(mutex);
        if (when == told::in_time)
            tags.insert(name);
    }
    void count(std::uint64_t more, told when) {
        const std::lock_guard<std::mutex> lock(mutex);
        if (when == told::in_time)
            hops += more;
    }
};

context tagged(const std::string &name) { return known().update(context(), writes().set("tags", quote(name))).value(); }

/// The work of one thread: it adds a tag, changes the context, and counts.
void work(noted &note, const std::string &name) {
    note.tag(name, add(tagged(name)).value());
    note.tag(name + "!", change([&](const context &before) { return known().update(before, writes().set("tags", quote(name + "!"))); }).value());
    note.count(2, count(known(), "hops", 2).value());
}

std::string text_of(const std::set<std::string> &tags) {
    std::string text;
    for (const std::string &tag : tags)
        text += (text.empty() ? "" : ",") + quote(tag);
    return "{" + text + "}";
}

std::uint64_t total_of(const context &it) { return std::stoull(known().text(it, "hops").value().value); }

/// Whether each field is the truth, or partial; and it is exact where it should be.
void check(const context &it, noted &note, bool is_exact = true) {
    const auto tags = known().text(it, "tags").value(), hops = known().text(it, "hops").value();
    EXPECT(tags.exact == is_exact && hops.exact == is_exact);
    if (is_exact) {
        EXPECT(tags.value == text_of(note.tags));
        EXPECT(total_of(it) == note.hops);
    }
}

// ---- ways to run things

void in_sequence(request &, noted &note) {
    for (int k = 0; k < 5; k++)
        work(note, std::to_string(k));
}

void in_threads(request &visit, noted &note) {
    std::vector<std::thread> threads;
    for (int k = 0; k < 8; k++)
        threads.emplace_back(visit.bound([&note, k] {
            for (int turn = 0; turn < 10; turn++)
                work(note, std::to_string(k) + "." + std::to_string(turn));
        }));
    for (std::thread &each : threads)
        each.join();
}

void in_async(request &visit, noted &note) {
    std::vector<std::future<void>> done;
    for (int k = 0; k < 8; k++)
        done.push_back(std::async(k % 2 ? std::launch::async : std::launch::deferred, visit.bound([&note, k] { work(note, std::to_string(k)); })));
    for (auto &each : done)
        each.get();
}

void in_packaged_tasks(request &visit, noted &note) {
    std::vector<std::packaged_task<void()>> tasks;
    for (int k = 0; k < 4; k++)
        tasks.emplace_back(visit.bound([&note, k] { work(note, std::to_string(k)); }));
    std::thread worker([&tasks] {
        EXPECT(!request::here() && add(context()).error().why == refusal::cause::no_request); // a worker runs in none
        for (auto &each : tasks)
            each();
        EXPECT(!request::here());
    });
    worker.join();
}

void in_steps_that_come_back(request &visit, noted &note) {
    note.tag("outer", visit.change([&](const context &before) {
        work(note, "inner");
        return known().update(before, writes().set("tags", quote("outer"))).value();
    }));
}

void in_a_branch_that_comes_back(request &visit, noted &note) {
    auto branch = visit.branch();
    {
        const request::scope scope(branch);
        work(note, "branch");
    }
    work(note, "trunk");
    note.tag("branch", visit.add(branch.current()));
}

void in_a_branch_that_stays(request &visit, noted &note) {
    noted other;
    auto branch = visit.branch();
    const request::scope scope(branch);
    work(other, "branch");
    EXPECT(total_of(branch.end()) == 2);
    const request::scope again(visit);
    work(note, "trunk");
}

void in_nested_scopes(request &visit, noted &note) {
    {
        request other{context()};
        const request::scope scope(other);
        noted others;
        work(others, "other");
    }
    work(note, "own");
    std::thread(visit.bound([&note] { work(note, "thread"); })).join();
}

#if defined(__cpp_exceptions)
void in_steps_that_throw(request &visit, noted &note) {
    try {
        (void)visit.change([](const context &) -> context { throw std::runtime_error("no"); });
        EXPECT(false);
    } catch (const std::runtime_error &) {
    }
    work(note, "after");
}
#endif

void in_steps_that_refuse(request &visit, noted &note) {
    EXPECT(visit.change([](const context &before) { return known().update(before, writes().set("id", "x")); }).error().why == refusal::cause::bad_write);
    EXPECT(visit.count(known(), "nope").error().why == refusal::cause::no_field);
    EXPECT(visit.count(known(), "tags").error().why == refusal::cause::bad_write);
    work(note, "after");
}

void among_the_ill_typed(request &visit, noted &note) {
    (void)visit.add(context::from(std::string_view("\x02\xf8\0\x03\0xx", 7)).value()); // id isn't spelled so
    note.count(3, count(known(), "hops", 3).value());
    note.tag("x", visit.add(tagged("x")));
    EXPECT(known().text(visit.current(), "hops").error().why == refusal::cause::ill_typed);
}

void the_ways() {
    const std::pair<const char *, void (*)(request &, noted &)> ways[] = {{"sequence", in_sequence}, {"threads", in_threads}, {"async", in_async},
        {"tasks", in_packaged_tasks}, {"steps that come back", in_steps_that_come_back}, {"a branch that comes back", in_a_branch_that_comes_back},
        {"a branch that stays", in_a_branch_that_stays}, {"nested scopes", in_nested_scopes}, {"refused steps", in_steps_that_refuse},
#if defined(__cpp_exceptions)
        {"steps that throw", in_steps_that_throw},
#endif
    };
    for (const auto &[name, way] : ways) {
        noted note;
        request visit{context()};
        {
            const request::scope scope(visit);
            way(visit, note);
        }
        EXPECT(!request::here());
        check(visit.end(), note);
    }
    noted note;
    request visit{context()};
    const request::scope scope(visit);
    among_the_ill_typed(visit, note);
    const auto rest = known().only({"tags", "hops"}).value();
    EXPECT(rest.text(visit.end(), "hops").value().exact && rest.text(visit.end(), "tags").value().value == "{\"x\"}");
}

void late() {
    noted note;
    request visit{context()};
    const request::scope scope(visit);
    work(note, "in time");
    const context back = visit.end();
    work(note, "late");
    check(back, note);
    EXPECT(visit.late() == 3 && total_of(visit.current()) == 4);
    EXPECT(current() == visit.current());
}

// ---- replies

/// A service: it takes a header, counts and tags, and gives a reply's values: the context, and which request it answers.
struct served {
    std::string value, answers;
    std::uint64_t counted;
};

served serve(const std::string &value, const std::string &name) {
    const std::vector<std::string> values = {value};
    request visit(extract(values, context::lost()));
    const request::scope scope(visit);
    noted note;
    work(note, name);
    return {to_header(visit.end().cut(reply_budget)), std::string(check_of(value)), 2};
}

void replies() {
    const std::string sent = to_header(context());
    const served one = serve(sent, "one"), other = serve(to_header(tagged("x")), "other");
    const auto read = [&](const served &it) { return extract_reply(std::vector<std::string>{it.value}, it.answers, sent); };
    const auto ends = [&](const std::function<void(request &)> &step) {
        request visit{context()};
        step(visit);
        return visit.end();
    };
    const auto is_lost = [](const context &it) { return it == (it | context::lost()); };
    EXPECT(ends([](request &it) { (void)it.expect(); }).empty());
    EXPECT(ends([](request &it) { it.expect().failed(); }).empty());
    EXPECT(ends([](request &it) { it.expect().began(); }) == context::lost());
    EXPECT(ends([&](request &it) { (void)it.expect().came(read(one)); }) == read(one) && !is_lost(read(one)));
    EXPECT(ends([&](request &it) { auto reply = it.expect(); reply.began(), reply.began(); (void)reply.came(read(one)); }) == read(one));
    EXPECT(is_lost(ends([&](request &it) { auto reply = it.expect(); reply.began(); reply.failed(); (void)it.add(read(one)); })));
    EXPECT(ends([&](request &it) { (void)it.expect().came(context::lost()); }) == context::lost());
    EXPECT(ends([&](request &it) { auto reply = it.expect(); reply.began(); auto moved = std::move(reply); (void)moved.came(read(one)); }) == read(one));
    // A reply to another request, and one that doesn't say to which: a shared cache can't make anything exact.
    EXPECT(read(other) == context::lost() && extract_reply(std::vector<std::string>{one.value}, "", sent) == context::lost());
    EXPECT(extract_reply(std::vector<std::string>(), one.answers, sent) == context::lost());
    // What is sent while a reply is on the way is lost too, and so are branches; afterwards it is whole again.
    request visit{context()};
    auto reply = visit.expect();
    reply.began();
    EXPECT(visit.current() == context::lost() && visit.branch().current() == context::lost());
    EXPECT(reply.came(read(one)) == told::in_time && visit.current() == read(one));
    // A count goes on meanwhile; what a step makes is lost, and stays so.
    request meanwhile{context()};
    auto waits = meanwhile.expect(), again = meanwhile.expect();
    waits.began();
    (void)meanwhile.count(known(), "hops").value();
    EXPECT(waits.came(context()) == told::in_time && known().text(meanwhile.current(), "hops").value().exact);
    again.began();
    (void)meanwhile.change([&](const context &before) {
        EXPECT(is_lost(before));
        return before;
    });
    EXPECT(again.came(context()) == told::in_time && is_lost(meanwhile.end()));
    // A reply that began before the end and comes after it.
    auto slow = visit.expect();
    slow.began();
    EXPECT(is_lost(visit.end()) && slow.came(read(one)) == told::late && visit.late() == 1);
    // The holder lives as long as a reply does.
    auto last = request(context()).expect();
    last.began();
    EXPECT(last.came(read(one)) == told::in_time);
}

// ---- counters

/// A call whose reply comes at once; what is sent while one is on the way is lost, so among threads that call it begins and comes in one.
std::uint64_t ask(request &visit, const std::string &name, bool is_heard) {
    auto reply = visit.expect();
    const std::string sent = to_header(visit.current().cut(request_budget));
    const served came = serve(sent, name);
    if (!is_heard)
        return 0; // it never came: it was done, and not heard
    (void)reply.came(extract_reply(std::vector<std::string>{came.value}, came.answers, sent));
    return came.counted;
}

void counters() {
    request visit{context()};
    std::atomic<std::uint64_t> heard{0};
    std::vector<std::thread> threads;
    for (int k = 0; k < 10; k++) // a fan-out of ten to one instance
        threads.emplace_back([&visit, &heard, k] { heard += ask(visit, "service", k != 3); });
    for (std::thread &each : threads)
        each.join();
    for (int k = 0; k < 3; k++) // retries, and hedges that are heard as well
        heard += ask(visit, "retry", true);
    EXPECT(heard == 24);
    {
        const request::scope scope(visit);
        for (int k = 0; k < 50; k++)
            (void)count(known(), "hops").value();
        heard += 50;
    }
    const auto hops = known().text(visit.end(), "hops").value();
    EXPECT(hops.exact && std::stoull(hops.value) == heard);
    EXPECT(visit.count(known(), "hops", std::numeric_limits<std::uint64_t>::max()).error().why == refusal::cause::bad_write);
    // Of more visits than a budget has place for, the rest is cut, and that is told.
    for (int k = 0; k < 200; k++)
        (void)ask(visit, "many", true);
    EXPECT(!known().text(visit.end(), "hops").value().exact);
}

/// What is counted belongs to a slot, which two tables may name in two ways; one name may be that of two slots. What is refused isn't counted.
void slots() {
    const bag first = bag::from("baggage table 1\n0 2 hops counter\n0 3 sub bag\n1 2 hops counter\n0 4 load map bytes greatest uint64\n").value();
    const bag second = bag::from("baggage table 1\n0 2 jumps counter\n0 3 below bag\n1 2 jumps counter\n0 5 hops counter\n0 6 other bag\n1 0 hop counter\n").value();
    request visit{context()};
    const std::vector<std::tuple<const bag *, const char *, std::uint64_t>> counts = {
        {&first, "hops", 2}, {&second, "jumps", 3}, {&second, "hops", 5}, {&first, "hops", 7}, {&first, "sub.hops", 11}, {&second, "below.jumps", 13}, {&second, "other.hop", 17}};
    for (const auto &[in, path, more] : counts) {
        (void)visit.count(*in, path, more).value();
        const auto of_bag = visit.count(second, "other", 1), of_map = visit.count(first, "load", 1);
        EXPECT(!of_bag && of_bag.error().why == refusal::cause::no_field);
        EXPECT(!of_map && of_map.error().why == refusal::cause::bad_write);
    }
    (void)visit.count(second, "other.hop", 0).value();
    const std::vector<std::pair<const char *, unsigned long long>> totals = {{"jumps", 12}, {"hops", 5}, {"below.jumps", 24}, {"other.hop", 17}};
    for (const auto &[path, total] : totals) {
        const auto found = second.text(visit.current(), path).value();
        EXPECT(found.exact && std::stoull(found.value) == total);
    }
}

/// Two calls of which one is to answer first: what both say adds up where both are heard in time, and a late one isn't in what went back.
void hedges() {
    for (const bool both : {true, false}) {
        request visit{context()};
        const std::string sent = to_header(visit.current());
        auto first = visit.expect(), second = visit.expect();
        const served one = serve(sent, "a"), other = serve(sent, "b");
        EXPECT(first.came(extract_reply(std::vector<std::string>{one.value}, one.answers, sent)) == told::in_time);
        context back = both ? context() : visit.end();
        const told when = second.came(extract_reply(std::vector<std::string>{other.value}, other.answers, sent));
        back = both ? visit.end() : back;
        EXPECT(when == (both ? told::in_time : told::late) && visit.late() == (both ? 0U : 1U));
        EXPECT(total_of(back) == (both ? 4 : 2) && known().text(back, "hops").value().exact && total_of(visit.current()) == 4);
    }
}

/// A service that is started anew, and each of its visits, has a writer of its own.
void writers() {
    const int count = 300;
    context all;
    for (int k = 0; k < count; k++) {
        request visit{context()};
        (void)visit.count(known(), "hops").value();
        all |= visit.end();
    }
    EXPECT(total_of(all) == count);
}

// ---- others

void texts() {
    EXPECT(visible("a\x1b[1m\x7f\xc2\x9b\xe2\x80\xa8\xe2\x80\xae\xe2\x81\xa6\xc3\xa4\n") == "a\\x1b[1m\\x7f\\u009b\\u2028\\u202e\\u2066\xc3\xa4\\x0a");
    const auto wide = bag::from("baggage table 1\n0 0 m map uint32 bag\n1 0 aaaaaaaaaaaaaaaaaaaa taint\n1 1 b taint\n").value();
    writes many;
    for (int k = 0; k < 300; k++)
        many.set("m", std::to_string(k) + ":.b=on");
    const context it = wide.update(context(), many).value();
    EXPECT(wide.report(it, form::one, 1000).error().why == refusal::cause::too_long && wide.report(it, form::one, 1000).error().size > 10000);
    EXPECT(wide.text(it, "m", 1000).error().why == refusal::cause::too_long && wide.text(it, "m").has_value() && wide.report(it).has_value());
    bag moved = known();
    const bag taken = std::move(moved);
    EXPECT(moved.keep(tagged("x"), others::cut) == context::lost() && moved.slots().empty() && taken.slots().size() == 4);
}

void races() {
    // Eight threads that add, change, count, await replies and end, all at one request.
    request visit{context()};
    std::vector<std::thread> threads;
    std::atomic<std::uint64_t> counted{0};
    for (int k = 0; k < 8; k++)
        threads.emplace_back(visit.bound([&visit, &counted, k] {
            for (int turn = 0; turn < 20; turn++) {
                auto reply = visit.expect();
                if (turn % 3)
                    reply.began();
                (void)visit.count(known(), "hops", 1).value();
                (void)visit.change([&](const context &before) { return before | current(); });
                (void)reply.came(tagged(std::to_string(k)));
                counted++;
                if (turn == 10 && k == 0)
                    (void)visit.end();
                (void)visit.branch().current().cut(reply_budget);
            }
        }));
    for (std::thread &each : threads)
        each.join();
    EXPECT(total_of(visit.current()) == counted && counted == 160 && visit.late() > 0);
}

// ---- what comes in from strangers

std::string bytes_of(const std::string &digits) {
    std::string bytes;
    for (std::size_t k = 0; digits != "-" && k < digits.size(); k += 2)
        bytes += static_cast<char>(std::stoi(digits.substr(k, 2), nullptr, 16));
    return bytes;
}

std::string digits_of(std::string_view bytes) {
    static constexpr char letters[] = "0123456789abcdef";
    std::string digits = bytes.empty() ? "-" : "";
    for (const char each : bytes) {
        digits += letters[static_cast<unsigned char>(each) >> 4];
        digits += letters[static_cast<unsigned char>(each) & 15];
    }
    return digits;
}

/// Lines `TABLE LETTERS PARTS TEXT BUDGET DROPS VALUE..`: what comes in.
void strangers() {
    for (std::string line; std::getline(std::cin, line);) {
        std::istringstream words(line);
        std::string table, value;
        limits within;
        int drops = 0;
        words >> table >> within.letters >> within.parts >> within.text >> within.budget >> drops;
        within.drops_partial = drops != 0;
        std::vector<std::string> values;
        while (words >> value)
            values.push_back(bytes_of(value));
        std::cout << digits_of(bag::from(bytes_of(table)).value().ingress(values, within).view()) << '\n';
    }
}

} // namespace

int main(int count, char **words) {
    if (count > 1 && std::string_view(words[1]) == "ingress") {
        strangers();
        return 0;
    }
    the_ways();
    late();
    replies();
    counters();
    slots();
    hedges();
    writers();
    texts();
    races();
    return 0;
}
