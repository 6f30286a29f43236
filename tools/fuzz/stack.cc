// How much stack each call of the library takes, at the worst input of each limit of the formats, and whether it grows with inputs. Each call runs on
// a stack of its own of MOST bytes with a page below it that can't be touched, painted before, so that what was touched is seen after.
// usage: stack [MOST], 65,536 where it isn't named. It prints a line for each input, and fails where an answer isn't as expected, where a call
// takes more than three quarters of the stack, or where four times the input takes more than the input does, but for what two more halvings of a
// list take.
#include <ucontext.h>

#include "judge.hh"

using cases::Case;
using slow::Bytes;

constexpr size_t halvings = 2048;

static size_t stack_size = 65536;
static uint8_t *stack_begin;
static ucontext_t here, there;
static const Case *called;
static uint8_t *room;
static size_t room_size;
static judge::Placed placed;
static baggage_answer got;

static void enter() { got = judge::call(*called, placed, room, room_size); }

// The spans of many inputs are kept here, since the arenas of the judge hold six.
static std::vector<baggage_span> many;

static judge::Placed placed_here(const Case &it) {
    many.clear();
    for (const Bytes &input : it.inputs)
        many.push_back({reinterpret_cast<const uint8_t *>(input.data()), input.size()});
    return {many.empty() ? nullptr : many[0].bytes, many.data(), it.table.c_str(), it.next.c_str(), it.name.c_str(), it.text.c_str()};
}

// How many bytes of the stack a call takes.
static size_t taken_by(const Case &it, uint32_t status) {
    static std::vector<uint8_t> space(64 << 20);
    called = &it;
    placed = placed_here(it);
    room = space.data();
    room_size = space.size();
    memset(stack_begin, 0xa5, stack_size);
    getcontext(&there);
    there.uc_stack.ss_sp = stack_begin;
    there.uc_stack.ss_size = stack_size;
    there.uc_link = &here;
    makecontext(&there, enter, 0);
    swapcontext(&here, &there);
    if (got.status != status) {
        fprintf(stderr, "stack: %s answers %u\n", cases::call_name(it.call), got.status);
        exit(1);
    }
    size_t at = 0;
    while (at < stack_size && stack_begin[at] == 0xa5)
        at++;
    return stack_size - at;
}

static size_t worst[cases::calls];
static int wrong;

static size_t tell(const char *what, Case it, unsigned call, uint32_t status = BAGGAGE_OK) {
    it.call = call;
    size_t taken = taken_by(it, status);
    printf("%-12s %-48s %6zu\n", cases::call_name(call), what, taken);
    worst[call] = std::max(worst[call], taken);
    if (taken > stack_size / 4 * 3) {
        printf("  this is more than three quarters of the stack\n");
        wrong = 1;
    }
    return taken;
}

static void tell_growth(const char *what, const Case &small, const Case &large, unsigned call) {
    size_t one = tell((Bytes(what) + ", a quarter").c_str(), small, call), four = tell(what, large, call);
    if (four > one + halvings) {
        printf("  the stack grows with the input\n");
        wrong = 1;
    }
}

// ---- inputs

// Headers of all levels, with a datum and a marker below each.
static slow::Atoms deepest(bool is_keyed) {
    slow::Atoms atoms;
    for (size_t level = 0; level < 16; level++)
        atoms.push_back(is_keyed && level > 0 ? Bytes(1, static_cast<char>(0xf9 - 8 * level)) + Bytes("\x80", 1) : slow::header(level, 0));
    atoms.push_back(Bytes(1, '\0') + "\x01");
    atoms.push_back("");
    return atoms;
}

static Bytes repeated(size_t count, Bytes (*piece)(size_t)) {
    Bytes out;
    for (size_t at = 0; at < count; at++)
        out += piece(at);
    return out;
}

static const Bytes head = "baggage table 1\n";

// A table whose bags stand inside one another, as deep as levels go.
static Bytes nested_bags() {
    Bytes table = head;
    for (size_t depth = 0; depth < 15; depth++)
        table += std::to_string(depth) + " 0 a bag\n";
    return table + "15 0 b scalar uint32\n15 1 c taint\n";
}

// Maps inside one another, as deep as levels go, with a bag's fields at their end.
static Bytes nested_maps(const Bytes &end) {
    Bytes table = head + "0 0 a ";
    for (size_t depth = 0; depth < 14; depth++)
        table += "map int32 ";
    return table + end;
}

static Bytes nested_text(const Bytes &end) {
    Bytes text;
    for (size_t depth = 0; depth < 14; depth++)
        text += "0:";
    return text + end;
}

static Bytes wide_table(size_t fields) {
    Bytes table = head;
    for (size_t at = 0; at < fields; at++)
        table += "0 " + std::to_string(at) + " a" + std::to_string(at) + " set uint32\n";
    return table;
}

static Bytes struct_table(size_t words) { return head + "0 0 a scalar (" + repeated(words - 1, [](size_t) { return Bytes("bool,"); }) + "bool)\n"; }

static Bytes struct_text(size_t words) { return "(" + repeated(words - 1, [](size_t) { return Bytes("true,"); }) + "true)"; }

static Bytes wide_context(size_t elements) {
    slow::Atoms atoms{slow::header(0, 0)};
    for (size_t at = 0; at < elements; at++)
        atoms.push_back(Bytes(1, '\0') + slow::put_unsigned(at));
    return slow::write_list(1, atoms);
}

static Case with(const Bytes &table, const std::vector<Bytes> &inputs, const Bytes &text = "", const Bytes &name = "a") {
    Case it;
    it.table = it.next = table;
    it.inputs = inputs;
    it.text = text;
    it.name = name;
    return it;
}

// ---- what is tried

static void try_levels() {
    for (bool is_keyed : {false, true})
        for (unsigned form : {1u, 2u}) {
            Bytes context = slow::write_list(form, deepest(is_keyed));
            Bytes table = is_keyed ? nested_maps("map int32 scalar uint32\n") : nested_bags();
            Bytes name = is_keyed ? "a" : "a.a.a.a.a.a.a.a.a.a.a.a.a.a.a.b";
            Bytes text = is_keyed ? nested_text("0:1") : "1";
            Case it = with(table, {context}, text, name);
            it.budget = 100;
            for (unsigned call : {cases::check, cases::places, cases::read_field, cases::write_field, cases::check_table, cases::evolve, cases::carry, cases::report})
                tell("sixteen levels", it, call);
            it.choice = BAGGAGE_JSON;
            tell("sixteen levels as JSON", it, cases::report);
            it.inputs = {context, context, context};
            it.text = name + " " + text + "\n" + name + " " + text + "\n";
            for (unsigned call : {cases::join, cases::update, cases::keep})
                tell("sixteen levels, three times", it, call);
        }
    Bytes bag = nested_maps("bag\n") + "1 0 b counter\n";
    tell("maps to bags with a counter", with(bag, {""}, nested_text(".b=\"w\":1")), cases::write_field, BAGGAGE_TABLE);
    Bytes shorter = head + "0 0 a map int32 map int32 map int32 map int32 map int32 map int32 map int32 map int32 map int32 map int32 map int32 bag\n1 0 b bag\n2 0 c "
                    "counter\n";
    tell("maps to bags in bags with a counter", with(shorter, {""}, "0:0:0:0:0:0:0:0:0:0:0:.b=.c=\"w\":1"), cases::write_field);
    for (size_t count : {32, 33, 100000}) {
        Bytes table = head + "0 0 a " + repeated(count, [](size_t) { return Bytes("map int32 "); }) + "taint\n";
        for (unsigned call : {cases::check_table, cases::update, cases::keep, cases::places, cases::report, cases::read_field, cases::write_field, cases::evolve})
            tell((std::to_string(count) + " maps in a line").c_str(), with(table, {""}), call, BAGGAGE_TABLE);
    }
}

static void try_widths() {
    for (unsigned call : {cases::check_table, cases::evolve, cases::places, cases::report, cases::read_field, cases::update, cases::keep})
        tell_growth("16,384 fields", with(wide_table(4096), {wide_context(4)}, "", "a0"), with(wide_table(16384), {wide_context(4)}, "", "a0"), call);
    Case small = with(struct_table(20000), {""}, struct_text(20000)), large = with(struct_table(80000), {""}, struct_text(80000));
    for (unsigned call : {cases::check_table, cases::evolve, cases::read_field})
        tell_growth("a struct of 80,000 words", small, large, call);
    Case little = with(struct_table(10000), {""}, struct_text(10000)), big = with(struct_table(40000), {""}, struct_text(40000));
    tell_growth("a struct of 40,000 words", little, big, cases::write_field);
    Bytes set = head + "0 0 a set uint32\n";
    for (unsigned call : {cases::check, cases::join, cases::update, cases::keep, cases::places, cases::report, cases::read_field, cases::carry})
        tell_growth("100,000 atoms", with(set, {wide_context(25000)}), with(set, {wide_context(100000)}), call);
    for (unsigned call : {cases::join, cases::update, cases::keep})
        tell_growth("20,000 inputs", with(set, std::vector<Bytes>(5000, wide_context(3))), with(set, std::vector<Bytes>(20000, wide_context(3))), call);
    auto line = [](size_t at) { return "a " + std::to_string(at) + "\n"; };
    tell_growth("40,000 lines of writes", with(set, {""}, repeated(10000, line)), with(set, {""}, repeated(40000, line)), cases::update);
}

static void try_long() {
    Bytes longest = Bytes(1, '\0') + Bytes(slow::longest - 1, 'x'), string = head + "0 0 a scalar string\n", bytes = head + "0 0 a scalar bytes\n";
    Bytes context = slow::write_list(2, {slow::header(0, 0), longest});
    for (unsigned call : {cases::check, cases::join, cases::update, cases::keep, cases::places, cases::report, cases::read_field})
        tell("the longest atom", with(string, {context}), call);
    Case it = with(bytes, {""}, "0x" + Bytes(2 * (slow::longest - 1), 'a'));
    it.form = 2;
    tell("the longest text of a write", it, cases::write_field);
    it = with(string, {wide_context(200000)});
    it.width = 4;
    tell("200,000 atoms in pieces of four bytes", it, cases::carry);
    auto lines = [](size_t atoms) {
        Case of;
        of.text = slow::carry(wide_context(atoms), 4).written;
        return of;
    };
    tell_growth("the most pieces", lines(50000), lines(200000), cases::collect);
}

int main(int count, char **words) {
    if (count > 1)
        stack_size = strtoul(words[1], nullptr, 10);
    auto *pages = static_cast<uint8_t *>(mmap(nullptr, stack_size + 4096, PROT_READ | PROT_WRITE, MAP_PRIVATE | MAP_ANONYMOUS, -1, 0));
    if (pages == MAP_FAILED || mprotect(pages, 4096, PROT_NONE))
        return 1;
    stack_begin = pages + 4096;
    try_levels();
    try_widths();
    try_long();
    size_t most = 0;
    for (unsigned call = 0; call < cases::calls; call++) {
        printf("%-12s takes at most %zu bytes of stack\n", cases::call_name(call), worst[call]);
        most = std::max(most, worst[call]);
    }
    printf("the calls take at most %zu bytes of a stack of %zu\n", most, stack_size);
    return wrong;
}
