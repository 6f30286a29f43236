// One case through the library, held to the slow implementation: the five numbers of the answer, the bytes that are written, and every
// byte of the room that isn't. Inputs lie in pages that can be read alone, and end where a page begins that can't be touched; so does the
// room. So a byte that is read or written too far ends the program.
#ifndef JUDGE_HH
#define JUDGE_HH

#include <cstdio>
#include <cstdlib>
#include <cstring>
#include <sys/mman.h>
#include <unistd.h>

#include "cases.hh"

namespace judge {

using cases::Case;
using slow::Bytes;

constexpr size_t arena_size = 4 << 20, zone = 64;
constexpr uint8_t canary = 0xee;

// Pages that are seen twice: here they are written, there they can only be read, or, of a room, be written too.
struct Arena {
    uint8_t *here, *there;

    explicit Arena(int protection) {
        int file = memfd_create("arena", 0);
        if (file < 0 || ftruncate(file, arena_size) != 0)
            abort();
        void *one = mmap(nullptr, arena_size, PROT_READ | PROT_WRITE, MAP_SHARED, file, 0);
        void *other = mmap(nullptr, arena_size + 2 * 4096, PROT_NONE, MAP_PRIVATE | MAP_ANONYMOUS, -1, 0);
        there = static_cast<uint8_t *>(other) + 4096;
        if (one == MAP_FAILED || other == MAP_FAILED || mmap(there, arena_size, protection, MAP_SHARED | MAP_FIXED, file, 0) == MAP_FAILED)
            abort();
        here = static_cast<uint8_t *>(one);
        close(file);
    }

    // The bytes, at the end of the pages or a little before it.
    const uint8_t *put(const Bytes &bytes, size_t before_end = 0) {
        if (bytes.size() + before_end > arena_size)
            abort();
        size_t at = arena_size - bytes.size() - before_end;
        memcpy(here + at, bytes.data(), bytes.size());
        return there + at;
    }
};

struct Arenas {
    Arena room{PROT_READ | PROT_WRITE}, table{PROT_READ}, next{PROT_READ}, name{PROT_READ}, text{PROT_READ}, spans{PROT_READ}, chosen{PROT_READ};
    std::vector<Arena> inputs;
    Arenas() {
        for (int k = 0; k < 6; k++)
            inputs.emplace_back(PROT_READ);
    }
};

inline Arenas &arenas() {
    static Arenas them;
    return them;
}

// The arguments of a case, as the library takes them.
struct Placed {
    const uint8_t *input;
    const baggage_span *spans;
    const char *table, *next, *name, *text;
    const size_t *chosen;
    size_t chosen_size;
};

inline Placed place(const Case &it) {
    Arenas &to = arenas();
    std::vector<baggage_span> spans;
    for (size_t at = 0; at < it.inputs.size(); at++)
        spans.push_back({to.inputs[at % 6].put(it.inputs[at]), it.inputs[at].size()});
    Bytes raw(reinterpret_cast<const char *>(spans.data()), spans.size() * sizeof(baggage_span));
    std::vector<size_t> chosen = it.call == cases::chosen_places ? cases::chosen_of(it) : std::vector<size_t>();
    Bytes numbers(reinterpret_cast<const char *>(chosen.data()), chosen.size() * sizeof(size_t));
    auto text = [](Arena &arena, const Bytes &bytes) { return reinterpret_cast<const char *>(arena.put(bytes)); };
    return {spans.empty() ? to.inputs[0].put("") : spans[0].bytes, reinterpret_cast<const baggage_span *>(to.spans.put(raw)),
            text(to.table, it.table), text(to.next, it.next), text(to.name, it.name), text(to.text, it.text),
            reinterpret_cast<const size_t *>(to.chosen.put(numbers)), chosen.size()};
}

// The call itself, into a room of so many bytes, or of places of so many.
inline baggage_answer call(const Case &it, const Placed &at, uint8_t *room, size_t size) {
    const Bytes &input = it.inputs.empty() ? it.name : it.inputs[0];
    const uint8_t *context = it.inputs.empty() ? nullptr : at.input;
    size_t length = it.inputs.empty() ? 0 : input.size(), table = it.table.size();
    char *text = reinterpret_cast<char *>(room);
    switch (it.call) {
    case cases::check: return baggage_check(context, length);
    case cases::join: return baggage_join(it.form, at.spans, it.inputs.size(), it.budget, room, size);
    case cases::update:
        return baggage_update(it.form, at.table, table, at.spans, it.inputs.size(), at.text, it.text.size(), it.budget, room, size);
    case cases::keep: return baggage_keep(it.form, it.choice, at.table, table, at.spans, it.inputs.size(), it.budget, room, size);
    case cases::places:
        return baggage_places(at.table, table, context, length, reinterpret_cast<baggage_place *>(room), size / sizeof(baggage_place));
    case cases::chosen_places:
        return baggage_chosen_places(at.table, table, at.chosen, at.chosen_size, context, length,
                                     reinterpret_cast<baggage_place *>(room), size / sizeof(baggage_place));
    case cases::report: return baggage_report(it.choice, at.table, table, context, length, text, size);
    case cases::read_field: return baggage_read_field(at.table, table, context, length, at.name, it.name.size(), text, size);
    case cases::write_field:
        return baggage_write_field(it.form, at.table, table, at.name, it.name.size(), at.text, it.text.size(), room, size);
    case cases::check_table: return baggage_check_table(at.table, table);
    case cases::evolve: return baggage_evolve(at.table, table, at.next, it.next.size(), text, size);
    case cases::carry: return baggage_carry(context, length, it.width, text, size);
    case cases::quote: return baggage_quote(it.choice, at.text, it.text.size(), text, size);
    default: return baggage_collect(at.text, it.text.size(), room, size);
    }
}

inline slow::Answer expected(const Case &it) {
    Bytes context = it.inputs.empty() ? Bytes() : it.inputs[0];
    switch (it.call) {
    case cases::check: return slow::check(context);
    case cases::join: return slow::join(it.form, it.inputs, it.budget);
    case cases::update: return slow::update(it.form, cases::table_of(it.table), it.inputs, it.text, it.budget);
    case cases::keep: return slow::keep(it.form, it.choice, cases::table_of(it.table), it.inputs, it.budget);
    case cases::places: return slow::places(cases::table_of(it.table), context);
    case cases::chosen_places: return slow::chosen_places(cases::table_of(it.table), cases::chosen_of(it), context);
    case cases::report: return slow::report(it.choice, cases::table_of(it.table), context);
    case cases::read_field: return slow::read_field(cases::table_of(it.table), context, it.name);
    case cases::write_field: return slow::write_field(it.form, cases::table_of(it.table), it.name, it.text);
    case cases::check_table: return slow::check_table(cases::table_of(it.table));
    case cases::evolve: return slow::evolve(cases::table_of(it.table), slow::read_table(it.next));
    case cases::carry: return slow::carry(context, it.width);
    case cases::quote: return slow::quote(it.choice, it.text);
    default: return slow::collect(it.text);
    }
}

// ---- what differs

inline void print_answer(const char *who, const baggage_answer &told, const Bytes &written) {
    fprintf(stderr, "%s: status %u code %u context %zu offset %zu size %zu, written %s\n", who, told.status, told.code, told.context, told.offset,
            told.size, slow::hex(written).c_str());
}

[[noreturn]] inline void differs(const Case &it, const char *what) {
    fprintf(stderr, "%s: %s\nform %u choice %u budget %llu width %zu\ntable %s\nnext %s\nname %s\ntext %s\n", cases::call_name(it.call), what, it.form,
            it.choice, static_cast<unsigned long long>(it.budget), it.width, it.table.c_str(), it.next.c_str(), slow::hex(it.name).c_str(),
            it.text.c_str());
    for (const Bytes &input : it.inputs)
        fprintf(stderr, "input %s\n", slow::digits_or_dash(input).c_str());
    fprintf(stderr, "case %s\n", slow::hex(cases::written(it)).c_str());
    abort();
}

inline bool writes_places(const Case &it) { return it.call == cases::places || it.call == cases::chosen_places; }

inline Bytes as_bytes(const std::vector<baggage_place> &places) {
    return Bytes(reinterpret_cast<const char *>(places.data()), places.size() * sizeof(baggage_place));
}

// One call into a room of so many bytes at the end of its pages.
inline void try_room(const Case &it, const Placed &at, const slow::Answer &wanted, size_t size) {
    bool is_places = writes_places(it);
    Bytes written = is_places ? as_bytes(wanted.places) : wanted.written;
    baggage_answer told = wanted.told;
    if (told.status == BAGGAGE_OK && written.size() > size) {
        told = slow::refused(BAGGAGE_ROOM, 0, 0, 0, told.size).told;
        written.clear();
    }
    Arena &arena = arenas().room;
    // (places are aligned, so their room ends at the pages' end only where its size fits)
    uint8_t *begin = arena.there + arena_size - size, *front = std::max(arena.there, begin - zone);
    memset(front, canary, static_cast<size_t>(begin - front) + size);
    baggage_answer got = call(it, at, begin, size);
    if (memcmp(&got, &told, sizeof got) != 0) {
        print_answer("library", got, "");
        print_answer("slow", told, written);
        differs(it, "another answer");
    }
    if (memcmp(begin, written.data(), written.size()) != 0) {
        print_answer("library", got, Bytes(reinterpret_cast<char *>(begin), std::min(size, got.size)));
        print_answer("slow", told, written);
        differs(it, "other bytes");
    }
    for (uint8_t *byte = front; byte < begin + size; byte++)
        if (*byte != canary && !(byte >= begin && byte < begin + written.size()))
            differs(it, "a byte of the room changed");
}

// ---- laws that the header states

// The answer and what is written, into a room that suffices.
inline slow::Answer made(const Case &it) {
    Arena &arena = arenas().room;
    Placed at = place(it);
    size_t size = 1 << 20;
    slow::Answer answer;
    answer.told = call(it, at, arena.there + arena_size - size, size);
    if (answer.told.status == BAGGAGE_OK)
        answer.written.assign(reinterpret_cast<char *>(arena.there + arena_size - size), answer.told.size);
    return answer;
}

inline void must_be(const Case &it, const slow::Answer &wanted, const Case &other, const char *law) {
    slow::Answer got = made(other);
    if (got.told.status != wanted.told.status || got.written != wanted.written) {
        print_answer("library", got.told, got.written);
        print_answer("law", wanted.told, wanted.written);
        differs(it, law);
    }
}

inline bool has_marker(const Case &it) {
    for (const Bytes &input : it.inputs)
        for (const Bytes &atom : slow::read_context(input).atoms)
            if (atom.empty())
                return true;
    return false;
}

// A merge doesn't depend on the order of its inputs, nor on how often each stands there, nor on what is merged first.
inline void try_laws(const Case &it, const slow::Answer &wanted) {
    bool merges = it.call == cases::join || it.call == cases::update || it.call == cases::keep;
    if (!merges || wanted.told.status != BAGGAGE_OK || it.inputs.empty() || it.inputs.size() > 5)
        return;
    Case other = it;
    std::reverse(other.inputs.begin(), other.inputs.end());
    must_be(it, wanted, other, "the order counts");
    other.inputs.push_back(other.inputs[0]);
    must_be(it, wanted, other, "an input that stands twice counts");
    other.inputs = {wanted.written};
    other.text.clear();
    // (what is cut off after a header on the way to a slot is told elsewhere the next time)
    if (it.call != cases::keep || it.budget == BAGGAGE_NO_BUDGET)
        must_be(it, wanted, other, "once more makes something else");
    if (it.budget != BAGGAGE_NO_BUDGET || (it.call == cases::update && has_marker(it)))
        return;
    Case first = it, rest = it, all = it;
    first.inputs.resize(1);
    rest.inputs.erase(rest.inputs.begin());
    rest.text.clear();
    all.text.clear();
    all.inputs = {made(first).written, made(rest).written};
    must_be(it, wanted, all, "the parts make something else");
}

// ---- a whole case

// How long a room has to be for what is written.
inline size_t room_for(const Case &it, const slow::Answer &wanted) {
    return writes_places(it) ? wanted.places.size() * sizeof(baggage_place) : wanted.written.size();
}

// It answers whether the call was done and not refused.
inline bool run(const Case &it, const slow::Answer &wanted, size_t extra, bool with_laws) {
    Placed at = place(it);
    size_t size = room_for(it, wanted), unit = writes_places(it) ? sizeof(baggage_place) : 1;
    bool is_done = wanted.told.status == BAGGAGE_OK;
    if (size + extra * unit > arena_size)
        return is_done;
    try_room(it, at, wanted, size);
    if (extra % 2) {
        try_room(it, at, wanted, size + extra * unit);
        if (size > 0)
            try_room(it, at, wanted, size - unit);
        try_room(it, at, wanted, 0);
    }
    if (with_laws)
        try_laws(it, wanted);
    return is_done;
}

inline bool run(const Case &it, size_t extra, bool with_laws) {
    return run(it, expected(it), extra, with_laws);
}

} // namespace judge

#endif
