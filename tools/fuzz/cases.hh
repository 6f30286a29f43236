// A case is one call of the library with its arguments. Cases are drawn at random, damaged, and kept as bytes in vectors/corpus.
#ifndef CASES_HH
#define CASES_HH

#include <random>

#include "slow_calls.hh"

namespace cases {

using slow::Bytes;

enum Call { check, join, update, keep, places, report, read_field, write_field, check_table, evolve, carry, collect, chosen_places, quote, calls };

inline const char *call_name(unsigned call) {
    static const char *names[] = {"check",       "join",   "update", "keep",    "places",       "report", "read_field", "write_field",
                                  "check_table", "evolve", "carry",  "collect", "chosen_places", "quote"};
    return names[call];
}

struct Case {
    unsigned call = 0;
    uint32_t form = 1, choice = 1;
    uint64_t budget = BAGGAGE_NO_BUDGET;
    Bytes table, next, name, text; // `text` is a write, lines of writes, lines of pieces, what is quoted, or a byte for each chosen slot
    size_t width = 60;
    std::vector<Bytes> inputs;
};

// ---- tables that cases name by a number

inline const std::vector<Bytes> &known_tables() {
    static const Bytes head = "baggage table 1\n";
    static const std::vector<Bytes> tables{
        head,
        head + "0 0 id scalar fixed32\n",
        head + "0 0 id scalar fixed32\n0 1 tags set string\n0 2 hops counter\n0 3 debug taint\n0 4 load map string scalar uint32\n",
        head + "0 0 id scalar bytes\n0 1 inner bag\n1 0 seen set bytes\n1 1 reads counter\n1 2 marks map string taint\n0 2 under map bytes bag\n"
               "1 0 seen set bytes\n1 1 reads counter\n1 2 marks map string taint\n0 3 shift scalar sint64\n0 4 pair scalar (bytes,uint32)\n"
               "0 5 top scalar uint64\n0 6 mark taint\n0 200 ports set fixed32\n",
        head + "0 0 a scalar bool\n0 1 b scalar int32\n0 2 c scalar int64\n0 3 d scalar sint32\n0 4 e scalar sint64\n0 5 f scalar uint32\n"
               "0 6 g scalar uint64\n0 7 h scalar fixed32\n0 8 i scalar fixed64\n0 9 j scalar sfixed32\n0 10 k scalar sfixed64\n"
               "0 11 l scalar string\n0 12 m scalar bytes\n",
        head + "0 0 a greatest bool\n0 1 b greatest int64\n0 2 c greatest (string,sint32,bytes,uint64)\n0 3 d set (bool,sfixed32,string)\n"
               "0 4 e map sint32 greatest uint32\n0 5 f map bool map uint64 scalar (bytes,bytes)\n",
        head + "0 1 a map string map string map string counter\n0 3 b map bytes bag\n1 0 c map fixed32 bag\n2 7 d map bool set string\n2 9 e taint\n",
        head + "0 0 a bag\n1 0 b bag\n2 0 c bag\n3 0 d counter\n3 127 e taint\n3 128 f taint\n2 16383 g taint\n1 16384 h taint\n0 65535 i taint\n",
        head + "0 0 a bag\n0 1 b bag\n1 1 c taint\n0 2 d map uint32 bag\n1 2 e scalar string\n",
        head + "0 5 x set sint64\n0 6 y set (int32,bytes)\n0 7 z counter\n",
        head + "0 0 a map int32 map int32 map int32 map int32 map int32 map int32 map int32 map int32 map int32 map int32 map int32 map int32 map "
               "int32 map int32 counter\n",
        head + "0 0 id scalar string\n0 2 hops counter\n",
    };
    return tables;
}

// What a table's text says; the known ones are read once.
inline const slow::TableRead &table_of(const Bytes &text) {
    static std::map<Bytes, slow::TableRead> known;
    static slow::TableRead other;
    if (known.empty())
        for (const Bytes &table : known_tables())
            known[table] = slow::read_table(table);
    auto found = known.find(text);
    if (found != known.end())
        return found->second;
    return other = slow::read_table(text);
}

// The numbers of the chosen slots: a byte of the text tells one. 255 is none of them.
inline std::vector<size_t> chosen_of(const Case &it) {
    const slow::TableRead &table = table_of(it.table);
    size_t slots = table.code ? 0 : slow::slots_of(*table.fields).size();
    std::vector<size_t> chosen;
    for (unsigned char byte : it.text)
        chosen.push_back(byte == 255 || slots == 0 ? slots + byte : byte % slots);
    return chosen;
}

// ---- cases as bytes

inline void put_text(Bytes &out, const Bytes &text) {
    if (text.size() < 0xf0)
        out += static_cast<char>(text.size());
    else
        out += static_cast<char>(0xf0 + (text.size() >> 16)) + Bytes{static_cast<char>(text.size()), static_cast<char>(text.size() >> 8)};
    out += text;
}

inline void put_table(Bytes &out, const Bytes &table) {
    const auto &known = known_tables();
    auto found = std::find(known.begin(), known.end(), table);
    out += static_cast<char>(found - known.begin());
    if (found == known.end())
        put_text(out, table);
}

inline Bytes written(const Case &it) {
    Bytes out{static_cast<char>(it.call), static_cast<char>(it.form), static_cast<char>(it.choice)};
    out += slow::big_endian(it.budget == BAGGAGE_NO_BUDGET ? 0xffff : it.budget, 2) + slow::big_endian(it.width, 2);
    put_table(out, it.table);
    put_table(out, it.next);
    put_text(out, it.name);
    put_text(out, it.text);
    out += static_cast<char>(it.inputs.size());
    for (const Bytes &input : it.inputs)
        put_text(out, input);
    return out;
}

// Bytes that are taken from their front; at their end there are zeros.
struct Taker {
    const uint8_t *at, *end;
    unsigned byte() { return at < end ? *at++ : 0; }
    unsigned two() {
        unsigned high = byte();
        return high << 8 | byte();
    }
    Bytes text() {
        size_t size = byte();
        if (size >= 0xf0) {
            size_t low = byte();
            size = (size - 0xf0) << 16 | static_cast<size_t>(byte()) << 8 | low;
        }
        size = std::min<size_t>(size, static_cast<size_t>(end - at));
        at += size;
        return Bytes(reinterpret_cast<const char *>(at) - size, size);
    }
    Bytes table() {
        size_t number = byte();
        return number < known_tables().size() ? known_tables()[number] : text();
    }
};

// The bytes of a line of digits.
inline Bytes of_digits(const Bytes &line) {
    Bytes bytes;
    for (size_t at = 0; at + 1 < line.size(); at += 2)
        bytes += static_cast<char>(16 * slow::nibble(line[at]) + slow::nibble(line[at + 1]));
    return bytes;
}

inline Case read(const uint8_t *bytes, size_t size) {
    Taker taker{bytes, bytes + size};
    Case it;
    it.call = taker.byte() % calls;
    it.form = taker.byte();
    it.choice = taker.byte();
    unsigned budget = taker.two();
    it.budget = budget == 0xffff ? BAGGAGE_NO_BUDGET : budget;
    it.width = taker.two();
    it.table = taker.table();
    it.next = taker.table();
    it.name = taker.text();
    it.text = taker.text();
    for (unsigned left = taker.byte() % 6; left > 0; left--)
        it.inputs.push_back(taker.text());
    return it;
}

// ---- drawing

struct Dice {
    std::mt19937_64 source;
    explicit Dice(uint64_t seed) : source(seed) {}
    size_t below(size_t count) { return count ? source() % count : 0; }
    bool one_in(size_t count) { return below(count) == 0; }
    template <class T> T of(std::initializer_list<T> list) { return *(list.begin() + below(list.size())); }
    template <class T> const T &from(const std::vector<T> &list) { return list[below(list.size())]; }
    Bytes bytes(size_t size) {
        Bytes out;
        while (out.size() < size)
            out += static_cast<char>(source());
        return out;
    }
};

inline Bytes draw_header(Dice &dice, size_t level) {
    if (dice.one_in(3))
        return static_cast<char>(0xf9 - 8 * level) + dice.of<Bytes>({"", "a", "b", "ab", Bytes(1, '\0'), "\xff", dice.bytes(dice.below(4))});
    uint64_t rare = dice.of<uint64_t>({127, 128, 200, 16383, 16384, 65535, UINT64_MAX, dice.source()});
    return slow::header(level, dice.one_in(8) ? rare : dice.below(4));
}

// Atoms that are drawn one after another; those that aren't in order are left out.
inline slow::Atoms draw_atoms(Dice &dice) {
    slow::Place place;
    slow::Atoms atoms;
    for (size_t left = dice.below(dice.one_in(8) ? 40 : 12); left > 0; left--) {
        Bytes atom;
        unsigned code;
        size_t kind = dice.below(10);
        if (kind > 0 && kind < 4)
            atom = Bytes(1, '\0') + dice.bytes(dice.of<size_t>({0, 1, 1, 2, 4, 8}));
        else if (kind >= 4)
            atom = draw_header(dice, dice.below(std::min<size_t>(place.headers.size(), 15) + 1));
        slow::Place before = place;
        if (slow::step_to(place, atom, code))
            atoms.push_back(atom);
        else
            place = before;
    }
    if (dice.one_in(4000))
        atoms.assign(1, Bytes(1, '\0') + Bytes(dice.of<size_t>({65534, 65535, 65536, 70000}), 'x'));
    return atoms;
}

inline Bytes draw_literal(Dice &dice, const Bytes &word) {
    if (word == "bool")
        return dice.of<Bytes>({"true", "false"});
    if (word == "bytes")
        return "0x" + slow::hex(dice.bytes(dice.of<size_t>({0, 1, 1, 2, 3, 8})));
    if (word == "string") {
        Bytes inside;
        for (size_t left = dice.below(4); left > 0; left--)
            inside += dice.of<Bytes>({"a", "b", "\xc3\xa9", " ", "\\\\", "\\\"", "\\x00", "\\x7F", "\\x1f", "\xf0\x9f\x98\x80", ",", ":", ")"});
        return "\"" + inside + "\"";
    }
    slow::Number least = slow::least_of(word), most = slow::most_of(word), any = least + static_cast<slow::Number>(dice.source()) % (most - least + 1);
    slow::Number some = std::min<slow::Number>(most, static_cast<slow::Number>(dice.source() >> dice.below(64)));
    return slow::decimal(dice.of<slow::Number>({least, most, 0, 1, 63, 64, 127, 128, any, some, least < 0 ? -some : some, most + dice.one_in(16)}));
}

inline Bytes draw_words(Dice &dice, const slow::Words &words) {
    Bytes text;
    for (const Bytes &word : words.words)
        text += (text.empty() ? "" : ",") + draw_literal(dice, word);
    return words.is_struct ? "(" + text + ")" : text;
}

inline Bytes draw_write(Dice &dice, const slow::Shape &shape) {
    switch (shape.is) {
    case slow::Shape::taint: return "on";
    case slow::Shape::counter:
        return dice.of<Bytes>({"\"w\"", "0x77", "0x", "\"v\"", draw_literal(dice, "bytes")}) + ":" + draw_literal(dice, "uint64");
    case slow::Shape::map: return draw_literal(dice, shape.words.words[0]) + ":" + draw_write(dice, *shape.value);
    case slow::Shape::bag: {
        if (shape.fields.empty())
            return ".x=on";
        const slow::Field &field = dice.from(shape.fields);
        return "." + field.name + "=" + draw_write(dice, field.shape);
    }
    default: return draw_words(dice, shape.words);
    }
}

inline Bytes damaged(Dice &dice, Bytes bytes) {
    size_t at = dice.below(bytes.size() + 1);
    Bytes byte(1, dice.of<char>({0, 1, 2, '\x7f', '\x80', '\xf0', '\xf1', '\xf8', '\xf9', '\xff', ' ', '\n', '0', '"', ':', static_cast<char>(dice.source())}));
    switch (dice.below(5)) {
    case 0: return bytes.substr(0, at);
    case 1: return bytes.substr(0, at) + byte + bytes.substr(at);
    case 2: return bytes.substr(0, at) + (at < bytes.size() ? bytes.substr(at + 1) : "");
    case 3: return bytes.substr(0, at) + byte + (at < bytes.size() ? bytes.substr(at + 1) : "");
    default: {
        size_t other = dice.below(bytes.size() + 1);
        return bytes.substr(0, at) + bytes.substr(std::min(at, other), 8) + bytes.substr(at);
    }
    }
}

// A context that is typed under the table but for what was damaged.
inline slow::Atoms draw_typed(Dice &dice, const std::vector<slow::Slot> &slots) {
    std::vector<slow::Atoms> lists;
    for (size_t left = slots.empty() ? 0 : dice.below(7); left > 0; left--) {
        const slow::Slot &slot = dice.from(slots);
        if (auto list = slow::read_write(1, slot, draw_write(dice, *slot.shape)))
            lists.push_back(*list);
    }
    if (dice.one_in(4))
        lists.push_back(draw_atoms(dice));
    slow::Atoms atoms = slow::merge(lists);
    if (dice.one_in(5) && !atoms.empty())
        atoms[dice.below(atoms.size())] = dice.one_in(2) ? Bytes() : damaged(dice, dice.from(atoms));
    return dice.one_in(4) ? slow::trim(1, atoms, 1 + dice.below(60)) : atoms;
}

inline Bytes draw_context(Dice &dice, const std::vector<slow::Slot> &slots) {
    slow::Atoms atoms = slots.empty() || dice.one_in(4) ? draw_atoms(dice) : draw_typed(dice, slots);
    Bytes bytes = slow::write_list(dice.of<unsigned>({1, 1, 2}), atoms);
    if (dice.one_in(40))
        return dice.bytes(dice.below(20));
    return dice.one_in(5) ? damaged(dice, bytes) : bytes;
}

// ---- tables

inline Bytes draw_word(Dice &dice) {
    return dice.of<Bytes>({"bool", "int32", "int64", "sint32", "sint64", "uint32", "uint64", "fixed32", "fixed64", "sfixed32", "sfixed64", "string", "bytes"});
}

inline Bytes draw_kind(Dice &dice) {
    if (!dice.one_in(4))
        return draw_word(dice);
    Bytes words = draw_word(dice);
    for (size_t left = dice.below(3); left > 0; left--)
        words += "," + draw_word(dice);
    return "(" + words + ")";
}

inline Bytes draw_shape(Dice &dice) {
    switch (dice.below(9)) {
    case 0: return "taint";
    case 1: return "counter";
    case 2: return "set " + draw_kind(dice);
    case 3: return "greatest " + draw_kind(dice);
    case 4:
    case 5: return "map " + draw_word(dice) + " " + draw_shape(dice);
    case 6: return "bag";
    default: return "scalar " + draw_kind(dice);
    }
}

// A table with some fields, the numbers of each bag rising, most of the time.
inline Bytes draw_table(Dice &dice) {
    if (dice.one_in(2))
        return dice.from(known_tables());
    Bytes text = "baggage table 1\n";
    size_t depth = 0;
    std::vector<size_t> next(1, 0);
    for (size_t left = dice.below(10); left > 0; left--) {
        next.resize(depth + 1, 0);
        size_t number = next[depth] + dice.of<size_t>({0, 0, 1, 2, 100});
        next[depth] = number + 1;
        Bytes shape = draw_shape(dice);
        text += std::to_string(depth) + " " + std::to_string(number) + " " + dice.of<char>({'a', 'b', 'c', 'd'}) + std::to_string(number) + " " + shape + "\n";
        bool is_bag = shape.size() >= 3 && shape.compare(shape.size() - 3, 3, "bag") == 0;
        depth = is_bag && !dice.one_in(4) ? depth + 1 : dice.below(depth + 1);
    }
    return text;
}

inline Bytes joined(const std::vector<Bytes> &lines) {
    Bytes text = lines[0];
    for (size_t at = 1; at < lines.size(); at++)
        text += "\n" + lines[at];
    return text;
}

// The table after some of its words are other ones.
inline Bytes changed_table(Dice &dice, Bytes table) {
    for (size_t left = dice.below(4); left > 0; left--) {
        Bytes word = draw_word(dice), other = dice.one_in(2) ? draw_word(dice) : dice.of<Bytes>({"int64", "sint64", "uint64", "sint32"});
        size_t at = table.find(" " + word, dice.below(table.size()));
        if (at != Bytes::npos)
            table.replace(at + 1, word.size(), other);
    }
    if (dice.one_in(4)) {
        std::vector<Bytes> lines = slow::split(table, '\n');
        if (lines.size() > 2)
            lines.erase(lines.begin() + 1 + static_cast<long>(dice.below(lines.size() - 2)));
        table = joined(lines);
    }
    return table;
}

// The table with a line more, of any shape, which most of the time is refused: for its level, its number, its name, or how deep or long it is.
inline Bytes with_another_line(Dice &dice, const Bytes &table) {
    std::vector<Bytes> lines = slow::split(table, '\n');
    size_t at = 1 + dice.below(lines.size() - 1);
    std::vector<Bytes> before = slow::split(lines[at - 1], ' ');
    bool is_field = before.size() > 3;
    Bytes level = is_field ? before[0] : "0", name = "other", shape = draw_shape(dice);
    unsigned long number = is_field ? strtoul(before[1].c_str(), nullptr, 10) + 1 : 0;
    switch (dice.below(7)) {
    case 0: level = dice.of<Bytes>({"1", "2", "16", "65536", "00"}); break;
    case 1: number -= number > 0; break;
    case 2: name = is_field ? before[2] : ""; break;
    case 3:
        name = dice.one_in(2) ? draw_word(dice) : dice.of<Bytes>({"taint", "counter", "bag", "set", "greatest", "map", "struct", "float", "9", "a-b"});
        break;
    case 4:
        for (size_t left = dice.below(34); left > 0; left--)
            shape = "map bool " + shape;
        break;
    case 5: shape += " " + draw_word(dice); break;
    default: number = dice.of<unsigned long>({65535, 65536, 100000});
    }
    lines.insert(lines.begin() + static_cast<long>(at), level + " " + std::to_string(number) + " " + name + " " + shape);
    return joined(lines);
}

// ---- pieces

inline Bytes draw_lines(Dice &dice, const std::vector<slow::Slot> &slots) {
    std::vector<Bytes> lines = slow::split(slow::carry(draw_context(dice, slots), 4 + dice.below(12)).written, '\n');
    std::shuffle(lines.begin(), lines.end(), dice.source);
    if (dice.one_in(4))
        lines[dice.below(lines.size())] = dice.one_in(2) ? Bytes("# a comment") : dice.from(lines);
    Bytes text;
    for (const Bytes &line : lines)
        text += line + (dice.one_in(16) ? "\r\n" : "\n");
    return dice.one_in(3) ? damaged(dice, text) : text;
}

// ---- whole cases

inline Bytes draw_lines_of_writes(Dice &dice, const std::vector<slow::Slot> &slots) {
    Bytes text;
    for (size_t left = slots.empty() ? dice.one_in(8) : dice.below(4); left > 0; left--) {
        if (slots.empty())
            return "x 1\n";
        const slow::Slot &slot = dice.from(slots);
        text += slot.name + " " + draw_write(dice, *slot.shape) + "\n";
    }
    return dice.one_in(8) ? damaged(dice, text) : text;
}

inline bool is_among(unsigned call, std::initializer_list<unsigned> some) { return std::find(some.begin(), some.end(), call) != some.end(); }

inline Case draw(Dice &dice, unsigned call) {
    Case it;
    it.call = call;
    it.form = dice.one_in(50) ? static_cast<uint32_t>(dice.below(256)) : dice.of<uint32_t>({1, 1, 2});
    it.choice = dice.one_in(50) ? static_cast<uint32_t>(dice.below(256)) : dice.of<uint32_t>({1, 2});
    it.budget = dice.one_in(2) ? BAGGAGE_NO_BUDGET : dice.below(dice.of<size_t>({16, 40, 100, 1000}));
    it.width = dice.one_in(8) ? dice.below(310) : dice.of<size_t>({4, 5, 6, 60, 300});
    it.table = draw_table(dice);
    slow::TableRead table = table_of(it.table);
    std::vector<slow::Slot> slots = slow::slots_of(*table.fields);
    if (call == evolve)
        it.next = dice.one_in(8) ? draw_table(dice) : changed_table(dice, it.table);
    if (dice.one_in(call == check_table ? 2 : 20))
        it.table = dice.one_in(2) ? with_another_line(dice, it.table) : damaged(dice, it.table);
    if (is_among(call, {read_field, write_field}) && !slots.empty()) {
        const slow::Slot &slot = dice.from(slots);
        it.name = dice.one_in(30) ? damaged(dice, slot.name) : slot.name;
        it.text = draw_write(dice, *slot.shape);
        it.text = dice.one_in(4) ? damaged(dice, it.text) : it.text;
    }
    if (call == update)
        it.text = draw_lines_of_writes(dice, slots);
    if (call == collect)
        it.text = draw_lines(dice, slots);
    if (call == chosen_places && !slots.empty())
        for (size_t left = dice.below(6); left > 0; left--)
            it.text += static_cast<char>(dice.one_in(30) ? 255 : dice.below(250));
    if (call == quote)
        it.text = dice.one_in(3) ? draw_lines_of_writes(dice, slots) : dice.one_in(2) ? it.table : draw_context(dice, slots);
    size_t count = is_among(call, {join, update, keep}) ? dice.of<size_t>({0, 1, 1, 2, 2, 2, 3, 5}) : 1;
    for (; count > 0; count--)
        it.inputs.push_back(draw_context(dice, is_among(call, {check, join}) ? std::vector<slow::Slot>() : slots));
    return it;
}

// The case after one of its arguments is another one.
inline Case mutated(Dice &dice, Case it) {
    Case other = draw(dice, it.call);
    switch (dice.below(7)) {
    case 0: it.budget = other.budget; break;
    case 1: it.form = other.form; it.choice = other.choice; break;
    case 2: it.table = dice.one_in(3) ? other.table : dice.one_in(2) ? with_another_line(dice, it.table) : changed_table(dice, it.table); break;
    case 3: it.text = dice.one_in(2) ? other.text : damaged(dice, it.text); it.name = dice.one_in(2) ? other.name : it.name; break;
    case 4: it.next = dice.one_in(2) ? other.next : changed_table(dice, it.next); break;
    case 5: it.inputs = other.inputs; break;
    default:
        if (!it.inputs.empty()) {
            Bytes &input = it.inputs[dice.below(it.inputs.size())];
            input = dice.one_in(2) ? draw_context(dice, slow::slots_of(*table_of(it.table).fields)) : damaged(dice, input);
        }
    }
    return it;
}

} // namespace cases

#endif
