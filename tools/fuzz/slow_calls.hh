// What each call of the library answers, by the slow implementation: the five numbers of the answer and the bytes that are written, in a
// room that is long enough. See slow.hh.
#ifndef SLOW_CALLS_HH
#define SLOW_CALLS_HH

#include "baggage.h"
#include "slow_fields.hh"

namespace slow {

struct Answer {
    baggage_answer told;
    Bytes written;
    std::vector<baggage_place> places;
};

inline Answer refused(uint32_t status, uint32_t code = 0, size_t context = 0, size_t offset = 0, size_t size = 0) {
    return {{status, code, context, offset, size}, {}, {}};
}

inline Answer done(const Bytes &written, uint32_t code = 0) { return {{BAGGAGE_OK, code, 0, 0, written.size()}, written, {}}; }

// What is wrong with the form and the budget.
inline std::optional<Answer> wrong_choice(uint32_t form, uint64_t budget) {
    if (form != 1 && form != 2)
        return refused(BAGGAGE_FORM);
    if (budget < (form == 1 ? 1 : 13))
        return refused(BAGGAGE_BUDGET);
    return std::nullopt;
}

inline Answer check(const Bytes &context) {
    Read read = read_context(context);
    if (read.fault)
        return refused(BAGGAGE_FAULT, read.fault->code, 0, read.fault->offset);
    return refused(BAGGAGE_OK, 0, 0, 0, read.atoms.size());
}

// The lists of all inputs; with fields each has to be typed. Or what is wrong with the first bad input.
inline std::optional<Answer> read_inputs(const std::vector<Bytes> &inputs, const Fields *fields, std::vector<Atoms> &lists) {
    for (size_t at = 0; at < inputs.size(); at++) {
        Read read = read_context(inputs[at]);
        if (read.fault)
            return refused(BAGGAGE_FAULT, read.fault->code, at, read.fault->offset);
        auto place = fields ? first_ill_typed(*fields, paths_of(read.atoms)) : std::nullopt;
        if (place)
            return refused(BAGGAGE_TYPE, 0, at, read.offsets[*place]);
        lists.push_back(read.atoms);
    }
    return std::nullopt;
}

inline Answer join(uint32_t form, const std::vector<Bytes> &inputs, uint64_t budget) {
    if (auto wrong = wrong_choice(form, budget))
        return *wrong;
    std::vector<Atoms> lists;
    if (auto wrong = read_inputs(inputs, nullptr, lists))
        return *wrong;
    return done(write_list(form, trim(form, merge(lists), budget)));
}

inline const Slot *slot_named(const std::vector<Slot> &slots, const Bytes &name) {
    for (const Slot &slot : slots)
        if (slot.name == name)
            return &slot;
    return nullptr;
}

// The lists that the lines of writes say, or what is wrong with the first bad line.
inline std::optional<Answer> read_writes(unsigned form, const std::vector<Slot> &slots, const Bytes &text, std::vector<Atoms> &lists) {
    std::vector<Bytes> lines = split(text, '\n');
    for (size_t at = 0; at < lines.size(); at++) {
        bool is_last = at + 1 == lines.size();
        if (is_last && lines[at].empty())
            break;
        size_t blank = lines[at].find(' ');
        const Slot *slot = slot_named(slots, lines[at].substr(0, blank));
        if (!slot)
            return refused(BAGGAGE_FIELD, 0, 0, at + 1);
        auto list = blank == Bytes::npos || is_last ? std::nullopt : read_write(form, *slot, lines[at].substr(blank + 1));
        if (!list)
            return refused(BAGGAGE_WRITE, 0, 0, at + 1);
        lists.push_back(*list);
    }
    return std::nullopt;
}

inline Answer bad_table(const TableRead &table, size_t which = 0) { return refused(BAGGAGE_TABLE, table.code, which, table.line); }

inline Answer update(uint32_t form, const TableRead &table, const std::vector<Bytes> &inputs, const Bytes &writes, uint64_t budget) {
    if (auto wrong = wrong_choice(form, budget))
        return *wrong;
    if (table.code)
        return bad_table(table);
    std::vector<Slot> slots = slots_of(*table.fields);
    std::vector<Atoms> lists;
    if (auto wrong = read_writes(form, slots, writes, lists))
        return *wrong;
    if (auto wrong = read_inputs(inputs, table.fields.get(), lists))
        return *wrong;
    return done(write_list(form, trim(form, normal(slots, merge(lists)), budget)));
}

inline Answer keep(uint32_t form, uint32_t others, const TableRead &table, const std::vector<Bytes> &inputs, uint64_t budget) {
    if (auto wrong = wrong_choice(form, budget))
        return *wrong;
    if (others != BAGGAGE_CUT && others != BAGGAGE_UNSAID)
        return refused(BAGGAGE_CHOICE);
    if (table.code)
        return bad_table(table);
    std::vector<Atoms> lists;
    if (auto wrong = read_inputs(inputs, nullptr, lists))
        return *wrong;
    return done(write_list(form, trim(form, kept(slots_of(*table.fields), others == BAGGAGE_CUT, merge(lists)), budget)));
}

// Where the atoms below a slot's header stand among all of them; where there is no header, the first atom beyond the slot.
inline baggage_place place_of(const Fields &fields, const Slot &slot, const Read &read, const std::vector<Path> &paths) {
    for (size_t at = 0; at < paths.size(); at++)
        if (is_below(slot.path, paths[at]) && misspells(fields, paths[at]))
            return {read.offsets[at], 0, BAGGAGE_ILL_TYPED, 0};
    size_t from = 0, stop = 0;
    while (from < paths.size() && paths[from] < slot.path)
        from++;
    stop = from;
    while (stop < paths.size() && is_below(slot.path, paths[stop]))
        stop++;
    size_t first = stop > from ? from + 1 : from;
    uint32_t state = is_ended(paths, slot.path) ? BAGGAGE_EXACT : BAGGAGE_PARTIAL;
    return {read.offsets[first], read.offsets[stop] - read.offsets[first], state, 0};
}

inline Answer places(const TableRead &table, const Bytes &context) {
    if (table.code)
        return bad_table(table);
    Read read = read_context(context);
    if (read.fault)
        return refused(BAGGAGE_FAULT, read.fault->code, 0, read.fault->offset);
    std::vector<Path> paths = paths_of(read.atoms);
    Answer answer = refused(BAGGAGE_OK, read.form);
    for (const Slot &slot : slots_of(*table.fields))
        answer.places.push_back(place_of(*table.fields, slot, read, paths));
    answer.told.size = answer.places.size();
    return answer;
}

inline Answer chosen_places(const TableRead &table, const std::vector<size_t> &chosen, const Bytes &context) {
    if (table.code)
        return bad_table(table);
    for (size_t which = 0; which < chosen.size(); which++)
        if (chosen[which] >= slots_of(*table.fields).size())
            return refused(BAGGAGE_FIELD, 0, which, 0);
    Answer all = places(table, context), answer = all;
    if (all.told.status != BAGGAGE_OK)
        return all;
    answer.places.clear();
    for (size_t slot : chosen)
        answer.places.push_back(all.places[slot]);
    answer.told.size = chosen.size();
    return answer;
}

// The paths of one typed context, or what is wrong with it.
inline std::optional<Answer> read_typed(const Fields &fields, const Bytes &context, std::vector<Path> &paths) {
    std::vector<Atoms> lists;
    if (auto wrong = read_inputs({context}, &fields, lists))
        return wrong;
    paths = paths_of(lists[0]);
    return std::nullopt;
}

inline Answer report(uint32_t as, const TableRead &table, const Bytes &context) {
    if (as != BAGGAGE_TEXT && as != BAGGAGE_JSON)
        return refused(BAGGAGE_CHOICE);
    if (table.code)
        return bad_table(table);
    std::vector<Path> paths;
    if (auto wrong = read_typed(*table.fields, context, paths))
        return *wrong;
    return done((as == BAGGAGE_TEXT ? report_text : report_json)(slots_of(*table.fields), context, paths));
}

inline Answer read_field(const TableRead &table, const Bytes &context, const Bytes &name) {
    if (table.code)
        return bad_table(table);
    std::vector<Slot> slots = slots_of(*table.fields);
    const Slot *slot = slot_named(slots, name);
    if (!slot)
        return refused(BAGGAGE_FIELD);
    std::vector<Path> paths;
    if (auto wrong = read_typed(*table.fields, context, paths))
        return *wrong;
    return done(value_text(*slot->shape, paths, slot->path), is_ended(paths, slot->path) ? BAGGAGE_EXACT : BAGGAGE_PARTIAL);
}

inline Answer write_field(uint32_t form, const TableRead &table, const Bytes &name, const Bytes &text) {
    if (auto wrong = wrong_choice(form, BAGGAGE_NO_BUDGET))
        return *wrong;
    if (table.code)
        return bad_table(table);
    std::vector<Slot> slots = slots_of(*table.fields);
    const Slot *slot = slot_named(slots, name);
    if (!slot)
        return refused(BAGGAGE_FIELD);
    auto list = read_write(form, *slot, text);
    return list ? done(write_list(form, *list)) : refused(BAGGAGE_WRITE);
}

inline Answer check_table(const TableRead &table) {
    return table.code ? bad_table(table) : refused(BAGGAGE_OK, 0, 0, 0, slots_of(*table.fields).size());
}

inline Answer evolve(const TableRead &old, const TableRead &next) {
    if (old.code || next.code)
        return bad_table(old.code ? old : next, old.code ? 0 : 1);
    auto found = first_break(*old.fields, *next.fields, "");
    if (!found)
        return done("ok " + decimal(static_cast<Number>(common_slots(*old.fields, *next.fields))) + "\n");
    const char *names[] = {"", "Shape", "Key", "Kind"};
    return done("breaks " + found->path + " " + names[found->change] + "\n", found->change);
}

// ---- pieces

inline const char *base64_digits() { return "ABCDEFGHIJKLMNOPQRSTUVWXYZabcdefghijklmnopqrstuvwxyz0123456789+/"; }

inline Bytes base64(const Bytes &bytes) {
    Bytes out;
    for (size_t at = 0; at < bytes.size(); at += 3) {
        Bytes three = bytes.substr(at, 3);
        size_t left = three.size();
        three.resize(3);
        unsigned bits = byte_at(three, 0) << 16 | byte_at(three, 1) << 8 | byte_at(three, 2);
        for (unsigned k = 0; k < 4; k++)
            out += k > left ? '=' : base64_digits()[bits >> (18 - 6 * k) & 63];
    }
    return out;
}

// The bytes whose base64 the text is.
inline std::optional<Bytes> from_base64(const Bytes &text) {
    Bytes bytes;
    unsigned bits = 0, count = 0;
    for (char digit : text) {
        if (digit == '=')
            break;
        size_t value = Bytes(base64_digits()).find(digit);
        if (value == Bytes::npos)
            return std::nullopt;
        bits = bits << 6 | static_cast<unsigned>(value);
        if ((count += 6) >= 8)
            bytes += static_cast<char>(bits >> (count -= 8) & 0xff);
    }
    return !bytes.empty() && base64(bytes) == text ? std::optional(bytes) : std::nullopt;
}

inline Answer carry(const Bytes &context, size_t width) {
    if (width < 4 || width > 300)
        return refused(BAGGAGE_WIDTH);
    Answer found = check(context);
    if (found.told.status != BAGGAGE_OK)
        return found;
    if (context.size() > longest)
        return refused(BAGGAGE_LONG, 0, 0, 0, context.size());
    size_t count = std::max<size_t>(1, (context.size() + width - 1) / width);
    Bytes text;
    for (size_t at = 0; at < count; at++) {
        Bytes piece = base64(context.substr(at * width, width));
        text += "p " + std::to_string(at) + " " + std::to_string(count) + " " + (piece.empty() ? "-" : piece) + "\n";
    }
    return done(text);
}

// The pieces that lines said so far.
struct Pieces {
    std::optional<size_t> count;
    std::map<size_t, Bytes> texts;
};

inline unsigned add_piece(Pieces &pieces, const Bytes &line) {
    std::vector<Bytes> words = split(line, ' ');
    if (words.size() != 4 || words[0] != "p" || words[3].empty())
        return BAGGAGE_PIECE_FORM;
    for (size_t at : {1, 2})
        if (!is_number(words[at]) || words[at].size() > 7)
            return BAGGAGE_PIECE_FORM;
    size_t at = std::stoul(words[1]), count = std::stoul(words[2]);
    if (count == 0 || count > 262144 || at >= count)
        return BAGGAGE_PIECE_RANGE;
    if (words[3] != "-" && !from_base64(words[3]))
        return BAGGAGE_BAD_BASE64;
    if (pieces.count.value_or(count) != count)
        return BAGGAGE_OTHER_COUNT;
    pieces.count = count;
    return pieces.texts.emplace(at, words[3]).first->second == words[3] ? 0u : static_cast<unsigned>(BAGGAGE_CLASH);
}

// The lines that count, with their numbers.
inline std::vector<std::pair<size_t, Bytes>> numbered_lines(const Bytes &text) {
    std::vector<Bytes> pieces = split(text, '\n');
    std::vector<std::pair<size_t, Bytes>> lines;
    for (size_t at = 0; at < pieces.size(); at++) {
        Bytes line = pieces[at];
        if (at + 1 < pieces.size() && !line.empty() && line.back() == '\r')
            line.pop_back();
        if (!line.empty() && line[0] != '#')
            lines.emplace_back(at + 1, line);
    }
    return lines;
}

// The literal of bytes, letter by letter.
inline Answer quote(uint32_t literal, const Bytes &text) {
    static const char digits[] = "0123456789abcdef";
    if (literal != BAGGAGE_STRING && literal != BAGGAGE_BYTES)
        return refused(BAGGAGE_CHOICE);
    Bytes out = literal == BAGGAGE_STRING ? "\"" : "0x";
    for (unsigned char byte : text) {
        Bytes two{digits[byte / 16], digits[byte % 16]};
        if (literal == BAGGAGE_BYTES)
            out += two;
        else if (byte < 0x20 || byte == 0x7f)
            out += "\\x" + two;
        else
            out += (byte == '"' || byte == '\\' ? Bytes("\\") : Bytes()) + static_cast<char>(byte);
    }
    return done(literal == BAGGAGE_STRING ? out + "\"" : out);
}

inline Answer collect(const Bytes &text) {
    Pieces pieces;
    for (const auto &[number, line] : numbered_lines(text))
        if (unsigned code = add_piece(pieces, line))
            return refused(BAGGAGE_PIECES, code, 0, number);
    if (!pieces.count)
        return refused(BAGGAGE_PIECES, BAGGAGE_NO_LINE);
    Bytes bytes;
    for (size_t at = 0; at < *pieces.count; at++) {
        auto found = pieces.texts.find(at);
        if (found == pieces.texts.end())
            return refused(BAGGAGE_PIECES, BAGGAGE_MISSING, 0, at);
        bytes += found->second == "-" ? "" : *from_base64(found->second);
    }
    if (bytes.size() > longest)
        return refused(BAGGAGE_PIECES, BAGGAGE_TOO_MANY_BYTES);
    Read read = read_context(bytes);
    if (read.fault)
        return refused(BAGGAGE_FAULT, read.fault->code, 0, read.fault->offset);
    return done(bytes);
}

} // namespace slow

#endif
