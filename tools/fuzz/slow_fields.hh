// Tables, values, writes and reports, written from docs/FORMATS.md: see slow.hh.
#ifndef SLOW_FIELDS_HH
#define SLOW_FIELDS_HH

#include <map>
#include <memory>

#include "slow.hh"

namespace slow {

enum table_code { head = 1, line_form, depth_code, order_code, duplicate_field, too_deep, too_many_slots };

// ---- shapes

// The words of a scalar's type: one, or those of a struct.
struct Words {
    bool is_struct = false;
    std::vector<Bytes> words;
};

struct Field;

struct Shape {
    enum { taint, counter, scalar, greatest, set, map, bag } is = taint;
    Words words;                  // of scalar, greatest and set; of a map that of the key
    std::shared_ptr<Shape> value; // of a map
    std::vector<Field> fields;    // of a bag
};

struct Field {
    uint64_t number;
    Bytes name;
    Shape shape;
};

using Fields = std::vector<Field>;

struct Slot {
    Bytes name;
    Path path;
    const Shape *shape;
};

inline Bytes header(size_t level, uint64_t number) { return static_cast<char>(0xf8 - 8 * level) + put_unsigned(number); }

inline void add_slots(const Fields &fields, const Bytes &before, const Path &path, std::vector<Slot> &slots) {
    for (const Field &field : fields) {
        Path below = path;
        below.push_back(header(path.size(), field.number));
        if (field.shape.is == Shape::bag)
            add_slots(field.shape.fields, before + field.name + ".", below, slots);
        else
            slots.push_back({before + field.name, below, &field.shape});
    }
}

inline std::vector<Slot> slots_of(const Fields &fields) {
    std::vector<Slot> slots;
    add_slots(fields, "", {}, slots);
    return slots;
}

inline std::vector<Bytes> split(const Bytes &text, char at) {
    std::vector<Bytes> parts;
    size_t from = 0, found;
    while ((found = text.find(at, from)) != Bytes::npos) {
        parts.push_back(text.substr(from, found - from));
        from = found + 1;
    }
    parts.push_back(text.substr(from));
    return parts;
}

inline bool is_scalar_word(const Bytes &word) {
    static const std::set<Bytes> words{"bool",    "int32",   "int64",    "sint32",   "sint64", "uint32", "uint64",
                                       "fixed32", "fixed64", "sfixed32", "sfixed64", "string", "bytes"};
    return words.count(word) != 0;
}

// ---- texts of tables

inline bool is_name(const Bytes &text) {
    static const std::set<Bytes> reserved{"float", "double", "taint", "counter", "import", "bag", "struct", "set", "greatest", "map"};
    if (text.empty() || reserved.count(text) || is_scalar_word(text) || (text[0] >= '0' && text[0] <= '9'))
        return false;
    return text.find_first_not_of("ABCDEFGHIJKLMNOPQRSTUVWXYZabcdefghijklmnopqrstuvwxyz0123456789_") == Bytes::npos;
}

inline bool is_number(const Bytes &text) {
    return !text.empty() && text.find_first_not_of("0123456789") == Bytes::npos && (text[0] != '0' || text.size() == 1);
}

inline bool read_words(const Bytes &text, Words &words) {
    words.is_struct = text.size() > 1 && text.front() == '(' && text.back() == ')';
    words.words = words.is_struct ? split(text.substr(1, text.size() - 2), ',') : std::vector<Bytes>{text};
    return std::all_of(words.words.begin(), words.words.end(), is_scalar_word);
}

// The shape that the words of a line say from this one on.
inline bool read_shape(const std::vector<Bytes> &words, size_t at, size_t maps, Shape &shape) {
    size_t left = words.size() - at;
    if (left == 1) {
        shape.is = words[at] == "taint" ? Shape::taint : words[at] == "counter" ? Shape::counter : Shape::bag;
        return words[at] == "taint" || words[at] == "counter" || words[at] == "bag";
    }
    if (left == 2) {
        shape.is = words[at] == "scalar" ? Shape::scalar : words[at] == "greatest" ? Shape::greatest : Shape::set;
        return (words[at] == "scalar" || words[at] == "greatest" || words[at] == "set") && read_words(words[at + 1], shape.words);
    }
    if (left < 3 || words[at] != "map" || !is_scalar_word(words[at + 1]) || maps == 32)
        return false;
    shape.is = Shape::map;
    shape.words.words = {words[at + 1]};
    shape.value = std::make_shared<Shape>();
    return read_shape(words, at + 2, maps + 1, *shape.value);
}

// A bag whose fields are being read, and the level of their headers.
struct Open {
    Fields *fields;
    size_t level;
};

struct TableRead {
    std::shared_ptr<Fields> fields = std::make_shared<Fields>();
    unsigned code = 0;
    size_t line = 0;
};

inline unsigned add_field(std::vector<Open> &open, size_t &count, const Bytes &line, bool is_fed) {
    std::vector<Bytes> words = split(line, ' ');
    Field field;
    if (words.size() < 4 || !is_number(words[0]) || !is_number(words[1]) || !is_name(words[2]) || !read_shape(words, 3, 0, field.shape))
        return line_form;
    if (words[1].size() > 5 || std::stoul(words[1]) > 65535 || !is_fed)
        return line_form;
    if (words[0].size() > 5 || std::stoul(words[0]) >= open.size())
        return depth_code;
    open.resize(std::stoul(words[0]) + 1);
    Fields &fields = *open.back().fields;
    field.number = std::stoul(words[1]);
    field.name = words[2];
    if (!fields.empty() && field.number <= fields.back().number)
        return order_code;
    if (std::any_of(fields.begin(), fields.end(), [&](const Field &other) { return other.name == field.name; }))
        return duplicate_field;
    fields.push_back(field);
    size_t below = open.back().level + 1;
    Shape *inner = &fields.back().shape;
    for (; inner->is == Shape::map; inner = inner->value.get())
        below++;
    if (below + (inner->is == Shape::counter) > 16)
        return too_deep;
    if (count++ == 16384)
        return too_many_slots;
    if (inner->is == Shape::bag)
        open.push_back({&inner->fields, below});
    return 0;
}

// The fields that a printed table says, or its first bad line.
inline TableRead read_table(const Bytes &text) {
    TableRead read;
    std::vector<Bytes> lines = split(text, '\n');
    read.line = 1;
    read.code = lines[0] != "baggage table 1" ? head : lines.size() == 1 ? line_form : 0;
    std::vector<Open> open{{read.fields.get(), 0}};
    size_t count = 0;
    for (size_t at = 1; at < lines.size() && !read.code; at++) {
        bool is_last = at + 1 == lines.size();
        if (is_last && lines[at].empty())
            break;
        read.line = at + 1;
        read.code = add_field(open, count, lines[at], !is_last);
    }
    return read;
}

// ---- spellings

inline bool is_utf8(const Bytes &text) {
    for (size_t at = 0; at < text.size();) {
        unsigned first = byte_at(text, at), more = first < 0x80 ? 0 : first >> 5 == 6 ? 1 : first >> 4 == 14 ? 2 : first >> 3 == 30 ? 3 : 9;
        if (more == 9 || text.size() - at <= more)
            return false;
        uint32_t point = more ? first & (0x3fu >> more) : first;
        for (unsigned k = 1; k <= more; k++) {
            if (byte_at(text, at + k) >> 6 != 2)
                return false;
            point = point << 6 | (byte_at(text, at + k) & 0x3f);
        }
        const uint32_t least[] = {0, 0x80, 0x800, 0x10000};
        if (point < least[more] || point > 0x10ffff || (point >= 0xd800 && point < 0xe000))
            return false;
        at += more + 1;
    }
    return true;
}

using Number = __int128;

inline Bytes decimal(Number number) {
    if (number < 0)
        return "-" + decimal(-number);
    Bytes digits;
    do
        digits.insert(digits.begin(), static_cast<char>('0' + static_cast<int>(number % 10)));
    while ((number /= 10) != 0);
    return digits;
}

inline bool has_sign(const Bytes &word) { return word[0] == 's' || word[0] == 'i'; }
inline unsigned bits_of(const Bytes &word) { return word.substr(word.size() - 2) == "32" ? 32 : 64; }
inline Number least_of(const Bytes &word) { return has_sign(word) ? -(Number(1) << (bits_of(word) - 1)) : 0; }
inline Number most_of(const Bytes &word) { return (Number(1) << (bits_of(word) - has_sign(word))) - 1; }
inline bool is_fixed(const Bytes &word) { return word.find("fixed") != Bytes::npos; }

inline Bytes turned(Bytes bytes) {
    for (char &byte : bytes)
        byte = static_cast<char>(~byte);
    return bytes;
}

inline Bytes put_signed(Number value) {
    if (value < 0)
        return turned(put_signed(-1 - value));
    if (value >> 48 != 0)
        return "\xff" + big_endian(static_cast<uint64_t>(value), 8);
    unsigned more = 0;
    while (value >> (6 + 7 * more) != 0)
        more++;
    Bytes out = big_endian(static_cast<uint64_t>(value), more + 1);
    // (ones, one more than bytes follow; the last of seven stands in the first byte too)
    uint64_t ones = 0xff80u >> more & 0xff;
    out[0] = static_cast<char>(byte_at(out, 0) | ones);
    return out;
}

inline Bytes spell_number(const Bytes &word, Number value) {
    if (is_fixed(word))
        return big_endian(static_cast<uint64_t>(value - least_of(word)), bits_of(word) / 8);
    return has_sign(word) ? put_signed(value) : put_unsigned(static_cast<uint64_t>(value));
}

// How many bytes a signed varint has that begins with this one.
inline size_t signed_size(unsigned first) {
    unsigned ones = 0, byte = first < 0x80 ? 255 - first : first;
    while (ones < 8 && (byte >> (7 - ones) & 1))
        ones++;
    return ones == 8 ? 9 : ones;
}

// The number at the front of spelled bytes, which are left without it.
inline std::optional<Number> take_number(const Bytes &word, Bytes &bytes) {
    if (bytes.empty())
        return std::nullopt;
    size_t size = is_fixed(word) ? bits_of(word) / 8 : has_sign(word) ? signed_size(byte_at(bytes, 0)) : unsigned_at(bytes, 0).size;
    if (size == 0 || bytes.size() < size)
        return std::nullopt;
    Bytes spelled = bytes.substr(0, size);
    Number value = 0;
    if (is_fixed(word)) {
        for (size_t at = 0; at < size; at++)
            value = value << 8 | byte_at(spelled, at);
        value += least_of(word);
    } else if (has_sign(word)) {
        bool is_negative = byte_at(spelled, 0) < 0x80;
        Bytes other = is_negative ? turned(spelled) : spelled;
        for (size_t at = 0; at < size; at++)
            value = value << 8 | byte_at(other, at);
        value &= (Number(1) << (size == 9 ? 63 : 7 * size - 1)) - 1;
        value = is_negative ? -1 - value : value;
    } else {
        value = unsigned_at(spelled, 0).value;
    }
    bytes = bytes.substr(size);
    bool is_good = value >= least_of(word) && value <= most_of(word) && spell_number(word, value) == spelled;
    return is_good ? std::optional(value) : std::nullopt;
}

// ---- texts of values

inline Bytes hex(const Bytes &bytes) {
    Bytes out;
    for (size_t at = 0; at < bytes.size(); at++)
        for (unsigned nibble : {byte_at(bytes, at) / 16u, byte_at(bytes, at) % 16u})
            out += "0123456789abcdef"[nibble];
    return out;
}

inline Bytes string_text(const Bytes &bytes) {
    Bytes out = "\"";
    for (size_t at = 0; at < bytes.size(); at++) {
        unsigned byte = byte_at(bytes, at);
        if (byte < 0x20 || byte == 0x7f)
            out += "\\x" + hex(bytes.substr(at, 1));
        else
            out += (byte == '"' || byte == '\\' ? Bytes("\\") : Bytes()) + bytes[at];
    }
    return out + "\"";
}

// The string at the front of a struct's spelling, up to its end.
inline std::optional<Bytes> take_ended(Bytes &bytes) {
    Bytes value;
    for (size_t at = 0; at < bytes.size(); at++) {
        if (bytes[at] != 0) {
            value += bytes[at];
            continue;
        }
        if (++at == bytes.size() || (byte_at(bytes, at) != 0xff && bytes[at] != 1))
            return std::nullopt;
        if (bytes[at] == 1) {
            bytes = bytes.substr(at + 1);
            return value;
        }
        value += '\0';
    }
    return std::nullopt;
}

// The text of the value of a word at the front of spelled bytes, which are left without it. A string takes all of them, or what is ended.
inline std::optional<Bytes> take_text(const Bytes &word, bool is_field, Bytes &bytes) {
    if (word == "bool") {
        if (bytes.empty() || byte_at(bytes, 0) > 1)
            return std::nullopt;
        Bytes text = bytes[0] ? "true" : "false";
        bytes = bytes.substr(1);
        return text;
    }
    if (word != "string" && word != "bytes") {
        auto number = take_number(word, bytes);
        return number ? std::optional(decimal(*number)) : std::nullopt;
    }
    std::optional<Bytes> value = bytes;
    if (is_field)
        value = take_ended(bytes);
    else
        bytes.clear();
    if (!value || (word == "string" && !is_utf8(*value)))
        return std::nullopt;
    return word == "string" ? string_text(*value) : "0x" + hex(*value);
}

// The text of the value that these bytes spell, if they spell one.
inline std::optional<Bytes> spelled_text(const Words &words, Bytes bytes) {
    Bytes text = words.is_struct ? "(" : "";
    for (size_t at = 0; at < words.words.size(); at++) {
        auto one = take_text(words.words[at], words.is_struct, bytes);
        if (!one)
            return std::nullopt;
        text += (at ? "," : "") + *one;
    }
    return bytes.empty() ? std::optional(text + (words.is_struct ? ")" : "")) : std::nullopt;
}

// The paths below a header path, one step further or more.
inline std::vector<Path> below(const std::vector<Path> &paths, const Path &at) {
    std::vector<Path> found;
    for (const Path &path : paths)
        if (path.size() > at.size() && is_below(at, path))
            found.push_back(path);
    return found;
}

inline std::vector<Bytes> data_at(const std::vector<Path> &paths, const Path &at) {
    std::vector<Bytes> data;
    for (const Path &path : paths)
        if (path.size() == at.size() + 1 && is_datum(path.back()))
            data.push_back(path.back().substr(1));
    return data;
}

inline std::vector<Path> keys_at(const std::vector<Path> &paths, const Path &at) {
    std::vector<Path> keys;
    for (const Path &path : paths)
        if (path.size() == at.size() + 1 && is_header(path.back()) && kind(path.back()).is == Kind::keyed)
            keys.push_back(path);
    return keys;
}

inline Bytes value_text(const Shape &shape, const std::vector<Path> &all, const Path &at);

inline Bytes counter_text(const std::vector<Path> &paths, const Path &at) {
    Bytes text;
    unsigned __int128 total = 0;
    for (const Path &key : keys_at(paths, at)) {
        uint64_t most = 0;
        for (const Bytes &datum : data_at(below(paths, key), key))
            most = std::max(most, whole_unsigned(datum).value_or(0));
        total += most;
        text += (text.empty() ? "0x" : ",0x") + hex(key.back().substr(1)) + ":" + decimal(most);
    }
    return decimal(static_cast<Number>(total)) + "{" + text + "}";
}

inline Bytes map_text(const Shape &shape, const std::vector<Path> &paths, const Path &at) {
    Bytes text;
    for (const Path &key : keys_at(paths, at))
        if (auto spelled = spelled_text(shape.words, key.back().substr(1)))
            text += (text.empty() ? "" : ",") + *spelled + ":" + value_text(*shape.value, paths, key);
    return "{" + text + "}";
}

inline Bytes bag_text(const Shape &shape, const std::vector<Path> &paths, const Path &at) {
    Bytes text;
    for (const Field &field : shape.fields) {
        Path inner = at;
        inner.push_back(header(at.size(), field.number));
        text += (text.empty() ? "" : ",") + field.name + "=" + value_text(field.shape, paths, inner);
    }
    return "[" + text + "]";
}

// The text of what the paths say of the field with this header path.
inline Bytes value_text(const Shape &shape, const std::vector<Path> &all, const Path &at) {
    std::vector<Path> paths = below(all, at);
    std::vector<Bytes> texts;
    for (const Bytes &datum : data_at(paths, at))
        if (auto text = spelled_text(shape.words, datum))
            texts.push_back(*text);
    switch (shape.is) {
    case Shape::taint: return data_at(paths, at).empty() ? "off" : "on";
    case Shape::counter: return counter_text(paths, at);
    case Shape::map: return map_text(shape, paths, at);
    case Shape::bag: return bag_text(shape, paths, at);
    case Shape::scalar: return texts.empty() ? "-" : texts.front();
    case Shape::greatest: return texts.empty() ? "-" : texts.back();
    case Shape::set: break;
    }
    Bytes text;
    for (const Bytes &one : texts)
        text += (text.empty() ? "" : ",") + one;
    return "{" + text + "}";
}

// ---- what is typed, and what is exact

// Whether a payload is no spelling for a datum of this shape. A null shape is that of a writer's count.
inline bool misspells_datum(const Shape *shape, const Bytes &payload) {
    if (!shape)
        return !whole_unsigned(payload);
    if (shape->is == Shape::taint)
        return !payload.empty();
    bool is_read = shape->is == Shape::scalar || shape->is == Shape::greatest || shape->is == Shape::set;
    return is_read && !spelled_text(shape->words, payload);
}

inline const Shape *field_shape(const Fields &fields, uint64_t number) {
    for (const Field &field : fields)
        if (field.number == number)
            return &field.shape;
    return nullptr;
}

// Whether the last atom of a path is read and isn't spelled as its type says; the path goes down a bag's fields.
inline bool misspells(const Fields &fields, const Path &path) {
    const Shape *shape = nullptr;
    bool is_count = false;
    for (size_t at = 0; at < path.size(); at++) {
        Kind found = kind(path[at]);
        if (found.is == Kind::marker)
            return false;
        if (found.is == Kind::datum)
            return (shape || is_count) && misspells_datum(is_count ? nullptr : shape, path[at].substr(1));
        if (is_count)
            return false;
        if (found.is == Kind::indexed && (at == 0 || shape->is == Shape::bag)) {
            shape = field_shape(at == 0 ? fields : shape->fields, found.number);
        } else if (found.is == Kind::keyed && at > 0 && shape->is == Shape::map) {
            if (!spelled_text(shape->words, path[at].substr(1)))
                return at + 1 == path.size();
            shape = shape->value.get();
        } else if (found.is == Kind::keyed && at > 0 && shape->is == Shape::counter) {
            is_count = true;
        } else {
            return false;
        }
        if (!shape)
            return false;
    }
    return false;
}

// The place of the first atom that isn't typed.
inline std::optional<size_t> first_ill_typed(const Fields &fields, const std::vector<Path> &paths) {
    for (size_t at = 0; at < paths.size(); at++)
        if (misspells(fields, paths[at]))
            return at;
    return std::nullopt;
}

inline bool is_ended(const std::vector<Path> &paths, const Path &at) {
    for (const Path &path : paths) {
        if (path.back().empty())
            return false;
        if (at < path && !is_below(at, path))
            return true;
    }
    return true;
}

// ---- normal form

inline void drop_superseded(const Shape *shape, const std::vector<Path> &all, const Path &at, std::set<Path> &gone) {
    std::vector<Path> paths = below(all, at), data;
    for (const Path &path : paths)
        if (path.size() == at.size() + 1 && is_datum(path.back()))
            data.push_back(path);
    if (!shape || shape->is == Shape::greatest)
        gone.insert(data.begin(), data.empty() ? data.end() : data.end() - 1);
    else if (shape->is == Shape::scalar)
        gone.insert(data.empty() ? data.end() : data.begin() + 1, data.end());
    else if (shape->is == Shape::counter)
        for (const Path &key : keys_at(paths, at))
            drop_superseded(nullptr, paths, key, gone);
    else if (shape->is == Shape::map)
        for (const Path &key : keys_at(paths, at)) {
            if (spelled_text(shape->words, key.back().substr(1)))
                drop_superseded(shape->value.get(), paths, key, gone);
        }
    else if (shape->is == Shape::bag)
        for (const Field &field : shape->fields) {
            Path inner = at;
            inner.push_back(header(at.size(), field.number));
            drop_superseded(&field.shape, paths, inner, gone);
        }
}

inline Atoms normal(const std::vector<Slot> &slots, const Atoms &atoms) {
    std::vector<Path> paths = paths_of(atoms);
    std::set<Path> gone;
    for (const Slot &slot : slots)
        drop_superseded(slot.shape, paths, slot.path, gone);
    Atoms left;
    for (const Path &path : paths)
        if (!gone.count(path))
            left.push_back(path.back());
    return left;
}

// ---- what is kept

inline Atoms kept(const std::vector<Slot> &slots, bool is_cut, const Atoms &atoms) {
    std::set<Path> found;
    for (const Path &path : paths_of(atoms)) {
        bool is_kept = false, is_on_way = false;
        const Slot *before = nullptr;
        for (const Slot &slot : slots) {
            is_kept |= is_below(slot.path, path);
            is_on_way |= is_below(path, slot.path);
            if (slot.path < path && (!before || before->path < slot.path))
                before = &slot;
        }
        Path to = path;
        if (!is_kept) {
            if (!path.back().empty() && (!is_cut || is_on_way))
                continue;
            to.clear();
            if (before) {
                to = before->path;
                to.back() = header(to.size() - 1, kind(to.back()).number + 1);
            }
            to.push_back("");
        }
        for (; !to.empty(); to.pop_back())
            found.insert(to);
    }
    return atoms_of(found);
}

// ---- writes

// A text that is taken from its front.
struct Text {
    Bytes rest;
    bool takes(const Bytes &word) {
        if (rest.compare(0, word.size(), word) != 0)
            return false;
        rest = rest.substr(word.size());
        return true;
    }
};

inline int nibble(char digit) {
    return digit >= '0' && digit <= '9' ? digit - '0' : digit >= 'a' && digit <= 'f' ? digit - 'a' + 10 : digit >= 'A' && digit <= 'F' ? digit - 'A' + 10 : -1;
}

inline std::optional<Bytes> take_digits(Text &text) {
    if (!text.takes("0x"))
        return std::nullopt;
    Bytes bytes;
    while (text.rest.size() > 1 && nibble(text.rest[0]) >= 0 && nibble(text.rest[1]) >= 0) {
        bytes += static_cast<char>(16 * nibble(text.rest[0]) + nibble(text.rest[1]));
        text.rest = text.rest.substr(2);
    }
    return bytes;
}

// What a backslash in a string says with the bytes after it.
inline std::optional<char> take_escaped(Text &text) {
    for (const char *mark : {"\"", "\\"})
        if (text.takes(mark))
            return *mark;
    if (!text.takes("x") || text.rest.size() < 2 || nibble(text.rest[0]) < 0 || nibble(text.rest[0]) > 7 || nibble(text.rest[1]) < 0)
        return std::nullopt;
    char byte = static_cast<char>(16 * nibble(text.rest[0]) + nibble(text.rest[1]));
    text.rest = text.rest.substr(2);
    return byte;
}

inline std::optional<Bytes> take_quoted(Text &text) {
    if (!text.takes("\""))
        return std::nullopt;
    Bytes bytes;
    while (!text.rest.empty()) {
        if (text.takes("\""))
            return is_utf8(bytes) ? std::optional(bytes) : std::nullopt;
        std::optional<char> byte = text.rest[0];
        if (text.takes("\\"))
            byte = take_escaped(text);
        else if (byte_at(text.rest, 0) < 0x20)
            return std::nullopt;
        else
            text.rest = text.rest.substr(1);
        if (!byte)
            return std::nullopt;
        bytes += *byte;
    }
    return std::nullopt;
}

inline std::optional<Number> take_decimal(Text &text, const Bytes &word) {
    bool is_negative = text.takes("-");
    size_t size = text.rest.find_first_not_of("0123456789");
    Bytes digits = text.rest.substr(0, size);
    text.rest = text.rest.substr(digits.size());
    if (!is_number(digits) || digits.size() > 20 || (is_negative && digits == "0"))
        return std::nullopt;
    Number value = 0;
    for (char digit : digits)
        value = 10 * value + (digit - '0');
    value = is_negative ? -value : value;
    return value >= least_of(word) && value <= most_of(word) ? std::optional(value) : std::nullopt;
}

// The spelling of the literal of a word at the front of a text.
inline std::optional<Bytes> take_literal(Text &text, const Bytes &word) {
    if (word == "bool")
        return text.takes("true") ? std::optional(Bytes("\1")) : text.takes("false") ? std::optional(Bytes(1, '\0')) : std::nullopt;
    if (word == "string" || word == "bytes")
        return word == "string" ? take_quoted(text) : take_digits(text);
    auto number = take_decimal(text, word);
    return number ? std::optional(spell_number(word, *number)) : std::nullopt;
}

inline Bytes ended(const Bytes &bytes) {
    Bytes out;
    for (char byte : bytes)
        out += byte ? Bytes(1, byte) : Bytes("\0\xff", 2);
    return out + Bytes("\0\1", 2);
}

inline std::optional<Bytes> take_words(Text &text, const Words &words) {
    if (!words.is_struct)
        return take_literal(text, words.words[0]);
    Bytes spelled;
    for (size_t at = 0; at < words.words.size(); at++) {
        std::optional<Bytes> one = text.takes(at ? "," : "(") ? take_literal(text, words.words[at]) : std::nullopt;
        if (!one)
            return std::nullopt;
        spelled += words.words[at] == "string" || words.words[at] == "bytes" ? ended(*one) : *one;
    }
    return text.takes(")") ? std::optional(spelled) : std::nullopt;
}

// The path that a write of this shape at the end of a text adds below a header path; none where it is no write.
inline std::optional<Path> take_write(Text text, const Shape &shape, size_t most, Path at) {
    std::optional<Bytes> spelled;
    if (shape.is == Shape::taint) {
        spelled = text.takes("on") ? std::optional(Bytes()) : std::nullopt;
    } else if (shape.is == Shape::bag) {
        size_t end = text.rest.find('=');
        for (const Field &field : shape.fields)
            if (end != Bytes::npos && text.rest.substr(0, end) == "." + field.name) {
                at.push_back(header(at.size(), field.number));
                return take_write({text.rest.substr(end + 1)}, field.shape, most, at);
            }
    } else if (shape.is == Shape::counter || shape.is == Shape::map) {
        spelled = shape.is == Shape::map ? take_literal(text, shape.words.words[0]) : text.rest[0] == '"' ? take_quoted(text) : take_digits(text);
        if (!spelled || spelled->size() > most || !text.takes(":"))
            return std::nullopt;
        at.push_back(static_cast<char>(0xf9 - 8 * at.size()) + *spelled);
        if (shape.is == Shape::map)
            return take_write(text, *shape.value, most, at);
        spelled = take_literal(text, "uint64");
    } else {
        spelled = take_words(text, shape.words);
    }
    if (!spelled || spelled->size() > most || !text.rest.empty())
        return std::nullopt;
    at.push_back(Bytes(1, '\0') + *spelled);
    return at;
}

// The atoms of the context that says what a text writes to a slot.
inline std::optional<Atoms> read_write(unsigned form, const Slot &slot, const Bytes &text) {
    auto path = take_write({text}, *slot.shape, (form == 1 ? longest_in_one : longest) - 1, slot.path);
    return path ? std::optional<Atoms>(*path) : std::nullopt;
}

// ---- reports

inline Bytes json_text(const Bytes &text) {
    Bytes out = "\"";
    for (char byte : text)
        out += (byte == '"' || byte == '\\' ? Bytes("\\") : Bytes()) + byte;
    return out + "\"";
}

inline Bytes digits_or_dash(const Bytes &bytes) { return bytes.empty() ? "-" : hex(bytes); }

inline Bytes report_text(const std::vector<Slot> &slots, const Bytes &bytes, const std::vector<Path> &paths) {
    Bytes text = "bytes " + digits_or_dash(bytes) + "\n";
    for (const Slot &slot : slots)
        text += slot.name + (is_ended(paths, slot.path) ? " exact " : " partial ") + value_text(*slot.shape, paths, slot.path) + "\n";
    return text;
}

inline Bytes report_json(const std::vector<Slot> &slots, const Bytes &bytes, const std::vector<Path> &paths) {
    Bytes text;
    for (const Slot &slot : slots)
        text += (text.empty() ? "" : ",") + Bytes("{\"path\":") + json_text(slot.name) + ",\"state\":" +
                (is_ended(paths, slot.path) ? "\"exact\"" : "\"partial\"") + ",\"text\":" + json_text(value_text(*slot.shape, paths, slot.path)) + "}";
    return "{\"bytes\":\"" + digits_or_dash(bytes) + "\",\"fields\":[" + text + "]}";
}

// ---- verdicts on tables

inline bool is_wider(const Bytes &old, const Bytes &next) {
    static const std::map<Bytes, std::set<Bytes>> wider{{"int32", {"sint32", "int64", "sint64"}}, {"sint32", {"int32", "int64", "sint64"}},
                                                        {"int64", {"sint64"}}, {"sint64", {"int64"}}, {"uint32", {"uint64"}}};
    auto found = wider.find(old);
    return old == next || (found != wider.end() && found->second.count(next));
}

inline bool are_wider(const Words &old, const Words &next) {
    if (old.is_struct != next.is_struct || old.words.size() != next.words.size())
        return false;
    return std::equal(old.words.begin(), old.words.end(), next.words.begin(), is_wider);
}

struct Break {
    Bytes path;
    unsigned change; // 1 the shape, 2 the key, 3 the kind
};

inline std::optional<Break> first_break(const Fields &old, const Fields &next, const Bytes &before);

inline std::optional<Break> first_break(const Shape &old, const Shape &next, const Bytes &path) {
    if (old.is != next.is)
        return Break{path, 1};
    if (old.is == Shape::map) {
        if (!are_wider(old.words, next.words))
            return Break{path, 2};
        return first_break(*old.value, *next.value, path + ".*");
    }
    if (old.is == Shape::bag)
        return first_break(old.fields, next.fields, path + ".");
    return are_wider(old.words, next.words) ? std::nullopt : std::optional(Break{path, 3});
}

inline std::optional<Break> first_break(const Fields &old, const Fields &next, const Bytes &before) {
    for (const Field &field : old)
        if (const Shape *shape = field_shape(next, field.number))
            if (auto found = first_break(field.shape, *shape, before + decimal(static_cast<Number>(field.number))))
                return found;
    return std::nullopt;
}

inline size_t common_slots(const Fields &old, const Fields &next) {
    std::set<Path> paths;
    for (const Slot &slot : slots_of(old))
        paths.insert(slot.path);
    size_t count = 0;
    for (const Slot &slot : slots_of(next))
        count += paths.count(slot.path);
    return count;
}

} // namespace slow

#endif
