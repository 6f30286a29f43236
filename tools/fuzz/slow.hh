// A slow second implementation of contexts, written from docs/FORMATS.md: a context is the set of its paths here, a merge their union.
// Nothing is done as the library does it. slow_fields.hh goes on with tables and fields, slow_calls.hh with the answers of calls.
#ifndef SLOW_HH
#define SLOW_HH

#include <algorithm>
#include <cstddef>
#include <cstdint>
#include <optional>
#include <set>
#include <string>
#include <vector>

namespace slow {

using Bytes = std::string; // compared byte by byte, as unsigned numbers
using Atoms = std::vector<Bytes>;
using Path = std::vector<Bytes>;

constexpr size_t longest_in_one = 65535, longest = 1048576;
enum code { cut_length = 1, bad_count, atom_too_long, long_form, cut_body, bad_prefix, bad_index, level_jump, out_of_order };

struct Fault {
    size_t offset;
    unsigned code;
};

inline unsigned char byte_at(const Bytes &bytes, size_t at) { return static_cast<unsigned char>(bytes[at]); }

// ---- varints

// The number that stands there as an unsigned varint, and how many bytes it has.
struct Varint {
    bool is_cut, is_shortest;
    uint64_t value;
    size_t size;
};

inline Varint unsigned_at(const Bytes &bytes, size_t at) {
    if (at >= bytes.size())
        return {true, false, 0, 0};
    unsigned first = byte_at(bytes, at), more = 0;
    while (more < 8 && (first >> (7 - more) & 1))
        more++;
    if (bytes.size() - at < more + 1)
        return {true, false, 0, 0};
    uint64_t value = more >= 7 ? 0 : first & (0x7fu >> more);
    for (unsigned k = 1; k <= more; k++)
        value = value << 8 | byte_at(bytes, at + k);
    bool is_shortest = more == 0 || value >> (7 * more) != 0;
    return {false, is_shortest, value, more + 1};
}

inline Bytes big_endian(uint64_t value, unsigned size) {
    Bytes out;
    for (unsigned k = size; k-- > 0;)
        out += static_cast<char>(value >> (8 * k) & 0xff);
    return out;
}

inline Bytes put_unsigned(uint64_t value) {
    unsigned more = 0;
    while (more < 8 && value >> (7 * (more + 1)) != 0)
        more++;
    if (more == 8)
        return "\xff" + big_endian(value, 8);
    Bytes out = big_endian(value, more + 1);
    out[0] = static_cast<char>(byte_at(out, 0) | (0xff00u >> more & 0xff));
    return out;
}

// The number that all of these bytes spell.
inline std::optional<uint64_t> whole_unsigned(const Bytes &bytes) {
    Varint found = unsigned_at(bytes, 0);
    if (found.is_cut || !found.is_shortest || found.size != bytes.size())
        return std::nullopt;
    return found.value;
}

// ---- kinds of atoms

struct Kind {
    enum { marker, datum, indexed, keyed } is;
    unsigned level;
    uint64_t number;
};

inline std::optional<Kind> kind_of(const Bytes &atom, unsigned &code) {
    if (atom.empty())
        return Kind{Kind::marker, 0, 0};
    unsigned first = byte_at(atom, 0);
    if (first == 0)
        return Kind{Kind::datum, 0, 0};
    code = bad_prefix;
    if (first < 0x80 || first % 8 > 1)
        return std::nullopt;
    unsigned level = 31 - first / 8;
    if (first % 8 == 1)
        return Kind{Kind::keyed, level, 0};
    code = bad_index;
    auto number = whole_unsigned(atom.substr(1));
    if (!number)
        return std::nullopt;
    return Kind{Kind::indexed, level, *number};
}

inline Kind kind(const Bytes &atom) {
    unsigned code;
    return *kind_of(atom, code);
}

inline bool is_header(const Bytes &atom) { return !atom.empty() && atom[0] != 0; }
inline bool is_datum(const Bytes &atom) { return !atom.empty() && atom[0] == 0; }

// ---- paths

// What stands before the next atom: the headers around it, and the path of the atom before it.
struct Place {
    Path headers, last;
};

// The path of an atom there, or what is wrong with it.
inline bool step_to(Place &place, const Bytes &atom, unsigned &code) {
    auto found = kind_of(atom, code);
    if (!found)
        return false;
    Path path = found->is == Kind::marker ? place.last : place.headers;
    if (is_header(atom)) {
        code = level_jump;
        if (found->level > place.headers.size())
            return false;
        path.resize(found->level);
    }
    path.push_back(atom);
    code = out_of_order;
    if (!(place.last < path))
        return false;
    if (is_header(atom))
        place.headers = path;
    place.last = path;
    return true;
}

inline std::vector<Path> paths_of(const Atoms &atoms) {
    Place place;
    std::vector<Path> paths;
    unsigned code;
    for (const Bytes &atom : atoms) {
        step_to(place, atom, code);
        paths.push_back(place.last);
    }
    return paths;
}

// Whether a path begins with another one.
inline bool is_below(const Path &at, const Path &path) {
    return path.size() >= at.size() && std::equal(at.begin(), at.end(), path.begin());
}

inline Atoms atoms_of(const std::set<Path> &paths) {
    Atoms atoms;
    for (const Path &path : paths)
        atoms.push_back(path.back());
    return atoms;
}

// ---- bytes of a list

inline unsigned form_of(const Bytes &bytes) { return bytes.compare(0, 4, "\xff\xff\xff\x02", 4) == 0 ? 2 : 1; }

// The length that begins there, and how many bytes it has; or what is wrong with it.
inline bool length_in_one(const Bytes &bytes, size_t at, size_t &length, size_t &size, unsigned &code) {
    length = 0;
    for (size = 0; size < 3; size++) {
        code = cut_length;
        if (at + size == bytes.size())
            return false;
        unsigned byte = byte_at(bytes, at + size);
        length |= static_cast<size_t>(byte & 0x7f) << (7 * size);
        if (byte < 0x80)
            break;
    }
    code = atom_too_long;
    if (size == 3 || length > longest_in_one)
        return false;
    code = long_form;
    size++;
    return size == 1 || byte_at(bytes, at + size - 1) != 0;
}

inline bool length_in_two(const Bytes &bytes, size_t at, size_t &length, size_t &size, unsigned &code) {
    Varint found = unsigned_at(bytes, at);
    code = found.is_cut ? cut_length : !found.is_shortest ? long_form : atom_too_long;
    length = found.value;
    size = found.size;
    return !found.is_cut && found.is_shortest && found.value <= longest;
}

// What bytes say: their form, their atoms and where each begins; or their first fault.
struct Read {
    unsigned form;
    Atoms atoms;
    std::vector<size_t> offsets; // one more than there are atoms
    std::optional<Fault> fault;
};

inline bool head_is_good(const Bytes &bytes, Read &read) {
    if (read.form == 1)
        return true;
    if (bytes.size() < 12) {
        read.fault = Fault{4, cut_length};
        return false;
    }
    uint64_t count = 0;
    for (size_t at = 4; at < 12; at++)
        count = count << 8 | byte_at(bytes, at);
    if (count != bytes.size() - 12)
        read.fault = Fault{4, bad_count};
    return !read.fault;
}

inline Read read_context(const Bytes &bytes) {
    Read read{form_of(bytes), {}, {}, {}};
    if (!head_is_good(bytes, read))
        return read;
    Place place;
    size_t at = read.form == 2 ? 12 : 0;
    while (at < bytes.size()) {
        size_t length, size;
        unsigned code;
        bool is_good = (read.form == 1 ? length_in_one : length_in_two)(bytes, at, length, size, code);
        if (is_good && bytes.size() - at - size < length) {
            is_good = false;
            code = cut_body;
        }
        if (!is_good || !step_to(place, bytes.substr(at + size, length), code)) {
            read.fault = Fault{at, code};
            return read;
        }
        read.offsets.push_back(at);
        read.atoms.push_back(bytes.substr(at + size, length));
        at += size + length;
    }
    read.offsets.push_back(at);
    return read;
}

inline Bytes length_one(size_t length) {
    Bytes out;
    for (; length >= 0x80; length >>= 7)
        out += static_cast<char>(length % 0x80 + 0x80);
    return out + static_cast<char>(length);
}

inline bool is_wide(unsigned form, const Atoms &atoms) {
    return form == 2 || std::any_of(atoms.begin(), atoms.end(), [](const Bytes &atom) { return atom.size() > longest_in_one; });
}

inline Bytes write_list(unsigned form, const Atoms &atoms) {
    bool wide = is_wide(form, atoms);
    Bytes frames;
    for (const Bytes &atom : atoms)
        frames += (wide ? put_unsigned(atom.size()) : length_one(atom.size())) + atom;
    return wide ? "\xff\xff\xff\x02" + big_endian(frames.size(), 8) + frames : frames;
}

// ---- merges and cuts

inline Atoms merge(const std::vector<Atoms> &lists) {
    std::set<Path> paths;
    for (const Atoms &atoms : lists)
        for (Path &path : paths_of(atoms))
            paths.insert(path);
    return atoms_of(paths);
}

// The longest prefix that fits with a marker after it, and the marker; or the list, where it fits. Each length is tried, the longest first.
inline Atoms trim(unsigned form, const Atoms &atoms, uint64_t budget) {
    if (write_list(form, atoms).size() <= budget)
        return atoms;
    std::vector<uint64_t> narrow{0}, wide{12};
    std::vector<bool> needs_wide{form == 2};
    for (const Bytes &atom : atoms) {
        narrow.push_back(narrow.back() + length_one(atom.size()).size() + atom.size());
        wide.push_back(wide.back() + put_unsigned(atom.size()).size() + atom.size());
        needs_wide.push_back(needs_wide.back() || atom.size() > longest_in_one);
    }
    size_t kept = atoms.size();
    while ((needs_wide[kept] ? wide[kept] : narrow[kept]) + 1 > budget)
        kept--;
    Atoms cut(atoms.begin(), atoms.begin() + static_cast<long>(kept));
    cut.push_back("");
    return cut;
}

} // namespace slow

#endif
