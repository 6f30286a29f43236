#ifndef TERNCOMMODE_PARTS_HPP
#define TERNCOMMODE_PARTS_HPP

// What all accessors share: atoms, and the spellings of values.

#include <algorithm>
#include <map>
#include <optional>
#include <set>
#include <tuple>

namespace terncommode::parts {

/// Bytes that aren't a string.
using octets = std::vector<std::uint8_t>;

inline std::uint8_t take_byte(std::string_view &rest) noexcept {
    if (rest.empty())
        return 0;
    const auto byte = static_cast<std::uint8_t>(rest.front());
    rest.remove_prefix(1);
    return byte;
}

inline std::string_view take_some(std::string_view &rest, std::size_t length) noexcept {
    const std::string_view taken = rest.substr(0, length);
    rest.remove_prefix(taken.size());
    return taken;
}

inline unsigned ones_of(std::uint8_t first) noexcept {
    unsigned ones = 0;
    while (ones < 8 && (first & (0x80U >> ones)) != 0)
        ones++;
    return ones;
}

inline std::uint64_t take_big_endian(std::string_view &rest, std::uint64_t number, unsigned count, std::uint8_t flip = 0) noexcept {
    while (count-- != 0)
        number = number << 8 | static_cast<std::uint8_t>(take_byte(rest) ^ flip);
    return number;
}

inline std::uint64_t take_varint(std::string_view &rest) noexcept {
    const std::uint8_t first = take_byte(rest);
    const unsigned more = ones_of(first);
    return take_big_endian(rest, first & (0x7FU >> more), more);
}

inline std::int64_t take_signed(std::string_view &rest) noexcept {
    const std::uint8_t first = take_byte(rest), flip = first < 0x80 ? 0xFF : 0, turned = first ^ flip;
    const unsigned ones = ones_of(turned);
    const std::uint64_t number = take_big_endian(rest, turned & (0x7FU >> ones), ones == 8 ? 8 : ones - 1, flip);
    const auto positive = static_cast<std::int64_t>(number & INT64_MAX);
    return flip != 0 ? -1 - positive : positive;
}

inline std::size_t take_base_128(std::string_view &rest) noexcept {
    std::size_t length = 0;
    for (unsigned shift = 0; shift < 21; shift += 7) {
        const std::uint8_t group = take_byte(rest);
        length |= static_cast<std::size_t>(group & 0x7F) << shift;
        if (group < 0x80)
            break;
    }
    return length;
}

/// An atom: a marker, a datum with its payload, or a header with its key or the spelling of its number.
struct atom {
    bool is_header = false, is_keyed = false, is_datum = false;
    unsigned level = 0;
    std::string_view body{};
};

/// The atoms that stand under a header, in which headers have this level and higher ones.
class part {
public:
    part(std::string_view bytes, bool is_two, unsigned level) noexcept : bytes_(bytes), is_two_(is_two), level_(level) {}

    /// Calls with the payload of each datum before the first header.
    template <class Call> void data(Call call) const {
        part rest = *this;
        for (atom next; rest.next(next) && !next.is_header;)
            if (next.is_datum)
                call(next.body);
    }

    /// Calls with each header of this level, and with what stands under it.
    template <class Call> void under(Call call) const {
        part rest = *this;
        for (atom header; rest.next(header);)
            if (header.is_header && header.level == level_)
                call(header, rest.until_next());
    }

    /// What stands under the header with this number.
    [[nodiscard]] part field(std::uint64_t number) const {
        part found({}, is_two_, level_ + 1);
        under([&](const atom &header, const part &below) {
            std::string_view body = header.body;
            if (!header.is_keyed && take_varint(body) == number)
                found = below;
        });
        return found;
    }

private:
    bool next(atom &found) noexcept {
        if (bytes_.empty())
            return false;
        const std::size_t length = is_two_ ? static_cast<std::size_t>(take_varint(bytes_)) : take_base_128(bytes_);
        found = atom();
        found.body = take_some(bytes_, length);
        if (found.body.empty())
            return true;
        const std::uint8_t first = take_byte(found.body);
        found.is_datum = first == 0;
        found.is_header = first != 0;
        found.is_keyed = (first & 1U) != 0;
        found.level = (0xF8U - (first & 0xF8U)) / 8;
        return true;
    }

    /// What stands before the next header of this level, which is passed over.
    part until_next() noexcept {
        const std::string_view from = bytes_;
        for (;;) {
            const std::string_view before = bytes_;
            atom found;
            if (!next(found) || (found.is_header && found.level <= level_)) {
                bytes_ = before;
                return {from.substr(0, from.size() - before.size()), is_two_, level_ + 1};
            }
        }
    }

    std::string_view bytes_;
    bool is_two_;
    unsigned level_;
};

// Kinds: each takes a value off a spelling, all of it or, inside a struct, what is its own.

struct boolean {
    using type = bool;
    static type take(std::string_view &rest, bool) noexcept { return take_byte(rest) == 1; }
};
struct int32 {
    using type = std::int32_t;
    static type take(std::string_view &rest, bool) noexcept { return static_cast<type>(take_signed(rest)); }
};
struct int64 {
    using type = std::int64_t;
    static type take(std::string_view &rest, bool) noexcept { return take_signed(rest); }
};
struct uint32 {
    using type = std::uint32_t;
    static type take(std::string_view &rest, bool) noexcept { return static_cast<type>(take_varint(rest)); }
};
struct uint64 {
    using type = std::uint64_t;
    static type take(std::string_view &rest, bool) noexcept { return take_varint(rest); }
};
struct fixed32 {
    using type = std::uint32_t;
    static type take(std::string_view &rest, bool) noexcept { return static_cast<type>(take_big_endian(rest, 0, 4)); }
};
struct fixed64 {
    using type = std::uint64_t;
    static type take(std::string_view &rest, bool) noexcept { return take_big_endian(rest, 0, 8); }
};
struct sfixed32 {
    using type = std::int32_t;
    static type take(std::string_view &rest, bool) noexcept {
        return static_cast<type>(static_cast<std::int64_t>(take_big_endian(rest, 0, 4)) + INT32_MIN);
    }
};
struct sfixed64 {
    using type = std::int64_t;
    static type take(std::string_view &rest, bool) noexcept {
        const std::uint64_t number = take_big_endian(rest, 0, 8);
        return number >> 63 != 0 ? static_cast<type>(number & INT64_MAX) : static_cast<type>(number) + INT64_MIN;
    }
};
struct text {
    using type = std::string;
    static type take(std::string_view &rest, bool is_inside) {
        if (!is_inside)
            return type(take_some(rest, rest.size()));
        type value;
        while (!rest.empty()) {
            const std::uint8_t byte = take_byte(rest);
            if (byte == 0 && take_byte(rest) == 1)
                break;
            value.push_back(static_cast<char>(byte));
        }
        return value;
    }
};
struct bytes {
    using type = octets;
    static type take(std::string_view &rest, bool is_inside) {
        const std::string value = text::take(rest, is_inside);
        return type(value.begin(), value.end());
    }
};
template <class... Kinds> struct structure {
    using type = std::tuple<typename Kinds::type...>;
    static type take(std::string_view &rest, bool) { return type{Kinds::take(rest, true)...}; } // braces: from left to right
};

// Shapes: each tells the value that a part says.

struct taint {
    using type = bool;
    static type tell(const part &from) {
        bool is_on = false;
        from.data([&](std::string_view) { is_on = true; });
        return is_on;
    }
};
template <class Kind> struct scalar {
    using type = std::optional<typename Kind::type>;
    static type tell(const part &from) {
        type value;
        from.data([&](std::string_view payload) {
            if (!value)
                value = Kind::take(payload, false);
        });
        return value;
    }
};
template <class Kind> struct greatest {
    using type = std::optional<typename Kind::type>;
    static type tell(const part &from) {
        type value;
        from.data([&](std::string_view payload) { value = Kind::take(payload, false); });
        return value;
    }
};
template <class Kind> struct set {
    using type = std::set<typename Kind::type>;
    static type tell(const part &from) {
        type value;
        from.data([&](std::string_view payload) { value.insert(value.end(), Kind::take(payload, false)); });
        return value;
    }
};
struct counter {
    using type = std::map<std::string, std::uint64_t>;
    static type tell(const part &from) {
        type value;
        from.under([&](const atom &header, const part &below) {
            if (header.is_keyed)
                value.emplace(header.body, greatest<uint64>::tell(below).value_or(0));
        });
        return value;
    }
};
template <class Key, class Shape> struct map {
    using type = std::map<typename Key::type, typename Shape::type>;
    static type tell(const part &from) {
        type value;
        from.under([&](const atom &header, const part &below) {
            std::string_view body = header.body;
            if (header.is_keyed)
                value.emplace(Key::take(body, false), Shape::tell(below));
        });
        return value;
    }
};

#ifdef __SIZEOF_INT128__
__extension__ typedef unsigned __int128 total_type;

/// The sum of a counter's counts, which may pass 2^64.
[[nodiscard]] inline total_type total(const counter::type &counts) {
    total_type sum = 0;
    for (const auto &[writer, count] : counts)
        sum += count;
    return sum;
}
#endif

/// Where the slots of a table stand in a context, which has to stay as it is while they are read.
class slots {
public:
    slots(std::string_view table, std::size_t count, std::string_view context) : context_(context), places_(std::max<std::size_t>(count, 1)) {
        const baggage_answer answer =
            baggage_places(table.data(), table.size(), detail::bytes_of(context), context.size(), places_.data(), count);
        if (answer.status == BAGGAGE_MEMORY)
            throw std::bad_alloc();
        if (answer.status != BAGGAGE_OK)
            std::terminate(); // the library isn't that of the header, or these aren't the bytes of a context
        is_two_ = answer.code == BAGGAGE_FORM_TWO;
    }

    template <class Shape> [[nodiscard]] result<field<typename Shape::type>, refusal> read(std::size_t slot, unsigned level) const {
        const baggage_place &place = places_[slot];
        if (place.state == BAGGAGE_ILL_TYPED)
            return unexpected<refusal>(refusal{refusal::cause::ill_typed, 0, 0, place.offset, 0});
        const std::string_view atoms = place.length != 0 ? context_.substr(place.offset, place.length) : std::string_view();
        return field<typename Shape::type>{Shape::tell(part(atoms, is_two_, level)), place.state == BAGGAGE_EXACT};
    }

private:
    std::string_view context_;
    std::vector<baggage_place> places_;
    bool is_two_ = false;
};

/// The literals that writes have.
[[nodiscard]] inline std::string literal(bool value) { return value ? "true" : "false"; }
[[nodiscard]] inline std::string literal(std::int32_t value) { return std::to_string(value); }
[[nodiscard]] inline std::string literal(std::int64_t value) { return std::to_string(value); }
[[nodiscard]] inline std::string literal(std::uint32_t value) { return std::to_string(value); }
[[nodiscard]] inline std::string literal(std::uint64_t value) { return std::to_string(value); }
[[nodiscard]] inline std::string literal(std::string_view value) { return quote(value); }
[[nodiscard]] inline std::string literal(const octets &value) {
    static constexpr char digits[] = "0123456789abcdef";
    std::string text = "0x";
    for (const std::uint8_t byte : value) {
        text += digits[byte >> 4];
        text += digits[byte & 15];
    }
    return text;
}
template <class... Values> [[nodiscard]] std::string literal(const std::tuple<Values...> &values) {
    std::string text;
    std::apply([&](const Values &...value) { ((text += (text.empty() ? "(" : ",") + literal(value)), ...); }, values);
    return text + ")";
}

/// The literal of a counter's writer, which is any bytes.
[[nodiscard]] inline std::string writer_literal(std::string_view writer) { return literal(octets(writer.begin(), writer.end())); }

} // namespace terncommode::parts

#endif
