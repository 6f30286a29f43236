// Baggage contexts in C++17, over the library of baggage.h. This header is tested, not proved.
//
// A `context` is a value that is always valid: whoever has one can send it, join it and cut it, and none of these fails. A copy is a branch.
// A `bag` is the table of a definition; it reads and writes fields. Nothing here throws but std::bad_alloc, and `value()` of a result that
// has none; without exceptions it ends the program there. baggage_request.hpp has the holder of a request, for all threads that work on it.
//
// A result is std::expected where there is one, and a class of this header elsewhere or where TERNCOMMODE_OWN_RESULT is defined. All names below
// stand in an inline namespace that says which: objects with the one and with the other can be linked into one program, but not hand these types to
// each other, unless all of them define TERNCOMMODE_OWN_RESULT. So include this header, and declare none of its names yourself.
//
//     const auto request = terncommode::bag::from(TABLE).value();
//     auto here = terncommode::extract(values, terncommode::context());              // what came in
//     here = request.update(here, terncommode::writes().set("id", "4711")).value();  // what this service says
//     send(to_header(here));                                                         // what goes on
//     const auto id = request.text(here, "id").value();                              // id.value is "4711", id.exact says whether that is all
#ifndef TERNCOMMODE_BAGGAGE_HPP
#define TERNCOMMODE_BAGGAGE_HPP

#include <algorithm>
#include <cstddef>
#include <cstdint>
#include <cstdlib>
#include <cstring>
#include <exception>
#include <functional>
#include <initializer_list>
#include <iterator>
#include <new>
#include <string>
#include <string_view>
#include <type_traits>
#include <utility>
#include <variant>
#include <vector>
#if defined(__has_include)
#if __has_include(<version>)
#include <version>
#endif
#endif
#if defined(__cpp_lib_expected) && !defined(TERNCOMMODE_OWN_RESULT)
#define TERNCOMMODE_RESULT with_expected
#include <expected>
#else
#define TERNCOMMODE_RESULT with_own_result
#endif

#if defined(__GNUC__)
#define TERNCOMMODE_TAG __attribute__((__abi_tag__)) // the name of a function that gives one of these types has it too
#pragma GCC diagnostic push
#pragma GCC diagnostic ignored "-Wold-style-cast" // it is C
#endif
#include "baggage_ingress.h"
#if defined(__GNUC__)
#pragma GCC diagnostic pop
#else
#define TERNCOMMODE_TAG
#endif

#if defined(__cpp_exceptions)
#define TERNCOMMODE_THROW(error) throw error
#else
#define TERNCOMMODE_THROW(error) std::abort()
#endif

namespace terncommode {
inline namespace TERNCOMMODE_RESULT TERNCOMMODE_TAG {

/// The name of the header that carries a context, that of the header by which a reply says which request it answers, and the key of gRPC's metadata.
inline constexpr std::string_view header_name = BAGGAGE_HEADER;
inline constexpr std::string_view for_header_name = BAGGAGE_FOR_HEADER;
inline constexpr std::string_view grpc_key = BAGGAGE_GRPC_KEY;

/// The greatest budget: no context is cut to it.
inline constexpr std::uint64_t no_budget = BAGGAGE_NO_BUDGET;

/// How many bytes a context may have in a request's header, in a reply's, and in gRPC's metadata. Whoever sends cuts to them.
inline constexpr std::uint64_t request_budget = BAGGAGE_REQUEST_BUDGET;
inline constexpr std::uint64_t reply_budget = BAGGAGE_REPLY_BUDGET;
inline constexpr std::uint64_t grpc_budget = BAGGAGE_GRPC_BUDGET;

/// How many bytes the text of a field or of a report has at most, unless the caller says more: a stranger's context of 3,000 bytes can have one of
/// many megabytes.
inline constexpr std::size_t text_limit = 1048576;

/// The forms of bytes. Form two begins with the number of its bytes.
enum class form : std::uint32_t { one = BAGGAGE_FORM_ONE, two = BAGGAGE_FORM_TWO };

/// What becomes of the fields that `bag::keep` drops: they are marked as cut off, or nothing is said of them.
enum class others : std::uint32_t { cut = BAGGAGE_CUT, unsaid = BAGGAGE_UNSAID };

/// What is wrong with bytes that aren't a context's, and how many bytes stand before it.
struct fault {
    std::size_t offset;
    baggage_code code;

    /// The code's name, as the program prints it.
    [[nodiscard]] const char *name() const noexcept { return baggage_code_text(BAGGAGE_FAULT, code); }
    [[nodiscard]] std::string message() const { return std::string(name()) + " at byte " + std::to_string(offset); }
    friend bool operator==(const fault &a, const fault &b) noexcept { return a.offset == b.offset && a.code == b.code; }
    friend bool operator!=(const fault &a, const fault &b) noexcept { return !(a == b); }
};

/// Why a bag refused a call.
struct refusal {
    enum class cause {
        bad_table, ///< the text isn't a table's: `line`, and `code` says why
        no_field,  ///< no slot has this path: `line` of the writes, 0 for the path that was handed in
        bad_write, ///< the text in this `line` is no write to its field
        bad_bytes, ///< of received bytes: they aren't a context's, from `offset` on for `code`
        ill_typed, ///< of the input with this number, what stands at `offset` isn't spelled as the table says
        too_long,  ///< the text would have `size` bytes, which is more than the caller takes
        no_request ///< no request runs in this thread
    };
    cause why;
    std::size_t line = 0;
    std::size_t input = 0;
    std::size_t offset = 0;
    std::uint32_t code = 0;
    std::size_t size = 0;

    /// The name of the code beside `bad_table` and `bad_bytes`, else "".
    [[nodiscard]] const char *name() const noexcept {
        return why == cause::bad_table ? baggage_code_text(BAGGAGE_TABLE, code) : why == cause::bad_bytes ? baggage_code_text(BAGGAGE_FAULT, code) : "";
    }
    [[nodiscard]] std::string message() const {
        switch (why) {
        case cause::bad_table: return "line " + std::to_string(line) + " is not a table's: " + name();
        case cause::no_field: return line ? "write " + std::to_string(line) + ": no such field" : "no such field";
        case cause::bad_write: return "write " + std::to_string(line) + ": not a write to its field";
        case cause::bad_bytes: return std::string(name()) + " at byte " + std::to_string(offset);
        case cause::ill_typed: return "input " + std::to_string(input) + ": ill typed at byte " + std::to_string(offset);
        case cause::no_request: return "no request runs here";
        case cause::too_long: return "a text of " + std::to_string(size) + " bytes is longer than what is taken";
        }
        return "";
    }
};

#if defined(__cpp_lib_expected) && !defined(TERNCOMMODE_OWN_RESULT)
template <class T, class E> using result = std::expected<T, E>;
template <class E> using unexpected = std::unexpected<E>;
#else
template <class E> class unexpected {
public:
    constexpr explicit unexpected(E error) : error_(std::move(error)) {}
    constexpr E &&error() && noexcept { return std::move(error_); }

private:
    E error_;
};

/// What `value()` throws where there is none.
class bad_result_access : public std::exception {
public:
    [[nodiscard]] const char *what() const noexcept override { return "a result without a value"; }
};

/// A value or an error, with the part of std::expected that is used here.
template <class T, class E> class [[nodiscard]] result {
public:
    using value_type = T;
    using error_type = E;

    result(T value) : is_(std::in_place_index<0>, std::move(value)) {}
    result(unexpected<E> error) : is_(std::in_place_index<1>, std::move(error).error()) {}

    [[nodiscard]] bool has_value() const noexcept { return is_.index() == 0; }
    explicit operator bool() const noexcept { return has_value(); }
    [[nodiscard]] const T &operator*() const & noexcept { return *std::get_if<0>(&is_); }
    [[nodiscard]] T &operator*() & noexcept { return *std::get_if<0>(&is_); }
    [[nodiscard]] T &&operator*() && noexcept { return std::move(*std::get_if<0>(&is_)); }
    [[nodiscard]] const T *operator->() const noexcept { return std::get_if<0>(&is_); }
    [[nodiscard]] T *operator->() noexcept { return std::get_if<0>(&is_); }
    [[nodiscard]] const T &value() const & { return checked(), **this; }
    [[nodiscard]] T &value() & { return checked(), **this; }
    [[nodiscard]] T &&value() && { return checked(), std::move(**this); }
    [[nodiscard]] const E &error() const & noexcept { return *std::get_if<1>(&is_); }
    [[nodiscard]] E &error() & noexcept { return *std::get_if<1>(&is_); }
    [[nodiscard]] E &&error() && noexcept { return std::move(*std::get_if<1>(&is_)); }
    template <class U> [[nodiscard]] T value_or(U &&other) const & { return has_value() ? **this : static_cast<T>(std::forward<U>(other)); }
    template <class U> [[nodiscard]] T value_or(U &&other) && { return has_value() ? std::move(**this) : static_cast<T>(std::forward<U>(other)); }

private:
    void checked() const {
        if (!has_value())
            TERNCOMMODE_THROW(bad_result_access());
    }
    std::variant<T, E> is_;
};
#endif

class bag;
class context;

namespace detail {

inline const std::uint8_t *bytes_of(std::string_view text) noexcept {
    return text.empty() ? BAGGAGE_LOST : reinterpret_cast<const std::uint8_t *>(text.data());
}

inline std::uint8_t *room_of(std::string &room) noexcept { return reinterpret_cast<std::uint8_t *>(&room[0]); }

inline const char *text_of(std::string_view text) noexcept { return text.empty() ? "" : text.data(); }

inline baggage_span span_of(std::string_view text) noexcept { return {bytes_of(text), text.size()}; }

/// The spans of inputs, of which there may be none; a null pointer is never handed in.
class spans {
public:
    void add(std::string_view input) {
        list_.push_back(span_of(input));
        total_ += input.size();
    }
    [[nodiscard]] const baggage_span *data() const noexcept { return list_.empty() ? &none_ : list_.data(); }
    [[nodiscard]] std::size_t size() const noexcept { return list_.size(); }
    /// A room that is long enough for a join.
    [[nodiscard]] std::size_t room() const noexcept { return BAGGAGE_ROOM_FOR(total_); }

private:
    std::vector<baggage_span> list_;
    std::size_t total_ = 0;
    baggage_span none_ = span_of({});
};

/// Calls with a room that grows until it is long enough, or would have more than `limit` bytes. What can't be is no memory, or a library that isn't that of the
/// header.
template <class Call> baggage_answer fill(std::string &room, std::size_t first, Call call, std::size_t limit = SIZE_MAX) {
    room.resize(first);
    for (;;) {
        const baggage_answer answer = call(room);
        if (answer.status == BAGGAGE_MEMORY)
            TERNCOMMODE_THROW(std::bad_alloc());
        if (answer.status != BAGGAGE_ROOM || answer.size > limit) {
            room.resize(answer.status == BAGGAGE_OK ? answer.size : 0);
            return answer;
        }
        room.resize(answer.size);
    }
}

/// The result of a call that no argument can make fail.
template <class Call> std::string filled(std::size_t first, Call call) {
    std::string room;
    if (fill(room, first, call).status != BAGGAGE_OK)
        std::terminate(); // the library isn't that of the header
    return room;
}

constexpr std::uint64_t within(form as, std::uint64_t budget) noexcept {
    const std::uint64_t least = as == form::two ? 13 : 1;
    return budget < least ? least : budget;
}

inline std::string join(form as, const spans &inputs, std::uint64_t budget) {
    return filled(inputs.room(), [&](std::string &room) {
        return baggage_join(static_cast<std::uint32_t>(as), inputs.data(), inputs.size(), within(as, budget), room_of(room), room.size());
    });
}

inline refusal refusal_of(const baggage_answer &answer) noexcept {
    switch (answer.status) {
    case BAGGAGE_TABLE: return {refusal::cause::bad_table, answer.offset, 0, 0, answer.code, 0};
    case BAGGAGE_FIELD: return {refusal::cause::no_field, answer.offset, 0, 0, 0, 0};
    case BAGGAGE_WRITE: return {refusal::cause::bad_write, answer.offset, 0, 0, 0, 0};
    case BAGGAGE_FAULT: return {refusal::cause::bad_bytes, 0, answer.context, answer.offset, answer.code, 0};
    case BAGGAGE_TYPE: return {refusal::cause::ill_typed, 0, answer.context, answer.offset, 0, 0};
    case BAGGAGE_ROOM: return {refusal::cause::too_long, 0, 0, 0, 0, answer.size};
    default: std::terminate(); // the library isn't that of the header
    }
}

template <class Range> using element_of = std::decay_t<decltype(*std::begin(std::declval<const Range &>()))>;

template <class Range, class Element, class = void> struct is_range_of : std::false_type {};
template <class Range, class Element>
struct is_range_of<Range, Element, std::void_t<element_of<Range>>> : std::is_convertible<element_of<Range>, Element> {};

template <class Range> using iterator_of = std::decay_t<decltype(std::begin(std::declval<const Range &>()))>;

/// Whether the elements of a range stay while it is gone through: it gives references to them, and can be gone through again. Where it can't, or
/// gives values, an element may be gone at the next step.
template <class Range, class = void> struct is_lasting : std::false_type {};
template <class Range>
struct is_lasting<Range, std::void_t<typename std::iterator_traits<iterator_of<Range>>::iterator_category>>
    : std::bool_constant<std::is_lvalue_reference_v<decltype(*std::begin(std::declval<const Range &>()))> &&
                         std::is_base_of_v<std::forward_iterator_tag, typename std::iterator_traits<iterator_of<Range>>::iterator_category>> {};

/// The same of a range whose elements are of this class, and not only made into ones of it.
template <class Range, class Element> inline constexpr bool is_lasting_of = is_lasting<Range>::value && std::is_base_of_v<Element, element_of<Range>>;

/// Whether an element only points to its letters, which stay when it is gone.
template <class Element>
inline constexpr bool is_view = std::is_same_v<Element, std::string_view> || std::is_same_v<Element, const char *> || std::is_same_v<Element, char *>;

} // namespace detail

/// A context. It is always valid, a copy of it is a branch, and one that was moved from is the empty one.
class context {
public:
    /// The empty context: nothing is said, and all of it is exact.
    context() noexcept = default;
    context(const context &) = default;
    context(context &&other) noexcept : bytes_(std::move(other.bytes_)) { other.bytes_.clear(); }
    context &operator=(const context &) = default;
    context &operator=(context &&other) noexcept {
        if (this != &other) {
            bytes_ = std::move(other.bytes_);
            other.bytes_.clear();
        }
        return *this;
    }
    ~context() = default;

    /// What stands for a context that was promised and can't be read: every field is partial.
    [[nodiscard]] static context lost() { return context(std::string(1, '\0')); }

    /// The context with these bytes, which may be in either form.
    [[nodiscard]] static result<context, fault> from(std::string_view bytes) {
        const baggage_answer checked = baggage_check(detail::bytes_of(bytes), bytes.size());
        if (checked.status != BAGGAGE_OK)
            return unexpected<fault>(fault{checked.offset, static_cast<baggage_code>(checked.code)});
        return context(in_form(form::one, bytes));
    }

    /// The merge of any number of contexts.
    template <class Range> [[nodiscard]] static context join(const Range &contexts) {
        if constexpr (detail::is_lasting_of<Range, context>) {
            detail::spans inputs;
            for (const context &each : contexts)
                inputs.add(each.bytes_);
            return context(detail::join(form::one, inputs, no_budget));
        } else {
            return join(kept(contexts));
        }
    }

    /// The context within a budget of bytes in a form. A budget that nothing fits into is raised to the least one, 1 or 13.
    [[nodiscard]] context cut(std::uint64_t budget, form as = form::one) const {
        detail::spans inputs;
        inputs.add(bytes_);
        std::string bytes = detail::join(as, inputs, budget);
        return context(as == form::one ? std::move(bytes) : in_form(form::one, bytes));
    }

    /// The bytes, in form two also where an atom is too long for form one.
    [[nodiscard]] std::string bytes(form as = form::one) const { return as == form::one ? bytes_ : in_form(as, bytes_); }

    /// The bytes in form one, as long as the context stays.
    [[nodiscard]] std::string_view view() const noexcept { return bytes_; }

    /// Whether nothing is said, and nothing is missing.
    [[nodiscard]] bool empty() const noexcept { return bytes_.empty(); }

    [[nodiscard]] friend context operator|(const context &a, const context &b) {
        detail::spans inputs;
        inputs.add(a.bytes_);
        inputs.add(b.bytes_);
        return context(detail::join(form::one, inputs, no_budget));
    }
    context &operator|=(const context &other) { return *this = *this | other; }
    [[nodiscard]] friend bool operator==(const context &a, const context &b) noexcept { return a.bytes_ == b.bytes_; }
    [[nodiscard]] friend bool operator!=(const context &a, const context &b) noexcept { return a.bytes_ != b.bytes_; }

private:
    friend class bag;
    template <class Values> friend context extract(const Values &values, const context &absent);

    explicit context(std::string bytes) noexcept : bytes_(std::move(bytes)) {}

    /// The contexts of a range that may give them by value, to be kept for a call.
    template <class Range> static std::vector<context> kept(const Range &contexts) {
        std::vector<context> all;
        for (auto &&each : contexts)
            all.push_back(std::forward<decltype(each)>(each));
        return all;
    }

    static std::string in_form(form as, std::string_view bytes) {
        detail::spans inputs;
        inputs.add(bytes);
        return detail::join(as, inputs, no_budget);
    }

    std::string bytes_; // a context's, in form one, or in form two where an atom is too long; so equal contexts have equal bytes
};

// ---- carriers

/// The value of a header that carries the context.
[[nodiscard]] inline std::string to_header(const context &it) {
    const std::string_view bytes = it.view();
    std::string text(baggage_header_letters(bytes.size()), '\0');
    text.resize(baggage_to_header(&text[0], detail::bytes_of(bytes), bytes.size()));
    return text;
}

/// The context that the values of a header carry, one for each line that came. What can't be read is lost. `absent` stands for no value at all:
/// `context()` at an edge, `context::lost()` inside.
template <class Values> [[nodiscard]] context extract(const Values &values, const context &absent) {
    if constexpr (detail::is_lasting<Values>::value || detail::is_view<detail::element_of<Values>>) {
        detail::spans inputs;
        std::size_t total = 0;
        for (const auto &each : values) {
            const std::string_view value(each);
            inputs.add(value);
            total += value.size();
        }
        if (!inputs.size())
            return absent;
        std::string room(BAGGAGE_EXTRACT_ROOM(total), '\0');
        room.resize(baggage_extract(detail::room_of(room), inputs.data(), inputs.size(), BAGGAGE_ABSENT_LOST, nullptr));
        room.shrink_to_fit();
        return context(std::move(room));
    } else {
        std::vector<std::string> kept;
        for (const auto &each : values)
            kept.emplace_back(std::string_view(each));
        return extract(kept, absent);
    }
}

/// The context that one value of a header carries.
[[nodiscard]] inline context from_header(std::string_view value) {
    const std::string_view values[] = {value};
    return extract(values, context::lost());
}

/// What is sent over a carrier of bytes: form two, of which no part is taken for the whole.
[[nodiscard]] inline std::string to_binary(const context &it) { return it.bytes(form::two); }

/// The context that came over a carrier of bytes, in form two, or in form one from older senders. It is lost where the bytes are none, or no context's.
[[nodiscard]] inline context from_binary(std::string_view bytes) {
    if (bytes.empty())
        return context::lost();
    auto read = context::from(bytes);
    return read ? std::move(*read) : context::lost();
}

/// The check of the first part of a header's value, which a reply to it has in its header `terncommode-for`; "" where there is none.
[[nodiscard]] inline std::string_view check_of(std::string_view value) noexcept {
    const char *check = baggage_check_of(detail::text_of(value), value.size());
    return check ? std::string_view(check, 6) : std::string_view();
}

/// The context of a reply with these values and with this value of `terncommode-for`, to the request that was sent with the value `sent`. A reply to another
/// request, as a shared cache gives it, is lost, and so is one that doesn't say which.
template <class Values> [[nodiscard]] context extract_reply(const Values &values, std::string_view answers, std::string_view sent) {
    if (!baggage_is_answer(detail::text_of(answers), answers.size(), detail::text_of(sent), sent.size()))
        return context::lost();
    return extract(values, context::lost());
}

/// The value of Cache-Control of a reply that carries a context, of which this was the value: no shared cache answers another request with it.
[[nodiscard]] inline std::string no_cache(std::string_view value = {}) {
    const std::string_view directive = BAGGAGE_NO_CACHE;
    if (value.find_first_not_of(" \t") == std::string_view::npos)
        return std::string(directive);
    return std::string(value) + (value.find(directive) == std::string_view::npos ? ", " + std::string(directive) : "");
}

namespace detail {

/// Whether this is the name of a header, which counts in any case.
inline bool is_named(std::string_view it, std::string_view name) noexcept {
    return it.size() == name.size() && std::equal(it.begin(), it.end(), name.begin(), [](char one, char other) {
        return (one >= 'A' && one <= 'Z' ? one - 'A' + 'a' : one) == other;
    });
}

/// The values that a map or a multimap has under a name in lower case.
template <class Headers> std::vector<std::string_view> values_of(const Headers &headers, std::string_view name) {
    std::vector<std::string_view> values;
    for (const auto &each : headers)
        if (is_named(each.first, name))
            values.emplace_back(each.second);
    return values;
}

/// Sets the one value under a name in lower case.
template <class Headers> void set_value(Headers &headers, std::string_view name, const std::string &value) {
    for (auto each = headers.begin(); each != headers.end();)
        each = is_named(each->first, name) ? headers.erase(each) : std::next(each);
    if (!value.empty())
        headers.emplace(std::string(name), value);
}

} // namespace detail

/// Sets the header in a map of names to values, in place of any that is there, in whatever case.
template <class Headers> void inject(Headers &headers, const context &it) { detail::set_value(headers, header_name, to_header(it)); }

/// The context of all values that a map or a multimap has under the header's name, in whatever case.
template <class Headers> [[nodiscard]] context extract_from(const Headers &headers, const context &absent) {
    return extract(detail::values_of(headers, header_name), absent);
}

/// Sets what a reply says in a map of its headers: the context, the request that it answers, of whose headers `request` is the map, and Cache-Control.
template <class Headers, class Others> void inject_reply(Headers &headers, const context &it, const Others &request) {
    inject(headers, it);
    const std::vector<std::string_view> came = detail::values_of(request, header_name);
    detail::set_value(headers, for_header_name, std::string(came.empty() ? std::string_view() : check_of(came.front())));
    std::string value;
    for (const std::string_view each : detail::values_of(headers, "cache-control"))
        value += (value.empty() ? "" : ", ") + std::string(each);
    detail::set_value(headers, "cache-control", no_cache(value));
}

/// The context of a reply in a map of its headers, to the request that was sent with the value `sent`: as extract_reply.
template <class Headers> [[nodiscard]] context extract_reply_from(const Headers &headers, std::string_view sent) {
    const std::vector<std::string_view> answers = detail::values_of(headers, for_header_name);
    return extract_reply(detail::values_of(headers, header_name), answers.size() == 1 ? answers.front() : std::string_view(), sent);
}

/// A text as it may be shown to people: what a terminal or a log could obey has an escape in its place, line feeds too.
[[nodiscard]] inline std::string visible(std::string_view text) {
    std::string shown(baggage_put_visible(nullptr, detail::bytes_of(text), text.size()), '\0');
    baggage_put_visible(&shown[0], detail::bytes_of(text), text.size());
    return shown;
}

// ---- bags

/// The literal of a string, as a write has it.
[[nodiscard]] inline std::string quote(std::string_view text) {
    std::string literal(BAGGAGE_QUOTE_ROOM(text.size()), '\0');
    literal.resize(baggage_quote(BAGGAGE_STRING, text.data(), text.size(), &literal[0], literal.size()).size);
    return literal;
}

/// What a service writes: paths, each with a text as in a `set` of a graph.
class writes {
public:
    /// `set("id", "4711")`, `set("tags", quote("spring"))`, `set("hops", quote("cart") + ":3")`, `set("debug", "on")`.
    writes &set(std::string_view path, std::string_view text) & {
        // A blank or a line feed would make another write of it; no slot has the empty path, and no write the empty text.
        if (path.find_first_of(" \n") == std::string_view::npos)
            lines_ += path;
        lines_ += ' ';
        if (text.find('\n') == std::string_view::npos)
            lines_ += text;
        lines_ += '\n';
        return *this;
    }
    writes &&set(std::string_view path, std::string_view text) && { return std::move(set(path, text)); }

    /// What a writer has counted in all: the greatest count of each writer stays. A writer is one visit of one service, whose name is 8 random bytes; `request::count`
    /// in baggage_request.hpp draws it and keeps the count.
    writes &count(std::string_view path, std::string_view writer, std::uint64_t total) & {
        static constexpr char digits[] = "0123456789abcdef";
        std::string text = "0x";
        for (const char each : writer) {
            const auto byte = static_cast<unsigned char>(each);
            text += digits[byte >> 4];
            text += digits[byte & 15];
        }
        return set(path, text + ":" + std::to_string(total));
    }
    writes &&count(std::string_view path, std::string_view writer, std::uint64_t total) && { return std::move(count(path, writer, total)); }

    [[nodiscard]] const std::string &lines() const noexcept { return lines_; }

private:
    std::string lines_;
};

/// What a context says of a field, and whether that is all that was said.
template <class T> struct field {
    T value;
    bool exact;

    friend bool operator==(const field &a, const field &b) { return a.value == b.value && a.exact == b.exact; }
    friend bool operator!=(const field &a, const field &b) { return !(a == b); }
};

/// What is let in at most of what strangers send.
struct limits {
    std::size_t letters = 8192;            ///< of all values of the header together; where they have more, nothing of them is read
    std::size_t parts = 16;                ///< of all values, between commas
    std::size_t text = 1024;               ///< the letters of a literal: of a string, of bytes, of a key, of a struct; never more than `letters`
    std::uint64_t budget = request_budget; ///< the bytes of the context, in form one
    bool drops_partial = false;            ///< the request begins here: what isn't whole is left out, and nothing is said of it
};

/// What a service knows: the table of a definition, or a part of it. A copy is as good as the first, and one that was moved from knows no field.
class bag {
public:
    /// The bag that knows no field.
    bag() noexcept = default;
    bag(const bag &) = default;
    bag(bag &&other) noexcept : table_(std::move(other.table_)), form_(other.form_) { other.table_.clear(); }
    bag &operator=(const bag &) = default;
    bag &operator=(bag &&other) noexcept {
        if (this != &other) {
            table_ = std::move(other.table_);
            form_ = other.form_;
            other.table_.clear();
        }
        return *this;
    }
    ~bag() = default;

    /// The bag of a table's text, as `baggage table FILE BAG` prints it.
    [[nodiscard]] static result<bag, refusal> from(std::string_view table) {
        const baggage_answer checked = baggage_check_table(detail::text_of(table), table.size());
        if (checked.status == BAGGAGE_MEMORY)
            TERNCOMMODE_THROW(std::bad_alloc());
        if (checked.status != BAGGAGE_OK)
            return unexpected<refusal>(detail::refusal_of(checked));
        return bag(std::string(table));
    }

    /// The bag that knows the fields at these paths alone, of a slot or of a bag.
    template <class Paths> [[nodiscard]] result<bag, refusal> only(const Paths &paths) const;
    [[nodiscard]] result<bag, refusal> only(std::initializer_list<std::string_view> paths) const { return only<std::initializer_list<std::string_view>>(paths); }

    /// The same bag in a form: its budgets count the bytes of that form, and a datum that is written may have 65,534 bytes in form one and
    /// 1,048,575 in form two.
    [[nodiscard]] bag in_form(form as) const {
        bag other(*this);
        other.form_ = as;
        return other;
    }

    [[nodiscard]] std::string_view table() const noexcept { return table_.empty() ? std::string_view("baggage table 1\n") : std::string_view(table_); }

    /// The name paths of the slots, in the table's order.
    [[nodiscard]] std::vector<std::string> slots() const;

    /// One step of this service: the merge of the inputs and of what is written, in normal form, cut to the budget.
    template <class Range, std::enable_if_t<detail::is_range_of<Range, context>::value, int> = 0>
    [[nodiscard]] result<context, refusal> update(const Range &inputs, const writes &said = writes(), std::uint64_t budget = no_budget) const {
        if constexpr (detail::is_lasting_of<Range, context>) {
            detail::spans spans;
            for (const context &each : inputs)
                spans.add(each.bytes_);
            return update_spans(spans, said, budget);
        } else {
            return update(context::kept(inputs), said, budget);
        }
    }
    [[nodiscard]] result<context, refusal> update(std::initializer_list<context> inputs, const writes &said = writes(), std::uint64_t budget = no_budget) const {
        return update<std::initializer_list<context>>(inputs, said, budget);
    }
    [[nodiscard]] result<context, refusal> update(const context &input, const writes &said = writes(), std::uint64_t budget = no_budget) const {
        detail::spans spans;
        spans.add(input.bytes_);
        return update_spans(spans, said, budget);
    }

    /// The context that bytes say, as this service takes it. A refusal's offset is one in these bytes.
    [[nodiscard]] result<context, refusal> receive(std::string_view bytes) const {
        detail::spans spans;
        spans.add(bytes);
        return update_spans(spans, writes(), no_budget);
    }

    /// What may leave a trust boundary: only what stands below the fields of this bag, cut to the budget.
    [[nodiscard]] context keep(const context &it, others rest, std::uint64_t budget = no_budget) const {
        detail::spans spans;
        spans.add(it.bytes_);
        return keep_spans(spans, rest, budget);
    }

    /// The context that comes in from outside, in the values of a header: of what strangers say only the fields of this bag, each read and written anew. Where
    /// anything stays outside, every field is partial, unless `drops_partial` is set. Without a value it is the empty context, since a request begins here.
    template <class Values> [[nodiscard]] context ingress(const Values &values, const limits &within = limits()) const {
        std::vector<std::string> kept;
        for (const auto &each : values)
            kept.emplace_back(std::string_view(each));
        detail::spans inputs;
        for (const std::string &each : kept)
            inputs.add(each);
        const baggage_limits as = {within.letters, within.parts, within.text, detail::within(form::one, within.budget), within.drops_partial};
        std::string scratch(BAGGAGE_INGRESS_SCRATCH(within.letters, table().size()), '\0');
        return context(detail::filled(256, [&](std::string &into) {
            return baggage_ingress(inputs.data(), inputs.size(), table().data(), table().size(), &as, &scratch[0], scratch.size(), detail::room_of(into), into.size());
        }));
    }

    /// The text of a field's value, as `baggage decode` prints it, of at most `limit` bytes.
    [[nodiscard]] result<field<std::string>, refusal> text(const context &it, std::string_view path, std::size_t limit = text_limit) const {
        std::string room;
        const baggage_answer answer = detail::fill(room, 64, [&](std::string &into) {
            return baggage_read_field(table().data(), table().size(), detail::bytes_of(it.bytes_), it.bytes_.size(), detail::text_of(path), path.size(), &into[0],
                                      into.size());
        }, limit);
        if (answer.status != BAGGAGE_OK)
            return unexpected<refusal>(detail::refusal_of(answer));
        return field<std::string>{std::move(room), answer.code == BAGGAGE_EXACT};
    }

    /// The text that `baggage decode` prints of the context, with its bytes in a form, of at most `limit` bytes.
    [[nodiscard]] result<std::string, refusal> report(const context &it, form as = form::one, std::size_t limit = text_limit) const {
        const std::string bytes = it.bytes(as);
        std::string room;
        const baggage_answer answer = detail::fill(room, 256, [&](std::string &into) {
            return baggage_report(BAGGAGE_TEXT, table().data(), table().size(), detail::bytes_of(bytes), bytes.size(), &into[0], into.size());
        }, limit);
        if (answer.status != BAGGAGE_OK)
            return unexpected<refusal>(detail::refusal_of(answer));
        return room;
    }

private:
    explicit bag(std::string table) : table_(std::move(table)) {}

    result<context, refusal> update_spans(const detail::spans &inputs, const writes &said, std::uint64_t budget) const {
        std::string room;
        const std::string &lines = said.lines();
        const baggage_answer answer = detail::fill(room, inputs.room() + 2 * lines.size(), [&](std::string &into) {
            return baggage_update(static_cast<std::uint32_t>(form_), table().data(), table().size(), inputs.data(), inputs.size(), lines.data(), lines.size(),
                                  detail::within(form_, budget), detail::room_of(into), into.size());
        });
        if (answer.status != BAGGAGE_OK)
            return unexpected<refusal>(detail::refusal_of(answer));
        return made(std::move(room));
    }

    context keep_spans(const detail::spans &inputs, others rest, std::uint64_t budget) const {
        return made(detail::filled(inputs.room(), [&](std::string &into) {
            return baggage_keep(static_cast<std::uint32_t>(form_), static_cast<std::uint32_t>(rest), table().data(), table().size(), inputs.data(),
                                inputs.size(), detail::within(form_, budget), detail::room_of(into), into.size());
        }));
    }

    /// The context of what the library has written in this bag's form.
    context made(std::string bytes) const { return context(form_ == form::one ? std::move(bytes) : context::in_form(form::one, bytes)); }

    std::string table_; // a table's, or empty, for the one that has no field
    form form_ = form::one;
};

namespace detail {

/// A line of a table: how deep it stands, its name path, whether it is a bag's, and where its text is.
struct table_line {
    std::size_t depth;
    std::string path;
    bool is_bag;
    std::string_view text;
};

/// The lines of a table after its head. Inside the values of a map there is no path.
inline std::vector<table_line> lines_of(std::string_view table) {
    std::vector<table_line> lines;
    std::vector<std::string> names;
    std::size_t inside = 0; // the depth of the outermost map to bags that is open, and one more; 0 where there is none
    for (std::size_t from = table.find('\n') + 1; from < table.size();) {
        const std::size_t feed = table.find('\n', from);
        const std::string_view line = table.substr(from, feed + 1 - from);
        from = feed + 1;
        const std::size_t first = line.find(' '), second = line.find(' ', first + 1), third = line.find(' ', second + 1);
        const std::size_t depth = std::strtoul(std::string(line.substr(0, first)).c_str(), nullptr, 10);
        const std::string_view shape = line.substr(third + 1, line.size() - third - 2);
        if (inside > depth)
            inside = 0;
        names.resize(depth);
        names.emplace_back(line.substr(second + 1, third - second - 1));
        std::string path;
        if (!inside)
            for (const std::string &name : names)
                path += (path.empty() ? "" : ".") + name;
        if (!inside && shape.substr(0, 4) == "map ")
            inside = depth + 1;
        lines.push_back({depth, std::move(path), shape == "bag", line});
    }
    return lines;
}

inline bool is_at_or_below(std::string_view path, std::string_view top) noexcept {
    return path.substr(0, top.size()) == top && (path.size() == top.size() || path[top.size()] == '.');
}

} // namespace detail

inline std::vector<std::string> bag::slots() const {
    std::vector<std::string> names;
    for (detail::table_line &line : detail::lines_of(table()))
        if (!line.path.empty() && !line.is_bag)
            names.push_back(std::move(line.path));
    return names;
}

template <class Paths> result<bag, refusal> bag::only(const Paths &paths) const {
    const std::vector<detail::table_line> lines = detail::lines_of(table());
    std::vector<bool> kept(lines.size(), false);
    for (const auto &each : paths) {
        const std::string_view path(each);
        bool found = false, below = false;
        for (std::size_t k = 0; k < lines.size(); k++) {
            const bool has_path = !lines[k].path.empty();
            below = has_path ? detail::is_at_or_below(lines[k].path, path) : below; // what is inside a map goes with the map
            found = found || (has_path && lines[k].path == path);
            if (below || (has_path && lines[k].is_bag && detail::is_at_or_below(path, lines[k].path)))
                kept[k] = true;
        }
        if (!found)
            return unexpected<refusal>(refusal{refusal::cause::no_field});
    }
    std::string table = "baggage table 1\n";
    for (std::size_t k = 0; k < lines.size(); k++)
        if (kept[k])
            table += lines[k].text;
    bag other(std::move(table));
    other.form_ = form_;
    return other;
}

} // namespace TERNCOMMODE_RESULT
} // namespace terncommode

template <> struct std::hash<terncommode::context> {
    std::size_t operator()(const terncommode::context &it) const noexcept { return std::hash<std::string_view>()(it.view()); }
};

#undef TERNCOMMODE_THROW

#endif
