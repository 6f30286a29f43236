// The holder of a request's context in C++17, for all threads that work on the request. This header is tested, not proved.
//
// A request holds the context of one visit of a service. Whoever works on the visit shares the holder, and what it holds only grows, so that the order in which
// threads add to it doesn't matter and nothing that runs beside another is lost. A copy of a `request` is the same request; a `branch()` is another one.
//
//     terncommode::request request(bag.ingress(values));                     // a request comes in
//     terncommode::request::scope scope(request);                            // and runs in this thread
//     auto worker = std::async(std::launch::async, request.bound([] {        // and in this one
//         return terncommode::count(bag, "hops").value();
//     }));
//     auto reply = request.expect();                                         // a call: what is sent is request.current()
//     reply.began();                                                         // a byte of its reply came,
//     (void)reply.came(terncommode::extract_reply(values, answers, sent));   // and its head; a reply that began and never came is lost
//     worker.get();
//     send(to_header(request.end().cut(terncommode::reply_budget)));         // the head of our own reply is written: this is what goes back
//
// Coroutines: capture the request, and open a scope where a resumed part begins; never hold a scope over a co_await, since the thread is another one after it.
#ifndef TERNCOMMODE_BAGGAGE_REQUEST_HPP
#define TERNCOMMODE_BAGGAGE_REQUEST_HPP

#include <limits>
#include <map>
#include <memory>
#include <mutex>
#include <optional>
#include <random>

#include "baggage.hpp"

namespace terncommode {
inline namespace TERNCOMMODE_RESULT TERNCOMMODE_TAG {

/// Whether the reply to a request could still say what was added.
enum class [[nodiscard]] told {
    in_time,
    late ///< the head of the reply was written before; later calls still carry what was added
};

namespace detail {

/// What a request holds.
struct held {
    explicit held(context first) noexcept : said(std::move(first)) {}

    /// Counts for the counter that a bag has alone, with the lock held.
    result<told, refusal> count(const bag &alone, std::string_view path, std::uint64_t more);

    /// Adds to what is said, with the lock held.
    told add(const context &more) {
        said |= more;
        return changed();
    }
    told changed() noexcept {
        changes++;
        late += is_ended;
        return is_ended ? told::late : told::in_time;
    }
    /// What is sent on: as long as a reply has begun and hasn't come, anything may be missing.
    [[nodiscard]] context sent() const { return coming ? said | context::lost() : said; }

    std::mutex mutex;
    context said;
    std::uint64_t changes = 0; ///< how often `said` was changed
    std::size_t coming = 0;    ///< replies that have begun and not come, or never will
    std::size_t late = 0;
    bool is_ended = false;
    std::string writer;                                        ///< of the counts, drawn with the first
    std::map<std::string, std::uint64_t, std::less<>> counted; ///< for each counter, by the numbers on the way to it: its name may be another one elsewhere
};

/// The request that runs in this thread.
inline std::shared_ptr<held> &here() noexcept {
    static thread_local std::shared_ptr<held> running;
    return running;
}

/// The name of a writer: 8 bytes of the system's randomness.
inline std::string drawn_writer() {
    std::random_device device;
    std::string writer;
    for (int each = 0; each < 8; each++)
        writer += static_cast<char>(static_cast<unsigned char>(device() & 255U));
    return writer;
}

/// The numbers on the way to the one counter of a table; nothing where the table has anything else at this path.
inline std::optional<std::string> numbers_of(std::string_view table, std::string_view path) {
    std::string numbers;
    const std::vector<table_line> lines = lines_of(table);
    for (const table_line &line : lines) {
        const std::size_t from = line.text.find(' ');
        numbers += line.text.substr(from, line.text.find(' ', from + 1) - from);
    }
    constexpr std::string_view end = " counter\n";
    const bool is_counter = !lines.empty() && lines.back().path == path && lines.back().text.size() >= end.size() &&
                            lines.back().text.substr(lines.back().text.size() - end.size()) == end;
    return is_counter ? std::optional<std::string>(std::move(numbers)) : std::nullopt;
}

inline result<told, refusal> held::count(const bag &alone, std::string_view path, std::uint64_t more) {
    const std::optional<std::string> numbers = numbers_of(alone.table(), path);
    if (writer.empty())
        writer = drawn_writer();
    std::uint64_t none = 0, &total = numbers ? counted.emplace(*numbers, 0).first->second : none;
    if (more > std::numeric_limits<std::uint64_t>::max() - total)
        return unexpected<refusal>(refusal{refusal::cause::bad_write, 1});
    const writes write = writes().count(path, writer, total + more);
    const auto written = alone.update(context(), write);
    if (!written)
        return unexpected<refusal>(written.error());
    if (!numbers) // a map may take the text as that of an entry
        return unexpected<refusal>(refusal{refusal::cause::bad_write, 1});
    const auto made = alone.update(said, write);
    said = made ? *made : said | *written;
    total += more;
    return changed();
}

template <class Made> inline constexpr bool is_context = std::is_same_v<std::decay_t<Made>, context>;

} // namespace detail

/// A reply that is awaited. Where nothing of it comes it adds nothing; where it began and never comes, the request's context is lost. One thread at a time may use it.
class [[nodiscard]] reply {
public:
    reply(reply &&other) noexcept : held_(std::move(other.held_)), is_begun_(std::exchange(other.is_begun_, false)) {}
    reply(const reply &) = delete;
    reply &operator=(const reply &) = delete;
    reply &operator=(reply &&) = delete;
    /// As failed().
    ~reply() { failed(); }

    /// A byte of it came, or a message. From now on until it comes the request's context is lost, in what is sent too. It may be called with each message.
    void began() {
        if (!held_ || is_begun_)
            return;
        const std::lock_guard<std::mutex> lock(held_->mutex);
        held_->coming++;
        is_begun_ = true;
    }

    /// It came with this context: `context::lost()` where it has none, or one that can't be read.
    told came(const context &it) {
        if (!held_)
            return told::late;
        const std::lock_guard<std::mutex> lock(held_->mutex);
        const told when = held_->add(it);
        held_->coming -= is_begun_;
        is_begun_ = false;
        return when;
    }

    /// It won't come. What began stays lost.
    void failed() noexcept { held_.reset(); }

private:
    friend class request;
    explicit reply(std::shared_ptr<detail::held> held) noexcept : held_(std::move(held)) {}

    std::shared_ptr<detail::held> held_;
    bool is_begun_ = false;
};

/// The context of one visit of a service, shared by all that work on it. Any thread may call it at any time.
class request {
public:
    /// A request that begins with what came in.
    explicit request(context begun) : held_(std::make_shared<detail::held>(std::move(begun))) {}

    /// The request that runs in this thread, if there is one.
    [[nodiscard]] static std::optional<request> here() {
        if (!detail::here())
            return std::nullopt;
        return request(detail::here());
    }

    /// Makes a request the one that runs in this thread, until its end. Scopes end in the opposite order of their beginnings, in the thread where they began.
    class [[nodiscard]] scope {
    public:
        explicit scope(const request &runs) noexcept : before_(std::exchange(detail::here(), runs.held_)) {}
        scope(const scope &) = delete;
        scope &operator=(const scope &) = delete;
        ~scope() { detail::here() = std::move(before_); }

    private:
        std::shared_ptr<detail::held> before_;
    };

    /// A call that runs in this request, in whatever thread it is made.
    template <class Call> [[nodiscard]] auto bound(Call call) const {
        return [runs = *this, call = std::move(call)](auto &&...words) mutable -> decltype(auto) {
            const scope running(runs);
            return call(std::forward<decltype(words)>(words)...);
        };
    }

    /// What is held now, and is sent with each call. It is lost as long as a reply has begun and hasn't come.
    [[nodiscard]] context current() const {
        const std::lock_guard<std::mutex> lock(held_->mutex);
        return held_->sent();
    }

    /// Joins a context to what is held.
    told add(const context &more) {
        const std::lock_guard<std::mutex> lock(held_->mutex);
        return held_->add(more);
    }

    /// Puts what a step makes of the context in its place. The step runs without the lock, so it may come back to the request; where others added meanwhile, what
    /// it made is joined to theirs. While a reply has begun and hasn't come the step is given the lost context beside, and it stays. The step gives a context, or
    /// a result with one, and then so does this: `told`, or a result with it.
    template <class Step> auto change(Step step) {
        std::unique_lock<std::mutex> lock(held_->mutex);
        const std::uint64_t changes = held_->changes;
        const context before = held_->sent();
        lock.unlock();
        auto made = step(before);
        if constexpr (detail::is_context<decltype(made)>) {
            return put(made, changes);
        } else {
            using answer = result<told, std::decay_t<decltype(made.error())>>;
            if (!made.has_value())
                return answer(unexpected<std::decay_t<decltype(made.error())>>(std::move(made).error()));
            return answer(put(*made, changes));
        }
    }

    /// Counts for a counter of a bag, under the writer of this visit, whose name is drawn with its first count. A refusal says that the bag has no such counter, or that the
    /// count would pass 2^64.
    [[nodiscard]] result<told, refusal> count(const bag &known, std::string_view path, std::uint64_t more = 1) {
        const auto alone = known.only({path}); // so that what is ill typed elsewhere doesn't matter
        if (!alone)
            return unexpected<refusal>(alone.error());
        const std::lock_guard<std::mutex> lock(held_->mutex);
        return held_->count(*alone, path, more);
    }

    /// Another request that begins with a copy. It comes back only where somebody adds its context, and counts under a writer of its own.
    [[nodiscard]] request branch() const { return request(current()); }

    /// A reply that is awaited.
    [[nodiscard]] reply expect() const { return reply(held_); }

    /// The head of the reply, or in gRPC its trailer, is written: what goes back, which is lost where a reply has begun and not come. What is added later is late.
    [[nodiscard]] context end() {
        const std::lock_guard<std::mutex> lock(held_->mutex);
        held_->is_ended = true;
        return held_->sent();
    }

    /// How often something was added after the end.
    [[nodiscard]] std::size_t late() const {
        const std::lock_guard<std::mutex> lock(held_->mutex);
        return held_->late;
    }

private:
    explicit request(std::shared_ptr<detail::held> held) noexcept : held_(std::move(held)) {}

    told put(const context &made, std::uint64_t changes) {
        const std::lock_guard<std::mutex> lock(held_->mutex);
        if (held_->changes != changes)
            return held_->add(made);
        held_->said = made;
        return held_->changed();
    }

    std::shared_ptr<detail::held> held_;
};

// ---- the request that runs in this thread

/// What it holds; lost where none runs.
[[nodiscard]] inline context current() {
    const auto found = request::here();
    return found ? found->current() : context::lost();
}

/// As request::add; a refusal is `no_request`.
[[nodiscard]] inline result<told, refusal> add(const context &more) {
    auto found = request::here();
    if (!found)
        return unexpected<refusal>(refusal{refusal::cause::no_request});
    return found->add(more);
}

/// As request::change, of a step that gives a context or a result of one with a refusal; a refusal is that, or `no_request`.
template <class Step> [[nodiscard]] result<told, refusal> change(Step step) {
    auto found = request::here();
    if (!found)
        return unexpected<refusal>(refusal{refusal::cause::no_request});
    return found->change(std::move(step));
}

/// As request::count; a refusal is as there, or `no_request`.
[[nodiscard]] inline result<told, refusal> count(const bag &known, std::string_view path, std::uint64_t more = 1) {
    auto found = request::here();
    if (!found)
        return unexpected<refusal>(refusal{refusal::cause::no_request});
    return found->count(known, path, more);
}

} // namespace TERNCOMMODE_RESULT
} // namespace terncommode

#endif
