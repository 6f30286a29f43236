// Memory that is refused to a call of the library: one of its requests, or one and all that follow. The answer has to be the call's own, or out of memory
// with the room as it was, and all memory has to be given back. Whoever includes this is linked with -Wl,--wrap=malloc,--wrap=realloc,--wrap=free, which
// stand before the library's requests and not before those of C++.
#ifndef REFUSING_HH
#define REFUSING_HH

#include "judge.hh"

namespace refusing {

// What is asked for while a call is watched: how many requests it made, which are refused (0 is none), and how many blocks it holds.
struct Requests {
    bool watched;
    long made, alone, from, held;

    bool is_refused() {
        made += watched;
        return watched && (made == alone || (from && made >= from));
    }
};

inline Requests &requests() {
    static Requests them;
    return them;
}

// How many calls there were, how many of them answered that there is no memory, and how many what they answer otherwise.
struct Counts {
    unsigned long calls, wanting, own;
};

inline Counts &counts() {
    static Counts them;
    return them;
}

} // namespace refusing

extern "C" {
void *__real_malloc(size_t size);
void *__real_realloc(void *old, size_t size);
void __real_free(void *block);

void *__wrap_malloc(size_t size) {
    refusing::Requests &them = refusing::requests();
    if (them.is_refused())
        return nullptr;
    them.held += them.watched;
    return __real_malloc(size);
}

void *__wrap_realloc(void *old, size_t size) {
    refusing::Requests &them = refusing::requests();
    if (them.is_refused())
        return nullptr;
    them.held += them.watched && !old;
    return __real_realloc(old, size);
}

void __wrap_free(void *block) {
    refusing::Requests &them = refusing::requests();
    them.held -= them.watched && block;
    __real_free(block);
}
}

namespace refusing {

// One call under refusals; it answers how many requests it made.
inline long call(const cases::Case &it, const slow::Answer &wanted, long alone, long from) {
    judge::Placed at = judge::place(it);
    size_t size = judge::room_for(it, wanted);
    uint8_t *room = judge::arenas().room.there + judge::arena_size - size;
    memset(room - judge::zone, judge::canary, size + judge::zone);
    requests() = {true, 0, alone, from, 0};
    baggage_answer got = judge::call(it, at, room, size);
    requests().watched = false;
    if (requests().held != 0)
        judge::differs(it, "memory isn't given back");
    slow::Bytes written = it.call == cases::places ? judge::as_bytes(wanted.places) : wanted.written;
    baggage_answer no_memory = slow::refused(BAGGAGE_MEMORY).told;
    bool is_own = memcmp(&got, &wanted.told, sizeof got) == 0, is_wanting = memcmp(&got, &no_memory, sizeof got) == 0;
    if (!is_own && !((alone || from) && is_wanting))
        judge::differs(it, "another answer where memory is refused");
    if (is_own && memcmp(room, written.data(), written.size()) != 0)
        judge::differs(it, "other bytes where memory is refused");
    for (uint8_t *byte = room - judge::zone; is_wanting && byte < room + size; byte++)
        if (*byte != judge::canary)
            judge::differs(it, "the room changed where memory is refused");
    bool takes_none = it.call == cases::check || (it.call == cases::join && it.inputs.size() < 3);
    if (takes_none && requests().made != 0)
        judge::differs(it, "a call took memory that takes none");
    counts().calls++;
    counts().wanting += is_wanting;
    counts().own += is_own;
    return requests().made;
}

// The request with this number, counted around, alone and with all that follow.
inline void try_one(const cases::Case &it, const slow::Answer &wanted, uint64_t number) {
    if (judge::room_for(it, wanted) + judge::zone > judge::arena_size)
        return;
    long made = call(it, wanted, 0, 0);
    if (made == 0)
        return;
    long chosen = 1 + static_cast<long>(number % static_cast<uint64_t>(made));
    call(it, wanted, chosen, 0);
    call(it, wanted, 0, chosen);
}

} // namespace refusing

#endif
