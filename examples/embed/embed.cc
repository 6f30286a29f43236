// A few lines of C++ over the library: the context of two branches, and a field that is written and read by its name. It says nothing where
// all is well.
#include <cstdint>
#include <cstdio>
#include <optional>
#include <string>
#include <string_view>
#include <vector>

#include "baggage.h"

using Bytes = std::vector<std::uint8_t>;

// The merge of two contexts within a budget, or nothing where one isn't a context.
static std::optional<Bytes> forwarded(const Bytes &first, const Bytes &second, std::uint64_t budget) {
    Bytes room(first.size() + second.size());
    for (;;) {
        const baggage_answer answer = baggage_forward(BAGGAGE_FORM_ONE, first.data(), first.size(), second.data(), second.size(), budget,
                                                      room.data(), room.size());
        if (answer.status == BAGGAGE_ROOM) {
            room.resize(answer.size);
            continue;
        }
        if (answer.status != BAGGAGE_OK)
            return std::nullopt;
        room.resize(answer.size);
        return room;
    }
}

// What the `table` command prints of a definition.
static constexpr std::string_view table = "baggage table 1\n0 0 zone scalar string\n0 1 retries counter\n";

// What a call writes into room that grows until it is long enough, or nothing where the call is refused.
template <class Room, class Call> static std::optional<Room> made(Call call) {
    Room room;
    for (;;) {
        const baggage_answer answer = call(room.data(), room.size());
        if (answer.status != BAGGAGE_OK && answer.status != BAGGAGE_ROOM)
            return std::nullopt;
        const bool done = answer.status == BAGGAGE_OK;
        room.resize(answer.size);
        if (done)
            return room;
    }
}

// The context that says what a text writes to a field.
static std::optional<Bytes> written(std::string_view name, std::string_view text) {
    return made<Bytes>([&](std::uint8_t *room, std::size_t room_len) {
        return baggage_write_field(BAGGAGE_FORM_ONE, table.data(), table.size(), name.data(), name.size(), text.data(), text.size(), room,
                                   room_len);
    });
}

// The text of what a context says of a field.
static std::optional<std::string> field(const Bytes &context, std::string_view name) {
    return made<std::string>([&](char *room, std::size_t room_len) {
        return baggage_read_field(table.data(), table.size(), context.data(), context.size(), name.data(), name.size(), room, room_len);
    });
}

int main() {
    const Bytes first{2, 0xf8, 1, 2, 0, 'a'}, second{2, 0xf8, 1, 2, 0, 'b'};
    if (forwarded(first, second, 100) != Bytes{2, 0xf8, 1, 2, 0, 'a', 2, 0, 'b'})
        return std::puts("embed.cc: the merge is another"), 1;
    if (forwarded(first, second, 8) != Bytes{2, 0xf8, 1, 2, 0, 'a', 0})
        return std::puts("embed.cc: the cut is another"), 1;
    // A vector without elements may hand in null.
    if (forwarded({}, {}, 100) != Bytes{})
        return std::puts("embed.cc: the empty context is another"), 1;
    if (forwarded(first, {7}, 100))
        return std::puts("embed.cc: a faulty context was merged"), 1;
    const auto sent = written("zone", "\"north\"");
    if (!sent || field(*sent, "zone") != "\"north\"" || field(*sent, "retries") != "0{}")
        return std::puts("embed.cc: the field is another"), 1;
    if (written("zone", "north") || field(*sent, "zones"))
        return std::puts("embed.cc: what is no write or no field was taken"), 1;
    return 0;
}
