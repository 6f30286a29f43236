// The slow implementation behind the exports of the library, so that what tries the library tries it too: tools/fuzz_library holds it to the program
// and to vectors/second.py.
#include <cstring>

#include "slow_calls.hh"

using slow::Bytes;

static Bytes bytes_of(const void *bytes, size_t size) { return size ? Bytes(static_cast<const char *>(bytes), size) : Bytes(); }

static std::vector<Bytes> inputs_of(const baggage_span *inputs, size_t count) {
    std::vector<Bytes> found;
    for (size_t at = 0; at < count; at++)
        found.push_back(bytes_of(inputs[at].bytes, inputs[at].length));
    return found;
}

static slow::TableRead table_of(const char *table, size_t size) { return slow::read_table(bytes_of(table, size)); }

// The answer, with what is written in the room where it fits.
static baggage_answer put(const slow::Answer &answer, void *room, size_t size) {
    if (answer.told.status != BAGGAGE_OK)
        return answer.told;
    if (answer.written.size() > size)
        return slow::refused(BAGGAGE_ROOM, 0, 0, 0, answer.written.size()).told;
    if (!answer.written.empty())
        memcpy(room, answer.written.data(), answer.written.size());
    return answer.told;
}

// The answer, with the places in the array where they fit.
static baggage_answer put_places(const slow::Answer &answer, baggage_place *places, size_t places_size) {
    if (answer.told.status == BAGGAGE_OK && answer.places.size() > places_size)
        return slow::refused(BAGGAGE_ROOM, 0, 0, 0, answer.places.size()).told;
    std::copy(answer.places.begin(), answer.places.end(), places);
    return answer.told;
}

extern "C" {
uint32_t baggage_version(void) { return BAGGAGE_VERSION; }

baggage_answer baggage_check(const uint8_t *context, size_t size) { return slow::check(bytes_of(context, size)).told; }

baggage_answer baggage_join(uint32_t form, const baggage_span *inputs, size_t count, uint64_t budget, uint8_t *room, size_t room_size) {
    return put(slow::join(form, inputs_of(inputs, count), budget), room, room_size);
}

baggage_answer baggage_update(uint32_t form, const char *table, size_t table_size, const baggage_span *inputs, size_t count, const char *writes,
                              size_t writes_size, uint64_t budget, uint8_t *room, size_t room_size) {
    return put(slow::update(form, table_of(table, table_size), inputs_of(inputs, count), bytes_of(writes, writes_size), budget), room, room_size);
}

baggage_answer baggage_keep(uint32_t form, uint32_t others, const char *table, size_t table_size, const baggage_span *inputs, size_t count,
                            uint64_t budget, uint8_t *room, size_t room_size) {
    return put(slow::keep(form, others, table_of(table, table_size), inputs_of(inputs, count), budget), room, room_size);
}

baggage_answer baggage_places(const char *table, size_t table_size, const uint8_t *context, size_t size, baggage_place *places, size_t places_size) {
    return put_places(slow::places(table_of(table, table_size), bytes_of(context, size)), places, places_size);
}

baggage_answer baggage_chosen_places(const char *table, size_t table_size, const size_t *chosen, size_t chosen_size, const uint8_t *context,
                                     size_t size, baggage_place *places, size_t places_size) {
    std::vector<size_t> numbers(chosen, chosen + chosen_size);
    return put_places(slow::chosen_places(table_of(table, table_size), numbers, bytes_of(context, size)), places, places_size);
}

baggage_answer baggage_report(uint32_t as, const char *table, size_t table_size, const uint8_t *context, size_t size, char *room, size_t room_size) {
    return put(slow::report(as, table_of(table, table_size), bytes_of(context, size)), room, room_size);
}

baggage_answer baggage_read_field(const char *table, size_t table_size, const uint8_t *context, size_t size, const char *name, size_t name_size,
                                  char *room, size_t room_size) {
    return put(slow::read_field(table_of(table, table_size), bytes_of(context, size), bytes_of(name, name_size)), room, room_size);
}

baggage_answer baggage_write_field(uint32_t form, const char *table, size_t table_size, const char *name, size_t name_size, const char *text,
                                   size_t text_size, uint8_t *room, size_t room_size) {
    return put(slow::write_field(form, table_of(table, table_size), bytes_of(name, name_size), bytes_of(text, text_size)), room, room_size);
}

baggage_answer baggage_check_table(const char *table, size_t size) { return slow::check_table(table_of(table, size)).told; }

baggage_answer baggage_evolve(const char *old, size_t old_size, const char *next, size_t next_size, char *room, size_t room_size) {
    return put(slow::evolve(table_of(old, old_size), table_of(next, next_size)), room, room_size);
}

baggage_answer baggage_carry(const uint8_t *context, size_t size, size_t width, char *room, size_t room_size) {
    return put(slow::carry(bytes_of(context, size), width), room, room_size);
}

baggage_answer baggage_quote(uint32_t literal, const char *text, size_t text_size, char *room, size_t room_size) {
    return put(slow::quote(literal, bytes_of(text, text_size)), room, room_size);
}

baggage_answer baggage_collect(const char *lines, size_t size, uint8_t *room, size_t room_size) {
    return put(slow::collect(bytes_of(lines, size)), room, room_size);
}
}
