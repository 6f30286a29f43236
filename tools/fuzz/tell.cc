// What the slow implementation answers, for who can't be linked with it: tell FILE.. prints for each case of files like those of vectors/corpus a line of JSON, with
// the call, its arguments, the five numbers of the answer, and what is written where there is room. Bytes are digits.
#include <fstream>

#include "judge.hh"

static void tell(const cases::Case &it) {
    slow::Answer wanted = judge::expected(it);
    slow::Bytes written = judge::writes_places(it) ? judge::as_bytes(wanted.places) : wanted.written, inputs;
    std::vector<size_t> chosen = it.call == cases::chosen_places ? cases::chosen_of(it) : std::vector<size_t>();
    slow::Bytes numbers(reinterpret_cast<const char *>(chosen.data()), chosen.size() * sizeof(size_t));
    for (const slow::Bytes &input : it.inputs)
        inputs += (inputs.empty() ? "\"" : ", \"") + slow::hex(input) + "\"";
    printf("{\"call\": \"%s\", \"form\": %u, \"choice\": %u, \"budget\": \"%llu\", \"width\": \"%zu\", ", cases::call_name(it.call), it.form, it.choice,
           static_cast<unsigned long long>(it.budget), it.width);
    printf("\"table\": \"%s\", \"next\": \"%s\", \"name\": \"%s\", \"text\": \"%s\", \"inputs\": [%s], ", slow::hex(it.table).c_str(),
           slow::hex(it.next).c_str(), slow::hex(it.name).c_str(), slow::hex(it.text).c_str(), inputs.c_str());
    printf("\"chosen\": \"%s\", ", slow::hex(numbers).c_str());
    printf("\"told\": [%u, %u, %zu, %zu, %zu], \"written\": \"%s\"}\n", wanted.told.status, wanted.told.code, wanted.told.context, wanted.told.offset,
           wanted.told.size, slow::hex(written).c_str());
}

int main(int count, char **names) {
    for (int at = 1; at < count; at++) {
        std::ifstream file(names[at]);
        for (slow::Bytes line; std::getline(file, line);) {
            slow::Bytes text = cases::of_digits(line);
            tell(cases::read(reinterpret_cast<const uint8_t *>(text.data()), text.size()));
        }
    }
    return count < 2;
}
