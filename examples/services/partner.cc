// The partner of the shop: it gets a copy of each context that is cut to 64 bytes, and answers with an empty reply.
//
//     partner     serves on a free port, which it prints
//
// TABLE names the file of the table, and RECORDING the folder for the log; without it nothing is recorded. WAIT_SECONDS says how long a client is
// waited for, 10 where it isn't set.
#include <fcntl.h>

#include <algorithm>
#include <fstream>
#include <iostream>
#include <iterator>
#include <memory>
#include <mutex>
#include <system_error>
#include <thread>

#include "baggage.hpp"
#include "http.h"

using terncommode::context;

namespace {

std::string digits(const context &it) {
    static const char letters[] = "0123456789abcdef";
    std::string text;
    for (const char letter : it.bytes()) {
        const auto byte = static_cast<unsigned char>(letter);
        text += letters[byte >> 4];
        text += letters[byte & 15];
    }
    return text.empty() ? "-" : text;
}

/// All values of a header.
std::vector<std::string_view> values_of(const head &message, const char *name) {
    baggage_span spans[VALUES_MAX];
    const std::size_t count = header_values(&message, name, spans);
    std::vector<std::string_view> values;
    if (count <= VALUES_MAX)
        for (std::size_t k = 0; k < count; k++)
            values.emplace_back(reinterpret_cast<const char *>(spans[k].bytes), spans[k].length);
    return values;
}

/// A connection, which is closed at the end.
class connection {
public:
    explicit connection(int it) noexcept : it_(it) {}
    connection(connection &&other) noexcept : it_(std::exchange(other.it_, -1)) {}
    connection(const connection &) = delete;
    connection &operator=(const connection &) = delete;
    connection &operator=(connection &&) = delete;
    ~connection() {
        if (it_ >= 0)
            close(it_);
    }
    [[nodiscard]] int socket() const noexcept { return it_; }

private:
    int it_;
};

/// The partner's steps, each recorded by one write to a file that only grows.
class recorder {
public:
    recorder(terncommode::bag knows, const char *folder) : knows_(std::move(knows)) {
        name_instance(instance_, "partner");
        if (!folder)
            return;
        log_ = open((std::string(folder) + "/" + instance_ + ".log").c_str(), O_WRONLY | O_APPEND | O_CREAT | O_CLOEXEC, 0600);
        if (log_ < 0)
            perror("partner: nothing is recorded");
    }

    /// A message came. Where it names no step, or hasn't one context that can be read, it is recorded as one from outside. Where it isn't typed as
    /// the table says, it stays as it is: whoever doesn't know a field hands it on so.
    void receive(const head &message, unsigned long number) {
        const auto values = values_of(message, BAGGAGE_HEADER);
        const context came = terncommode::extract(values, context::lost());
        const context here = knows_.update(came).value_or(came);
        char sender[NAME_MAX_LEN];
        read_sender(&message, sender);
        std::string line = instance_ + ("." + std::to_string(number));
        const bool is_single = values.size() == 1 && values[0].find(',') == std::string_view::npos;
        line += is_single && std::strcmp(sender, "-") != 0 && came != context::lost() ? "\tforward\t" : "\trecv\t";
        append(line + sender + "\t" + digits(came) + "\t" + digits(here) + "\n");
    }

private:
    /// A line that can't be written whole is the last one: the service goes on without its log.
    void append(const std::string &line) {
        const std::lock_guard<std::mutex> alone(lock_);
        if (log_ < 0 || write(log_, line.data(), line.size()) == static_cast<ssize_t>(line.size()))
            return;
        std::cerr << "partner: the log can't be written, and nothing more is recorded\n";
        close(log_);
        log_ = -1;
    }

    terncommode::bag knows_;
    char instance_[NAME_MAX_LEN / 2];
    std::mutex lock_;
    int log_ = -1;
};

/// A request's life here. Whatever happens to it, the others go on.
void serve(recorder &log, const connection &client, unsigned long number) noexcept {
    static const char reply[] = "HTTP/1.1 204 No Content\r\nConnection: close\r\n\r\n";
    try {
        const auto message = std::make_unique<head>();
        const arrival came = read_head(client.socket(), message.get());
        if (came == HEAD_CAME) {
            log.receive(*message, number);
            send_all(client.socket(), reply, sizeof reply - 1);
        } else if (came == REFUSED) {
            refuse_head(client.socket());
        }
    } catch (const std::exception &error) {
        std::cerr << "partner: " << error.what() << "\n";
    }
}

/// The table that the partner knows; it ends without one.
terncommode::bag known() {
    const char *path = std::getenv("TABLE");
    std::ifstream file(path ? path : "");
    const std::string table{std::istreambuf_iterator<char>(file), {}};
    auto all = terncommode::bag::from(table);
    if (auto knows = all ? all->only({"id", "tags"}) : std::move(all))
        return *std::move(knows);
    std::cerr << "partner: TABLE names no table with id and tags\n";
    std::exit(1);
}

} // namespace

int main() {
    recorder log(known(), std::getenv("RECORDING"));
    const int listener = listen_and_tell();
    for (unsigned long number = 1;; number++) {
        connection client(accept_next(listener));
        try {
            std::thread([&log, number, client = std::move(client)] { serve(log, client, number); }).detach();
        } catch (const std::system_error &) {
            pause_for_others(); // there is no thread for it
        }
    }
}
