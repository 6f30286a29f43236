// Words, digits and lines, for the programs of this folder.
#ifndef WORDS_HPP
#define WORDS_HPP

#include <iostream>
#include <iterator>
#include <optional>
#include <string>
#include <string_view>
#include <vector>

inline std::vector<std::string_view> split(std::string_view text, char at) {
    std::vector<std::string_view> parts;
    for (;;) {
        const std::size_t to = text.find(at);
        parts.push_back(text.substr(0, to));
        if (to == std::string_view::npos)
            return parts;
        text.remove_prefix(to + 1);
    }
}

inline std::string digits_of(std::string_view bytes) {
    std::string digits;
    for (const char byte : bytes) {
        digits += "0123456789abcdef"[static_cast<unsigned char>(byte) >> 4];
        digits += "0123456789abcdef"[byte & 15];
    }
    return digits.empty() ? "-" : digits;
}

inline int digit(char letter) {
    if (letter >= '0' && letter <= '9')
        return letter - '0';
    if (letter >= 'a' && letter <= 'f')
        return letter - 'a' + 10;
    return letter >= 'A' && letter <= 'F' ? letter - 'A' + 10 : -1;
}

inline std::optional<std::string> bytes_of(std::string_view digits) {
    std::string bytes;
    if (digits == "-")
        return bytes;
    if (digits.empty() || digits.size() % 2)
        return std::nullopt;
    for (std::size_t k = 0; k < digits.size(); k += 2) {
        const int high = digit(digits[k]), low = digit(digits[k + 1]);
        if (high < 0 || low < 0)
            return std::nullopt;
        bytes += static_cast<char>(16 * high + low);
    }
    return bytes;
}

inline std::string all_of(std::istream &source) { return {std::istreambuf_iterator<char>(source), std::istreambuf_iterator<char>()}; }

#endif
