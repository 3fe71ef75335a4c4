// Requests as the drivers in C++ read them, each a line, and results as they write them.
#pragma once
#include <algorithm>
#include <charconv>
#include <cstdint>
#include <cstdio>
#include <iostream>
#include <sstream>
#include <string>
#include <type_traits>
#include <vector>

using Bytes = std::string;

inline std::vector<std::string> split(const std::string &text, char at) {
    std::vector<std::string> parts;
    std::stringstream stream(text);
    for (std::string part; std::getline(stream, part, at);) parts.push_back(part);
    return parts;
}

// Who is asked what, of which segments.
struct Request {
    std::string call, who;
    uint64_t limit;
    int nesting;
    long calls, buffer;
    std::vector<unsigned> path;
    std::vector<Bytes> segments;
    std::vector<std::string> arguments;

    explicit Request(const std::string &line) {
        auto words = split(line, ' ');
        auto number = [&](int at) { return words[at] == "none" ? -1 : std::stol(words[at]); };
        call = words[0], who = words[1], limit = number(2), nesting = number(3), calls = number(4), buffer = number(5);
        if (words[6] != "root") for (auto &index : split(words[6], ',')) path.push_back(std::stoi(index));
        if (words[7] != "none") for (auto &digits : split(words[7], '|')) segments.push_back(unhex(digits));
        arguments.assign(words.begin() + 8, words.end());
    }

    static Bytes unhex(const std::string &digits) {
        Bytes bytes;
        for (size_t i = 0; i + 1 < digits.size(); i += 2) bytes.push_back(char(std::stoi(digits.substr(i, 2), nullptr, 16)));
        return bytes;
    }

    // The index and the default of a field.
    unsigned index() const { return std::stoul(arguments[1]); }
    uint64_t bits() const { return std::stoull(arguments[2], nullptr, 16); }
};

// Words of digits.
inline std::string shown(const Bytes &bytes) {
    std::string text = bytes.empty() ? "-" : "";
    for (size_t i = 0; i < bytes.size(); i++) {
        char digits[4];
        snprintf(digits, sizeof digits, i && i % 8 == 0 ? " %02x" : "%02x", uint8_t(bytes[i]));
        text += digits;
    }
    return text;
}

inline std::string shown_segments(const std::vector<Bytes> &segments) {
    std::string text;
    for (auto &segment : segments) text += (text.empty() ? "" : " | ") + shown(segment);
    return text;
}

inline std::string unread(size_t count) { return count ? "; " + std::to_string(count) + " unread" : ""; }

inline std::string hex(uint64_t number) {
    std::stringstream text;
    text << std::hex << number;
    return text.str();
}

// A number of a type: a signed one in decimal digits, and a float by the fewest that tell it.
template <typename T> std::string shown_number(T number) {
    if constexpr (std::is_floating_point<T>::value) {
        char digits[64];
        if (number != number) return "NaN";
        return std::string(digits, std::to_chars(digits, std::end(digits), number, std::chars_format::scientific).ptr);
    }
    return std::is_signed<T>::value ? std::to_string(int64_t(number)) : hex(uint64_t(number));
}

// What a call makes of a number of the type that a word names.
template <typename Call> std::string by_number(const std::string &word, Call &&call) {
    return word == "1" || word == "bool" ? call(false) : word == "8" ? call(uint8_t()) : word == "16" ? call(uint16_t())
        : word == "32" ? call(uint32_t()) : word == "64" ? call(uint64_t()) : word == "i8" ? call(int8_t())
        : word == "i16" ? call(int16_t()) : word == "i32" ? call(int32_t()) : word == "i64" ? call(int64_t())
        : word == "f32" ? call(float()) : call(double());
}

// The element code of the lists whose elements a word names.
inline int code_of(std::string elements) {
    static const char *const WORDS[] = {"void", "bool", "8", "16", "32", "64", "pointers"};
    if (elements[0] == 'i' || elements[0] == 'f') elements = elements.substr(1);
    return int(std::find(std::begin(WORDS), std::end(WORDS), elements) - std::begin(WORDS));
}

// A list: how many elements it has, and the first of them.
template <typename Element> std::string shown_elements(unsigned count, Element &&element) {
    std::string text = "list of " + std::to_string(count) + (count ? ":" : "");
    for (unsigned i = 0; i < std::min(count, 64u); i++) text += " " + element(i);
    return text + (count > 64 ? " .." : "");
}

// The results of messages of a stream, by a call that returns the next one and whether it is the last.
template <typename Next> std::string shown_stream(const Request &r, Next &&next) {
    std::string text;
    bool is_last = false;
    for (long i = 0; !is_last && (r.calls < 0 || i < r.calls); i++) text += (i ? "\t" : "") + next(is_last);
    return text;
}

// Writes the results of each request on standard input in a line.
template <typename ResultsOf> int write_results(ResultsOf &&results_of) {
    for (std::string line; std::getline(std::cin, line);) std::cout << results_of(Request(line)) << "\n";
    return 0;
}
