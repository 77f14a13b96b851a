// What the programs here read and write: lines of fields in hexadecimal with a space between, and - for an empty field.
#pragma once
#include <charconv>
#include <cstddef>
#include <cstdint>
#include <stdexcept>
#include <string>
#include <vector>

using Field = std::vector<std::uint8_t>;

inline Field bytes_of(const std::string& text) {
    if (text == "-") return {};
    if (text.size() % 2 != 0) throw std::runtime_error("a field with half a byte");
    Field bytes(text.size() / 2);
    for (std::size_t i = 0; i < bytes.size(); i++) {
        const char* const end = text.data() + 2 * i + 2;
        const auto read = std::from_chars(end - 2, end, bytes[i], 16);
        if (read.ec != std::errc{} || read.ptr != end) throw std::runtime_error("a field that is not hexadecimal");
    }
    return bytes;
}

template <class Bytes> std::string text_of(const Bytes& bytes) {
    static const char digits[] = "0123456789abcdef";
    if (bytes.empty()) return "-";
    std::string text;
    for (const std::uint8_t byte : bytes) {
        text += digits[byte >> 4];
        text += digits[byte & 15];
    }
    return text;
}
