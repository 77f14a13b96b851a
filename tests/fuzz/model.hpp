// What each operation must answer, written from the customer's paper alone: sizes, outcomes and their order, page and session.
#pragma once
#include <array>
#include <cstddef>
#include <cstdint>
#include <optional>
#include <span>

namespace model {

using Bytes = std::span<const std::uint8_t>;

inline std::uint32_t number(Bytes bytes) {
    std::uint32_t all = 0;
    for (std::uint8_t byte : bytes.first(4)) all = all * 256 + byte;
    return all;
}

// The height of a type's tree; nothing for a type that does not exist.
inline std::optional<std::uint32_t> height(std::uint32_t kind) {
    if (kind == 1) return 10;
    if (kind == 2) return 16;
    if (kind == 3) return 20;
    return std::nullopt;
}

// How many marks are used; nothing for a page of another size, or with a used mark after an unused one.
inline std::optional<std::uint32_t> used_marks(Bytes page) {
    if (page.size() != 128) return std::nullopt;
    std::uint32_t used = 0;
    for (std::uint32_t i = 0; i < 1024; i++) {
        const bool unused = page[i / 8] & (0x80 >> i % 8);
        if (unused) continue;
        if (used != i) return std::nullopt;
        used++;
    }
    return used;
}

inline std::uint32_t make(std::uint32_t kind, std::size_t material, std::size_t secret, std::size_t key) {
    if (material != 96) return 1;
    if (kind != 1) return 2;
    if (secret != 132 || key != 68) return 11;
    return 0;
}

struct Reserved {
    std::uint32_t outcome, session, place, value;
    bool operator==(const Reserved &) const = default;
};

inline Reserved reserve(Bytes page, std::uint32_t session) {
    const auto used = used_marks(page);
    if (!used) return {7, session, 0, 0};
    if (session != 0) return {9, session, 0, 0};
    if (*used == 1024) return {8, session, 0, 0};
    const std::uint32_t place = *used / 8;
    return {0, *used + 1, place, page[place] & ~(0x80U >> *used % 8)};
}

// The outcome, and the mark that is cleared where one is.
struct Marked {
    std::uint32_t outcome;
    std::optional<std::uint32_t> cleared;
};

inline Marked mark(Bytes page, std::uint32_t session) {
    const auto used = used_marks(page);
    if (!used) return {7, {}};
    if (session < 1 || session > 1024) return {10, {}};
    const std::uint32_t pending = session - 1;
    if (*used == pending) return {0, pending};
    if (*used == pending + 1) return {0, {}};
    return {10, {}};
}

inline std::uint32_t sign(Bytes secret, Bytes page, std::uint32_t session, std::size_t message, std::size_t out) {
    if (secret.size() != 132) return 1;
    if (number(secret) != 1) return 2;
    if (message > 65536) return 4;
    if (out != 2500) return 11;
    const auto used = used_marks(page);
    if (!used) return 7;
    if (session < 1 || session > 1024 || *used != session) return 10;
    return 0;
}

// The refusal; nothing where the recomputed root decides between 0 and 6.
inline std::optional<std::uint32_t> check(Bytes key, std::size_t message, Bytes signature) {
    if (key.size() != 68) return 1;
    const auto h = height(number(key));
    if (!h) return 2;
    if (signature.size() != 36 + (67 + *h) * 32) return 3;
    if (message > 65536) return 4;
    if (number(signature) >> *h != 0) return 5;
    return std::nullopt;
}

} // namespace model
