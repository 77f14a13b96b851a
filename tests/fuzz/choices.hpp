// Turns the fuzzer's bytes into what a call is made of. A byte of 0, and so the end of the input, chooses what an honest caller gives.
#pragma once
#include <array>
#include <cstddef>
#include <cstdint>

#include "lent.hpp"

class Choices {
  public:
    Choices(const std::uint8_t *data, std::size_t size) : next_(data), end_(data + size) {}

    std::uint8_t byte() { return next_ == end_ ? std::uint8_t{0} : *next_++; }
    std::uint32_t number() {
        std::uint32_t all = 0;
        for (int i = 0; i < 4; i++) all = all << 8 | byte();
        return all;
    }

    template <class T> const T &one_of(const std::vector<T> &all) { return all[byte() % all.size()]; }

    // Mostly the right length; else one beside it, one that is right elsewhere, any, or one that is right if it is cut to 31 or 32 bits.
    std::size_t length(std::size_t right) {
        static constexpr std::array<std::size_t, 9> elsewhere = {68, 96, 128, 132, 2500, 2692, 2820, 65536, 65537};
        switch (byte() % 16) {
        case 8: return 0;
        case 9: return right == 0 ? 0 : right - 1;
        case 10: return right + 1;
        case 11: return byte();
        case 12: return number() % watched_bytes;
        case 13: return (std::size_t{1} << 32) + right;
        case 14: return (std::size_t{1} << 31) + right;
        case 15: return elsewhere[byte() % elsewhere.size()];
        default: return right;
        }
    }

    // The content under the right length or another one.
    Wanted buffer(Content content) {
        const std::size_t right = content.size();
        const std::size_t length = this->length(right);
        const std::uint8_t where = byte();
        content.resize(std::min(length, watched_bytes), std::uint8_t(where >> 2));
        return {length, content, (where & 1) == 0, (where & 2) == 0};
    }

    // Mostly the type as it is; else one that is served somewhere, one that looks like one, or any.
    std::uint32_t kind(std::uint32_t right) {
        static constexpr std::array<std::uint32_t, 8> others = {0, 1, 2, 3, 4, 7, 0x0000'0101, 0x0100'0000};
        const std::uint8_t choice = byte();
        return choice < 160 ? right : choice < 248 ? others[choice % others.size()] : number();
    }

    // Mostly the index as it is; else one at a limit of the three types, or any.
    std::uint32_t index(std::uint32_t right) {
        static constexpr std::array<std::uint32_t, 8> limits = {0, 1023, 1024, 65535, 65536, 1048575, 1048576, 0xffff'ffff};
        const std::uint8_t choice = byte();
        return choice < 192 ? right : choice < 224 ? limits[choice % limits.size()] : number();
    }

    // Mostly nothing; else up to three bytes are changed, near the beginning, near the end or anywhere, in one bit or in any.
    void damage(Content &content) {
        const std::uint8_t times = byte();
        for (int i = 192; i < times && i < 195 && !content.empty(); i++) {
            const std::uint8_t where = byte();
            const std::size_t place = where < 64 ? where : where < 128 ? content.size() - 1 - (where - 64U) : number();
            const std::uint8_t what = byte();
            content[place % content.size()] ^= what < 128 ? std::uint8_t(1U << what % 8) : what;
        }
    }

    // Mostly the message as it is; else a long one, or a short one of the fuzzer's own bytes.
    Content message(const Content &right) {
        const std::uint8_t choice = byte();
        if (choice < 192) return right;
        if (choice < 224) return Content(number() % 65'538, choice);
        Content own(byte());
        for (std::uint8_t &place : own) place = byte();
        return own;
    }

    std::uint32_t used_marks(std::uint32_t right) {
        static constexpr std::array<std::uint32_t, 8> limits = {0, 1, 7, 8, 9, 1022, 1023, 1024};
        const std::uint8_t choice = byte();
        return choice < 128 ? right : choice < 192 ? limits[choice % limits.size()] : number() % 1025;
    }

    // A page with so many used marks, mostly whole.
    Content page(std::uint32_t used) {
        Content page(128, 0xff);
        for (std::uint32_t i = 0; i < used; i++) page[i / 8] = std::uint8_t(page[i / 8] & ~(0x80 >> i % 8));
        damage(page);
        return page;
    }

    // Mostly the session that fits; else one beside it, one at a limit, or any.
    std::uint32_t session(std::uint32_t right) {
        static constexpr std::array<std::uint32_t, 6> limits = {0, 1, 1023, 1024, 1025, 0xffff'ffff};
        const std::uint8_t choice = byte();
        if (choice < 128) return right;
        if (choice < 160) return right + 1;
        if (choice < 192) return right - 1;
        if (choice < 224) return limits[choice % limits.size()];
        if (choice < 232) return right + 0x1'0000;
        return number();
    }

  private:
    const std::uint8_t *next_, *end_;
};
