// The five operations in two ways: the exports for C, and the functions of zabrintoly.hpp for C++.
#pragma once
#include <cstdint>
#include <utility>

#include "lent.hpp"
#include "zabrintoly.hpp"

enum class Way { c, cpp };

struct Answer {
    std::uint32_t outcome, session = 0, place = 0, value = 0;
};

// C++ has no session other than 0 and those that reserving hands out.
inline std::uint32_t possible(Way way, std::uint32_t session) { return way == Way::c ? session : session % 1025; }

inline zabrintoly::Session session_of(std::uint32_t number) {
    auto none = zabrintoly::Session::after_restart();
    if (number == 0) return none;
    std::array<std::uint8_t, zabrintoly::page_size> page;
    page.fill(zabrintoly::unused_marks);
    for (std::uint32_t i = 0; i + 1 < number; i++) page[i / 8] = std::uint8_t(page[i / 8] & ~(0x80 >> i % 8));
    return zabrintoly::reserve(page, std::move(none)).session;
}

inline std::uint32_t number_of(const zabrintoly::Session &session) {
    const auto index = session.pending_index();
    return index ? *index + 1 : 0;
}

inline Answer call_make(Way way, std::uint32_t kind, const Lent &material, const Lent &secret, const Lent &key) {
    if (way == Way::cpp) return {std::uint32_t(zabrintoly::make(kind, material.bytes(), secret.bytes(), key.bytes()))};
    return {zab_make(kind, material.data(), material.size(), secret.data(), secret.size(), key.data(), key.size())};
}

inline Answer call_reserve(Way way, const Lent &page, std::uint32_t session) {
    if (way == Way::cpp) {
        const auto answer = zabrintoly::reserve(page.bytes(), session_of(session));
        return {std::uint32_t(answer.outcome), number_of(answer.session), std::uint32_t(answer.place), answer.value};
    }
    const zab_reserved answer = zab_reserve(page.data(), page.size(), session);
    return {answer.outcome, answer.session, answer.place, answer.value};
}

inline Answer call_mark(Way way, const Lent &page, std::uint32_t session) {
    if (way == Way::cpp) {
        const auto answer = zabrintoly::mark(page.bytes(), session_of(session));
        return {std::uint32_t(answer.outcome), number_of(answer.session)};
    }
    const zab_marked answer = zab_mark(page.data(), page.size(), session);
    return {answer.outcome, answer.session};
}

inline Answer call_sign(Way way, const Lent &secret, const Lent &page, std::uint32_t session, const Lent &message, const Lent &out) {
    if (way == Way::cpp) {
        const auto answer = zabrintoly::sign(secret.bytes(), page.bytes(), session_of(session), message.bytes(), out.bytes());
        return {std::uint32_t(answer.outcome), number_of(answer.session)};
    }
    const zab_signed answer = zab_sign(secret.data(), secret.size(), page.data(), page.size(), session, message.data(), message.size(),
                                       out.data(), out.size());
    return {answer.outcome, answer.session};
}

inline Answer call_check(Way way, const Lent &key, const Lent &message, const Lent &signature) {
    if (way == Way::cpp) return {std::uint32_t(zabrintoly::check(key.bytes(), message.bytes(), signature.bytes()))};
    return {zab_check(key.data(), key.size(), message.data(), message.size(), signature.data(), signature.size())};
}
