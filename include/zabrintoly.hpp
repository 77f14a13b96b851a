// Zabrintoly for C++20: spans, outcomes with their texts, and sessions that can't be used twice. Header only; it throws nothing and
// allocates nothing. zabrintoly.h is the manual of what each operation does; the README has an example.
#ifndef ZABRINTOLY_HPP
#define ZABRINTOLY_HPP

#include <algorithm>
#include <array>
#include <cstddef>
#include <cstdint>
#include <optional>
#include <span>
#include <string_view>
#include <utility>

#include "zabrintoly.h"

namespace zabrintoly {

using Bytes = std::span<const std::uint8_t>;
using Buffer = std::span<std::uint8_t>;

inline constexpr std::size_t material_size = ZAB_MATERIAL_SIZE;
inline constexpr std::size_t secret_size = ZAB_SECRET_SIZE;
inline constexpr std::size_t key_size = ZAB_KEY_SIZE;
inline constexpr std::size_t page_size = ZAB_PAGE_SIZE;
inline constexpr std::size_t signature_size = ZAB_SIGNATURE_SIZE;
inline constexpr std::size_t signature_size_type_2 = ZAB_SIGNATURE_SIZE_TYPE_2;
inline constexpr std::size_t signature_size_type_3 = ZAB_SIGNATURE_SIZE_TYPE_3;
inline constexpr std::size_t message_limit = ZAB_MESSAGE_LIMIT;
inline constexpr std::size_t marks = ZAB_MARKS;
inline constexpr std::uint8_t unused_marks = ZAB_UNUSED_MARKS;

inline constexpr std::uint32_t xmss_sha2_10_256 = ZAB_XMSS_SHA2_10_256;
inline constexpr std::uint32_t xmss_sha2_16_256 = ZAB_XMSS_SHA2_16_256;
inline constexpr std::uint32_t xmss_sha2_20_256 = ZAB_XMSS_SHA2_20_256;

enum class Outcome : std::uint32_t {
    done = ZAB_DONE,
    input_length = ZAB_INPUT_LENGTH,
    type_not_served = ZAB_TYPE_NOT_SERVED,
    signature_length = ZAB_SIGNATURE_LENGTH,
    message_too_long = ZAB_MESSAGE_TOO_LONG,
    index_too_large = ZAB_INDEX_TOO_LARGE,
    root_differs = ZAB_ROOT_DIFFERS,
    page_damaged = ZAB_PAGE_DAMAGED,
    page_full = ZAB_PAGE_FULL,
    session_pending = ZAB_SESSION_PENDING,
    session_does_not_fit = ZAB_SESSION_DOES_NOT_FIT,
    out_length = ZAB_OUT_LENGTH,
    not_a_frame = ZAB_NOT_A_FRAME,
};

// The cause and what to do about it, for the person at the terminal. The texts end in no full stop and no line feed.
[[nodiscard]] constexpr std::string_view text(Outcome outcome) noexcept {
    switch (outcome) {
    case Outcome::done:
        return "done";
    case Outcome::input_length:
        return "the key, the secret record or the seed material has the wrong length: get that file again";
    case Outcome::type_not_served:
        return "this version does not serve the key's type: get a newer version; this says nothing against the file, so do not stay "
               "with an old one";
    case Outcome::signature_length:
        return "the signature has the wrong length for the key's type: get the signature again";
    case Outcome::message_too_long:
        return "the file has more than 65,536 bytes: files of this size are neither signed nor checked";
    case Outcome::index_too_large:
        return "the signature's index is none of the key's: get the signature again";
    case Outcome::root_differs:
        return "the signature does not belong to this key and this file: the copy is damaged or not from this signer, get it again";
    case Outcome::page_damaged:
        return "the page of marks is damaged: sign nothing more with this key and make a new key; never bring an old page back";
    case Outcome::page_full:
        return "every index of this key is used: make a new key";
    case Outcome::session_pending:
        return "an index is pending already: sign with it, or restart the signer";
    case Outcome::session_does_not_fit:
        return "the page of marks does not hold this session's mark as its last one: nothing was signed, restart the signer";
    case Outcome::out_length:
        return "a buffer for the result has the wrong length: this is a fault in the calling program";
    case Outcome::not_a_frame:
        return "the line is no frame: look at the file";
    }
    return "an outcome that this version does not know";
}

// A pending index, or none. It can be moved and not copied, and each operation takes the session that the last one handed back: so one
// index signs one message. A session that is dropped is lost as by a restart.
class Session {
  public:
    // The empty session that a signer starts with: once for each time that it takes the lock of its key.
    [[nodiscard]] static Session after_restart() noexcept { return Session(0); }

    Session(Session &&other) noexcept : number_(std::exchange(other.number_, 0)) {}
    Session &operator=(Session &&other) noexcept {
        number_ = std::exchange(other.number_, 0);
        return *this;
    }
    Session(const Session &) = delete;
    Session &operator=(const Session &) = delete;
    ~Session() = default;

    [[nodiscard]] std::optional<std::uint32_t> pending_index() const noexcept {
        return number_ == 0 ? std::nullopt : std::optional(number_ - 1);
    }

  private:
    explicit Session(std::uint32_t number) noexcept : number_(number) {}
    std::uint32_t number_;

    friend struct Reserved reserve(Bytes page, Session session) noexcept;
    friend struct Marked mark(Buffer page, Session session) noexcept;
    friend struct Signed sign(Bytes secret, Bytes page, Session session, Bytes message, Buffer out) noexcept;
};

// What reserving answers: the session with the first unused index, and the byte to store for it.
struct [[nodiscard]] Reserved {
    Outcome outcome;
    Session session;
    std::size_t place;
    std::uint8_t value;
};

// What marking answers, with the session as given.
struct [[nodiscard]] Marked {
    Outcome outcome;
    Session session;
};

// What signing answers: the empty session with a signature, else the session as given.
struct [[nodiscard]] Signed {
    Outcome outcome;
    Session session;
};

namespace detail {

// An array that the library writes to in place of the caller's buffer, so that no two buffers of a call overlap. It has one byte more
// than is written: where the caller's buffer is longer, this length stands for it, as one that is wrong. It is wiped at the end: the
// record that it may hold stays in the caller's hands alone.
template <std::size_t Size> class Own {
  public:
    explicit Own(Buffer out) noexcept : out_(out) {}
    Own(const Own &) = delete;
    Own &operator=(const Own &) = delete;
    ~Own() {
        for (volatile std::uint8_t &byte : bytes_) {
            byte = 0;
        }
    }
    [[nodiscard]] std::uint8_t *data() noexcept { return bytes_.data(); }
    [[nodiscard]] std::size_t size() const noexcept { return std::min(out_.size(), Size + 1); }
    void hand_over() const noexcept { std::copy_n(bytes_.begin(), Size, out_.begin()); }

  private:
    Buffer out_;
    std::array<std::uint8_t, Size + 1> bytes_{};
};

[[nodiscard]] constexpr std::optional<std::uint32_t> first_number(Bytes bytes) noexcept {
    if (bytes.size() < 4) {
        return std::nullopt;
    }
    return std::uint32_t{bytes[0]} << 24 | std::uint32_t{bytes[1]} << 16 | std::uint32_t{bytes[2]} << 8 | std::uint32_t{bytes[3]};
}

} // namespace detail

// Makes a key pair: `secret` gets 132 bytes and `key` 68. Where they overlap each other, the key is written last.
[[nodiscard]] inline Outcome make(std::uint32_t kind, Bytes material, Buffer secret, Buffer key) noexcept {
    detail::Own<secret_size> own_secret(secret);
    detail::Own<key_size> own_key(key);
    const auto outcome = static_cast<Outcome>(zab_make(kind, material.data(), material.size(), own_secret.data(), own_secret.size(),
                                                       own_key.data(), own_key.size()));
    if (outcome == Outcome::done) {
        own_secret.hand_over();
        own_key.hand_over();
    }
    return outcome;
}

// Finds the first unused index. Store `value` at `place` of the page and flush it before you sign.
inline Reserved reserve(Bytes page, Session session) noexcept {
    const zab_reserved answer = zab_reserve(page.data(), page.size(), session.number_);
    return {static_cast<Outcome>(answer.outcome), Session(answer.session), answer.place, answer.value};
}

// Marks the pending index in the page, or finds it marked and changes nothing.
inline Marked mark(Buffer page, Session session) noexcept {
    const zab_marked answer = zab_mark(page.data(), page.size(), session.number_);
    return {static_cast<Outcome>(answer.outcome), Session(answer.session)};
}

// Signs with the pending index, whose mark must be stored in the page: `out` gets 2,500 bytes.
inline Signed sign(Bytes secret, Bytes page, Session session, Bytes message, Buffer out) noexcept {
    detail::Own<signature_size> own(out);
    const zab_signed answer = zab_sign(secret.data(), secret.size(), page.data(), page.size(), session.number_, message.data(),
                                       message.size(), own.data(), own.size());
    const auto outcome = static_cast<Outcome>(answer.outcome);
    if (outcome == Outcome::done) {
        own.hand_over();
    }
    return {outcome, Session(answer.session)};
}

// Checks a signature. Take the file where this is Outcome::done, and only there.
[[nodiscard]] inline Outcome check(Bytes key, Bytes message, Bytes signature) noexcept {
    return static_cast<Outcome>(
        zab_check(key.data(), key.size(), message.data(), message.size(), signature.data(), signature.size()));
}

// The type that a key or a secret record names, for a message to people; nothing where it is too short to name one.
[[nodiscard]] constexpr std::optional<std::uint32_t> type_of(Bytes key) noexcept { return detail::first_number(key); }

// The public key that belongs to a secret record, for comparing it with a page's or a file's; nothing where it is no record's length.
[[nodiscard]] inline std::optional<std::array<std::uint8_t, key_size>> public_key_of(Bytes secret) noexcept {
    if (secret.size() != secret_size) {
        return std::nullopt;
    }
    const Bytes type = secret.first(4), public_seed = secret.subspan(68, 32), root = secret.subspan(100, 32);
    std::array<std::uint8_t, key_size> key;
    std::ranges::copy(public_seed, std::ranges::copy(root, std::ranges::copy(type, key.begin()).out).out);
    return key;
}

// The index that a signature carries; nothing where it is too short to carry one.
[[nodiscard]] constexpr std::optional<std::uint32_t> index_of(Bytes signature) noexcept { return detail::first_number(signature); }

} // namespace zabrintoly

#endif
