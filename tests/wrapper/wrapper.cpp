// What zabrintoly.hpp adds to zabrintoly.h: buffers that may overlap, wrong out lengths that touch nothing, sessions that can't be used
// twice, texts. Compiled with AddressSanitizer and UndefinedBehaviorSanitizer.
#include <algorithm>
#include <array>
#include <cstdio>
#include <set>
#include <string_view>
#include <type_traits>
#include <vector>

#include "zabrintoly.hpp"

using namespace zabrintoly;
using Content = std::vector<std::uint8_t>;

static_assert(!std::is_copy_constructible_v<Session> && !std::is_copy_assignable_v<Session>);
static_assert(!std::is_default_constructible_v<Session> && !std::is_constructible_v<Session, std::uint32_t>);
static_assert(std::is_nothrow_move_constructible_v<Session> && std::is_nothrow_move_assignable_v<Session>);
static_assert(!std::is_copy_constructible_v<Reserved> && !std::is_copy_constructible_v<Marked> && !std::is_copy_constructible_v<Signed>);
static_assert(noexcept(Session::after_restart()) && noexcept(Session::after_restart().pending_index()));
static_assert(std::is_nothrow_invocable_v<decltype(make), std::uint32_t, Bytes, Buffer, Buffer>);
static_assert(std::is_nothrow_invocable_v<decltype(reserve), Bytes, Session>);
static_assert(std::is_nothrow_invocable_v<decltype(mark), Buffer, Session>);
static_assert(std::is_nothrow_invocable_v<decltype(sign), Bytes, Bytes, Session, Bytes, Buffer>);
static_assert(std::is_nothrow_invocable_v<decltype(check), Bytes, Bytes, Bytes>);
static_assert(std::is_nothrow_invocable_v<decltype(type_of), Bytes> && std::is_nothrow_invocable_v<decltype(index_of), Bytes>);
static_assert(std::is_nothrow_invocable_v<decltype(public_key_of), Bytes>);
static_assert(std::is_nothrow_invocable_v<decltype(text), Outcome>);

namespace {

int failures, expectations;

void expect(bool holds, const char *what) {
    expectations++;
    if (holds) return;
    failures++;
    std::printf("FAILED: %s\n", what);
}

Content filled(std::size_t size, std::uint8_t first = 1) {
    Content bytes(size);
    for (std::size_t i = 0; i < size; i++) bytes[i] = static_cast<std::uint8_t>(first + 7 * i);
    return bytes;
}

// The page with 5 used marks, and the session for index 4, its last one.
constexpr std::uint8_t four_used = 0x0f, five_used = 0x07;
Content page_of(std::uint8_t first) {
    Content page(page_size, unused_marks);
    page[0] = first;
    return page;
}
Session fitting_session() { return reserve(page_of(four_used), Session::after_restart()).session; }

const Content material = filled(material_size), page = page_of(five_used), message = filled(3000, 9);

struct Results {
    Content secret = Content(secret_size), key = Content(key_size), signature = Content(signature_size);
};

// Without any overlap: what the other calls are compared with.
Results plain() {
    Results all;
    expect(make(xmss_sha2_10_256, material, all.secret, all.key) == Outcome::done, "a key pair is made");
    const Signed answer = sign(all.secret, page, fitting_session(), message, all.signature);
    expect(answer.outcome == Outcome::done && !answer.session.pending_index(), "a signature is made, and the session is empty");
    expect(check(all.key, message, all.signature) == Outcome::done, "the signature is accepted");
    expect(type_of(all.key) == xmss_sha2_10_256 && index_of(all.signature) == 4U, "type and index are read");
    const auto key = public_key_of(all.secret);
    expect(key && std::ranges::equal(*key, all.key), "a record's key is the key that was made with it");
    return all;
}

Outcome sign_over(Bytes secret, Bytes page_bytes, Bytes text_bytes, Buffer out) {
    return sign(secret, page_bytes, fitting_session(), text_bytes, out).outcome;
}

// The signature is written over a part of the message, over the record, and over the page.
void signing_overlaps(const Results &right) {
    Content over_message = message;
    const Buffer out = Buffer(over_message).subspan(100, signature_size);
    expect(sign_over(right.secret, page, over_message, out) == Outcome::done, "signing over a part of the message");
    expect(std::ranges::equal(out, right.signature), "the signature over the message is the same");
    expect(std::equal(message.begin(), message.begin() + 100, over_message.begin()), "bytes of the message before it stay");
    expect(std::ranges::equal(Bytes(message).subspan(2600), Bytes(over_message).subspan(2600)), "bytes of the message after it stay");

    Content over_record(signature_size);
    const Buffer record = Buffer(over_record).first(secret_size);
    std::ranges::copy(right.secret, record.begin());
    expect(sign_over(record, page, message, over_record) == Outcome::done && over_record == right.signature, "signing over the record");

    Content over_page(signature_size);
    const Buffer page_inside = Buffer(over_page).subspan(68, page_size);
    std::ranges::copy(page, page_inside.begin());
    expect(sign_over(right.secret, page_inside, message, over_page) == Outcome::done && over_page == right.signature,
           "signing over the page");
}

void making_overlaps(const Results &right) {
    Content shared(secret_size);
    std::ranges::copy(material, shared.begin());
    Content key(key_size);
    expect(make(1, Bytes(shared).first(material_size), shared, key) == Outcome::done, "making over the material");
    expect(shared == right.secret && key == right.key, "the record over the material is the same");

    Content both(secret_size);
    const Buffer inside = Buffer(both).subspan(10, key_size);
    expect(make(1, material, both, inside) == Outcome::done && std::ranges::equal(inside, right.key), "a key inside the record is whole");
    expect(std::equal(both.begin(), both.begin() + 10, right.secret.begin()) &&
               std::equal(both.begin() + 10 + key_size, both.end(), right.secret.begin() + 10 + key_size),
           "and the record around it is the record");
}

// Every length up to a few more than the right one, and much longer ones. Each buffer is on the heap, with its guards.
std::vector<std::size_t> wrong_lengths(std::size_t right) {
    std::vector<std::size_t> all;
    for (std::size_t length = 0; length <= right + 3; length++)
        if (length != right) all.push_back(length);
    for (std::size_t length : {2 * right, right + 256, right + 65536, std::size_t{1} << 20}) all.push_back(length);
    return all;
}

void wrong_out_lengths(const Results &right) {
    const Content mark_of_old = filled(1 << 20, 77);
    const auto old = [&](std::size_t length) { return Content(mark_of_old.begin(), mark_of_old.begin() + std::ptrdiff_t(length)); };
    for (std::size_t length : wrong_lengths(signature_size)) {
        Content out = old(length);
        const Signed answer = sign(right.secret, page, fitting_session(), message, out);
        expect(answer.outcome == Outcome::out_length && out == old(length), "signing with a wrong out length changes nothing");
        expect(answer.session.pending_index() == 4U, "and hands the session back");
    }
    for (std::size_t length : wrong_lengths(secret_size)) {
        Content secret = old(length), key = old(key_size);
        expect(make(1, material, secret, key) == Outcome::out_length, "making with a wrong record length");
        expect(secret == old(length) && key == old(key_size), "changes neither record nor key");
    }
    for (std::size_t length : wrong_lengths(key_size)) {
        Content secret = old(secret_size), key = old(length);
        expect(make(1, material, secret, key) == Outcome::out_length, "making with a wrong key length");
        expect(secret == old(secret_size) && key == old(length), "changes neither record nor key");
    }
}

void sessions() {
    Session first = fitting_session();
    expect(first.pending_index() == 4U, "a reserved session has its index");
    Session second = std::move(first);
    expect(!first.pending_index() && second.pending_index() == 4U, "a moved-from session is empty"); // NOLINT: that is the point
    first = std::move(second);
    expect(first.pending_index() == 4U && !second.pending_index(), "and so is one that was assigned from");
    Content out(signature_size, 3);
    const Signed refused = sign(Content(secret_size), page, std::move(first), message, out);
    expect(refused.outcome == Outcome::type_not_served && refused.session.pending_index() == 4U, "a refusal hands the session back");
    expect(!first.pending_index(), "and what was given is empty");

    Content marked = page_of(four_used);
    const Marked now = mark(marked, fitting_session());
    expect(now.outcome == Outcome::done && now.session.pending_index() == 4U && marked == page, "marking clears the mark");
    const Reserved twice = reserve(page, fitting_session());
    expect(twice.outcome == Outcome::session_pending && twice.session.pending_index() == 4U, "reserving twice is refused");
}

void empty_spans() {
    expect(make(1, {}, {}, {}) == Outcome::input_length, "making with nothing");
    expect(make(1, material, {}, {}) == Outcome::out_length, "making to nothing");
    expect(reserve({}, Session::after_restart()).outcome == Outcome::page_damaged, "reserving with nothing");
    expect(mark({}, fitting_session()).outcome == Outcome::page_damaged, "marking nothing");
    expect(sign({}, {}, Session::after_restart(), {}, {}).outcome == Outcome::input_length, "signing with nothing");
    expect(check({}, {}, {}) == Outcome::input_length, "checking with nothing");
    expect(!type_of({}) && !index_of(Content(3)), "no type and no index in too few bytes");
    expect(!public_key_of({}) && !public_key_of(Content(secret_size + 1)), "no key of what is no record");
}

void texts() {
    std::set<std::string_view> all;
    for (std::uint32_t number = 0; number <= ZAB_NOT_A_FRAME; number++) {
        const std::string_view words = text(static_cast<Outcome>(number));
        expect(!words.empty() && words.back() != '.' && words.back() != '\n', "a text has words, and no full stop");
        all.insert(words);
    }
    const std::string_view unknown = text(static_cast<Outcome>(ZAB_NOT_A_FRAME + 1));
    expect(unknown == text(static_cast<Outcome>(0xffff'ffff)) && !all.contains(unknown), "unknown numbers have a text of their own");
    expect(all.size() == ZAB_NOT_A_FRAME + 1, "every outcome has its own text");
}

} // namespace

int main() {
    const Results right = plain();
    signing_overlaps(right);
    making_overlaps(right);
    wrong_out_lengths(right);
    sessions();
    empty_spans();
    texts();
    std::printf("%d expectations, %d failed\n", expectations, failures);
    return failures == 0 ? 0 : 1;
}
