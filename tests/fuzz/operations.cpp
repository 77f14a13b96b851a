// A libFuzzer target: every operation, from C and from C++, on whatever the fuzzer chooses. Each answer is the model's, or where a root
// decides Botan's; no byte of any buffer changes but those that must; no byte beside a buffer is touched.
#include <botan/hash.h>

#include <chrono>
#include <cstdio>
#include <cstdlib>
#include <fstream>
#include <string>

#include "../peers/botan_xmss.h"
#include "calls.hpp"
#include "choices.hpp"
#include "coverage.hpp"
#include "model.hpp"
#include "stored.hpp"

namespace {

const std::string folder = FOLDER;
const auto signatures = stored_signatures(folder);
const auto pairs = stored_pairs(folder);
const Region regions[4];

enum Operation { make, reserve, mark, sign, check, operations };
const char *const names[operations] = {"make", "reserve", "mark", "sign", "check"};
unsigned long outcomes[2][operations][13];

[[noreturn]] void differs(const char *what, unsigned expected, unsigned got) {
    std::fprintf(stderr, "fuzz: DIFFERENCE: %s is %u, not %u\n", what, got, expected);
    std::abort();
}

void expect(const char *what, std::uint32_t expected, std::uint32_t got) {
    if (expected != got) differs(what, expected, got);
}

void expect_content(const char *what, const Lent &lent) {
    if (lent.as_expected()) return;
    std::fprintf(stderr, "fuzz: DIFFERENCE: %s is not what it must be, or a byte beside it was written\n", what);
    std::abort();
}

void count(Way way, Operation operation, std::uint32_t outcome) {
    if (outcome > 11) differs("an outcome", 11, outcome);
    outcomes[way == Way::cpp][operation][outcome]++;
}

// Making and signing take seconds where they are not refused, and a check milliseconds: such a call is made once in each way, and then
// again as long as it has had less than its share of the time, one part in so many.
class Patience {
  public:
    explicit Patience(int parts) : parts_(parts) {}
    template <class Call> bool spent_on(Call call) {
        const auto now = clock::now();
        if (called_ && (now - start_) < parts_ * spent_) return false;
        called_ = true;
        call();
        spent_ += clock::now() - now;
        return true;
    }

  private:
    using clock = std::chrono::steady_clock;
    int parts_;
    bool called_ = false;
    clock::time_point start_ = clock::now();
    clock::duration spent_{};
};
struct Patiences {
    Patience make{16}, sign{16}, check{4};
};
Patiences patience[2];

Content part(std::span<const std::uint8_t> bytes, std::size_t place, std::size_t length) {
    const auto cut = bytes.subspan(place, length);
    return {cut.begin(), cut.end()};
}

Content number_as_bytes(std::uint32_t number, std::size_t size) {
    Content bytes(size);
    for (std::size_t i = 0; i < 4; i++) bytes[size - 1 - i] = std::uint8_t(number >> 8 * i);
    return bytes;
}

// PRF of RFC 8391 by Botan's SHA-256.
Content prf(const Content &key, const Content &data) {
    auto hash = Botan::HashFunction::create_or_throw("SHA-256");
    hash->update(number_as_bytes(3, 32));
    hash->update(key);
    hash->update(data);
    return hash->final_stdvec();
}

// Type and material are copied into the record and the key. The root is known of stored material only.
void expect_made(const Pair &pair, const Lent &material, Lent &secret, Lent &key) {
    const bool stored = std::ranges::equal(material.bytes(), pair.material);
    const Content root = stored ? part(pair.key, 4, 32) : part(secret.bytes(), 100, 32);
    const Content type = number_as_bytes(1, 4);
    secret.expect(0, type);
    secret.expect(4, material.bytes());
    secret.expect(100, root);
    key.expect(0, type);
    key.expect(4, root);
    key.expect(36, material.bytes().subspan(64));
}

void fuzz_make(Choices &choices, Way way) {
    const Pair &pair = choices.one_of(pairs);
    const std::uint32_t kind = choices.kind(1);
    Content bytes = pair.material;
    choices.damage(bytes);
    const Lent material(regions[0], choices.buffer(bytes));
    Lent secret(regions[1], choices.buffer(Content(132, 0x31)));
    Lent key(regions[2], choices.buffer(Content(68, 0x32)));
    const std::uint32_t expected = model::make(kind, material.size(), secret.size(), key.size());
    const auto call = [&] { expect("the outcome of making", expected, call_make(way, kind, material, secret, key).outcome); };
    if (expected == 0) {
        if (!patience[way == Way::cpp].make.spent_on(call)) return;
        expect_made(pair, material, secret, key);
    } else {
        call();
    }
    expect_content("the material", material);
    expect_content("the secret record", secret);
    expect_content("the key", key);
    count(way, make, expected);
}

void fuzz_reserve(Choices &choices, Way way) {
    const Lent page(regions[0], choices.buffer(choices.page(choices.used_marks(19))));
    const std::uint32_t session = possible(way, choices.session(0));
    const model::Reserved expected = model::reserve(page.bytes(), session);
    const Answer answer = call_reserve(way, page, session);
    expect("the outcome of reserving", expected.outcome, answer.outcome);
    expect("the session of reserving", expected.session, answer.session);
    expect("the place of reserving", expected.place, answer.place);
    expect("the value of reserving", expected.value, answer.value);
    expect_content("the page", page);
    count(way, reserve, expected.outcome);
}

void fuzz_mark(Choices &choices, Way way) {
    const std::uint32_t used = choices.used_marks(19);
    Lent page(regions[0], choices.buffer(choices.page(used)));
    const std::uint32_t session = possible(way, choices.session(used + 1));
    const model::Marked expected = model::mark(page.bytes(), session);
    if (expected.cleared) {
        const std::uint32_t place = *expected.cleared / 8;
        const Content value = {std::uint8_t(page.bytes()[place] & ~(0x80U >> *expected.cleared % 8))};
        page.expect(place, value);
    }
    const Answer answer = call_mark(way, page, session);
    expect("the outcome of marking", expected.outcome, answer.outcome);
    expect("the session of marking", session, answer.session);
    expect_content("the page", page);
    count(way, mark, expected.outcome);
}

// A stored signature is known whole. Of another the index and r are, and where the record is whole Botan says whether the rest is good.
void expect_signed(const Pair &pair, const Lent &secret, std::uint32_t index, const Lent &message, Lent &out) {
    const Content text = part(message.bytes(), 0, message.size());
    if (!std::ranges::equal(secret.bytes(), pair.secret)) {
        out.expect(36, part(out.bytes(), 36, 2500 - 36));
    } else if (index == pair.index && text == pair.message) {
        out.expect(0, pair.signature);
    } else {
        const Content signature = part(out.bytes(), 0, out.size());
        expect("Botan's answer to a signature that was made", 1, accepted(pair.key, text, signature));
        expect("the check of a signature that was made", 0,
               zab_check(pair.key.data(), pair.key.size(), message.data(), message.size(), out.data(), out.size()));
        out.expect(36, part(out.bytes(), 36, 2500 - 36));
    }
    out.expect(0, number_as_bytes(index, 4));
    out.expect(4, prf(part(secret.bytes(), 36, 32), number_as_bytes(index, 32)));
}

void fuzz_sign(Choices &choices, Way way) {
    const Pair &pair = choices.one_of(pairs);
    Content record = pair.secret;
    choices.damage(record);
    std::ranges::copy(number_as_bytes(choices.kind(model::number(record)), 4), record.begin());
    const std::uint32_t used = choices.used_marks(pair.index + 1);
    const std::uint32_t session = possible(way, choices.session(used));
    const Lent secret(regions[0], choices.buffer(record));
    const Lent page(regions[1], choices.buffer(choices.page(used)));
    const Lent message(regions[2], choices.buffer(choices.message(pair.message)));
    Lent out(regions[3], choices.buffer(Content(2500, 0x33)));
    const std::uint32_t expected = model::sign(secret.bytes(), page.bytes(), session, message.size(), out.size());
    const auto call = [&] {
        const Answer answer = call_sign(way, secret, page, session, message, out);
        expect("the outcome of signing", expected, answer.outcome);
        expect("the session of signing", expected == 0 ? 0 : session, answer.session);
    };
    if (expected == 0) {
        if (!patience[way == Way::cpp].sign.spent_on(call)) return;
        expect_signed(pair, secret, session - 1, message, out);
    } else {
        call();
    }
    expect_content("the secret record", secret);
    expect_content("the page", page);
    expect_content("the message", message);
    expect_content("the signature", out);
    count(way, sign, expected);
}

std::uint32_t botans_answer(const Lent &key, const Lent &message, const Lent &signature) {
    const auto all = [](const Lent &lent) { return part(lent.bytes(), 0, lent.size()); };
    return accepted(all(key), all(message), all(signature)) ? 0 : 6;
}

void fuzz_check(Choices &choices, Way way) {
    const Signature &stored = choices.one_of(signatures);
    Content key_bytes = stored.key, signature_bytes = stored.signature;
    choices.damage(key_bytes);
    choices.damage(signature_bytes);
    std::ranges::copy(number_as_bytes(choices.kind(model::number(key_bytes)), 4), key_bytes.begin());
    std::ranges::copy(number_as_bytes(choices.index(model::number(signature_bytes)), 4), signature_bytes.begin());
    const Lent key(regions[0], choices.buffer(key_bytes));
    const Lent message(regions[1], choices.buffer(choices.message(stored.message)));
    const Lent signature(regions[2], choices.buffer(signature_bytes));
    const auto refusal = model::check(key.bytes(), message.size(), signature.bytes());
    std::uint32_t expected = refusal.value_or(0);
    const auto call = [&] {
        if (!refusal) expected = botans_answer(key, message, signature);
        expect("the outcome of checking", expected, call_check(way, key, message, signature).outcome);
    };
    if (refusal)
        call();
    else if (!patience[way == Way::cpp].check.spent_on(call))
        return;
    expect_content("the key", key);
    expect_content("the message", message);
    expect_content("the signature", signature);
    count(way, check, expected);
}

// How much of the library was reached, how many odd buffers it was lent, and how often each operation gave each outcome in each way.
void write_outcomes() {
    std::ofstream out(folder + "/outcomes");
    out << "reached " << library_edges_reached() << " of " << library_edges() << '\n';
    out << "lent " << null_buffers << ' ' << long_buffers << '\n';
    for (int way = 0; way < 2; way++)
        for (int operation = 0; operation < operations; operation++)
            for (int outcome = 0; outcome < 13; outcome++)
                if (const unsigned long times = outcomes[way][operation][outcome])
                    out << names[operation] << ' ' << (way == 0 ? "C" : "C++") << ' ' << outcome << ' ' << times << '\n';
}

} // namespace

extern "C" int LLVMFuzzerInitialize(int *, char ***) {
    std::atexit(write_outcomes);
    return 0;
}

extern "C" int LLVMFuzzerTestOneInput(const std::uint8_t *data, std::size_t size) {
    Choices choices(data, size);
    const std::uint8_t first = choices.byte();
    const Way way = first / 5 % 2 == 0 ? Way::c : Way::cpp;
    constexpr void (*fuzz[operations])(Choices &, Way) = {fuzz_make, fuzz_reserve, fuzz_mark, fuzz_sign, fuzz_check};
    fuzz[first % 5](choices, way);
    note_library_coverage();
    return 0;
}
