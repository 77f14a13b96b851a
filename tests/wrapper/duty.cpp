// Stands between zabrintoly.hpp and the library (the linker's --wrap) and sees that the wrapper keeps a caller's one duty, whatever it was
// given itself: pointers are valid for their lengths, and a buffer to write to overlaps no other. The bytes of a result alone would not
// tell: the library of today happens to read all that it needs before it writes.
#include <sanitizer/asan_interface.h>

#include <cstdint>
#include <cstdio>
#include <cstdlib>
#include <initializer_list>

#include "zabrintoly.h"

namespace {

struct Lent {
    const std::uint8_t *data;
    std::size_t length;
    bool written;
};

bool valid(const Lent &lent) {
    return lent.length == 0 || __asan_region_is_poisoned(const_cast<std::uint8_t *>(lent.data), lent.length) == nullptr;
}

bool overlap(const Lent &one, const Lent &other) {
    const auto first = reinterpret_cast<std::uintptr_t>(one.data), second = reinterpret_cast<std::uintptr_t>(other.data);
    return first < second + other.length && second < first + one.length;
}

void see_duty(const char *operation, std::initializer_list<Lent> all) {
    for (const Lent &lent : all) {
        bool kept = valid(lent);
        for (const Lent &other : all) kept = kept && (&lent == &other || !lent.written || !overlap(lent, other));
        if (kept) continue;
        std::printf("FAILED: %s is called with an overlap, or with a pointer that is not valid for its length\n", operation);
        std::exit(1);
    }
}

} // namespace

extern "C" {
decltype(zab_make) __real_zab_make, __wrap_zab_make;
decltype(zab_mark) __real_zab_mark, __wrap_zab_mark;
decltype(zab_sign) __real_zab_sign, __wrap_zab_sign;

uint32_t __wrap_zab_make(uint32_t kind, const uint8_t *material, size_t material_length, uint8_t *secret, size_t secret_length,
                         uint8_t *key, size_t key_length) {
    see_duty("zab_make", {{material, material_length, false}, {secret, secret_length, true}, {key, key_length, true}});
    return __real_zab_make(kind, material, material_length, secret, secret_length, key, key_length);
}

zab_marked __wrap_zab_mark(uint8_t *page, size_t page_length, uint32_t session) {
    see_duty("zab_mark", {{page, page_length, true}});
    return __real_zab_mark(page, page_length, session);
}

zab_signed __wrap_zab_sign(const uint8_t *secret, size_t secret_length, const uint8_t *page, size_t page_length, uint32_t session,
                           const uint8_t *message, size_t message_length, uint8_t *out, size_t out_length) {
    see_duty("zab_sign", {{secret, secret_length, false}, {page, page_length, false}, {message, message_length, false},
                          {out, out_length, true}});
    return __real_zab_sign(secret, secret_length, page, page_length, session, message, message_length, out, out_length);
}
}
