// Calls every export of the archive with inputs whose answers 01 gives, each field another number: a field out of place would show.
#include <cstdint>
#include <cstdio>
#include <vector>
#include <zabrintoly.h>

namespace {

int wrong = 0;

void expect(const char *what, unsigned long long seen, unsigned long long wanted) {
    if (seen != wanted) {
        std::printf("%s: %llu and not %llu\n", what, seen, wanted);
        wrong++;
    }
}

} // namespace

int main() {
    // 19 used marks: the ninth row of the customer's table
    std::vector<std::uint8_t> page(ZAB_PAGE_SIZE, ZAB_UNUSED_MARKS);
    page[0] = page[1] = 0;
    page[2] = 0x1f;
    const zab_reserved reserved = zab_reserve(page.data(), page.size(), 0);
    expect("reserving", reserved.outcome, ZAB_DONE);
    expect("its session", reserved.session, 20);
    expect("its place", reserved.place, 2);
    expect("its value", reserved.value, 0x0f);
    const zab_reserved pending = zab_reserve(page.data(), page.size(), 0x01020304);
    expect("reserving again", pending.outcome, ZAB_SESSION_PENDING);
    expect("the session as given", pending.session, 0x01020304);
    const zab_marked marked = zab_mark(page.data(), page.size(), 20);
    expect("marking", marked.outcome, ZAB_DONE);
    expect("its session", marked.session, 20);
    expect("the marked byte", page[2], 0x0f);
    const zab_signed no_record = zab_sign(nullptr, 0, page.data(), page.size(), 20, nullptr, 0, nullptr, 0);
    expect("signing without a record", no_record.outcome, ZAB_INPUT_LENGTH);
    expect("its session", no_record.session, 20);
    expect("making without material", zab_make(1, nullptr, 0, nullptr, 0, nullptr, 0), ZAB_INPUT_LENGTH);
    const std::vector<std::uint8_t> key{0, 0, 0, 7};
    expect("checking with a short key", zab_check(key.data(), key.size(), nullptr, 0, nullptr, 0), ZAB_INPUT_LENGTH);
    std::vector<std::uint8_t> newer(ZAB_KEY_SIZE);
    newer[3] = 7;
    expect("checking with a newer key", zab_check(newer.data(), newer.size(), nullptr, 0, nullptr, 0), ZAB_TYPE_NOT_SERVED);
    std::printf("%d answers wrong\n", wrong);
    return wrong != 0;
}
