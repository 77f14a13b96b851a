// Reads the fuzzer's counters. It is compiled without them: the compiler uses the linker's names below for itself where it sets them up.
#include "coverage.hpp"

#include <algorithm>
#include <array>
#include <cstdint>
#include <cstdio>
#include <cstdlib>

#include "zabrintoly.h"

// The counters of all branches, and where each is. LIBRARY_COUNTERS of them are the library's: the last ones, since it is linked last.
struct Place {
    std::uintptr_t address, flags;
};
extern "C" const std::uint8_t __stop___sancov_cntrs[];
extern "C" const Place __stop___sancov_pcs[];

static std::array<bool, LIBRARY_COUNTERS> reached;

static bool makes_begin(const Place &place) { return place.address == reinterpret_cast<std::uintptr_t>(&zab_make); }

void note_library_coverage() {
    const std::uint8_t *counters = __stop___sancov_cntrs - LIBRARY_COUNTERS;
    for (std::size_t i = 0; i < LIBRARY_COUNTERS; i++) reached[i] = reached[i] || counters[i] != 0;
}

std::size_t library_edges() {
    if (std::none_of(__stop___sancov_pcs - LIBRARY_COUNTERS, __stop___sancov_pcs, makes_begin)) {
        std::fputs("fuzz: the last counters are not the library's\n", stderr);
        std::abort();
    }
    return LIBRARY_COUNTERS;
}

std::size_t library_edges_reached() { return static_cast<std::size_t>(std::count(reached.begin(), reached.end(), true)); }
