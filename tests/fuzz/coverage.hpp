// How much of the library itself was reached: libFuzzer's own count takes in the fuzzing program, whose branches it follows too.
#pragma once
#include <cstddef>

// To be called after each input.
void note_library_coverage();

std::size_t library_edges();
std::size_t library_edges_reached();
