// Times the proved code beside plain C in one run. Prints a line each: what, ns of ours, ns of plain C's blocks for the same work.
// Checking comes first, in checks.c: it reads its signatures from standard input. Making and signing come last, in pairs.c.
//
// Runs of the two alternate, and the least of many runs counts.
#include <stdio.h>
#include <string.h>

#include "bench.h"

static uint8_t message[65536], secret[32], public_seed[32], ours[32], plain[32];

static void block(void) { zab_probe_sha256(message, sizeof message, ours); }
static void leaf(void) { zab_probe_leaf(secret, public_seed, 5, ours); }

// So many compressions in plain C: those of the whole message again and again, and of a part of it at the end.
void plain_work(long compressions) {
    for (long most = sizeof message / 64 + 1; compressions > 0; compressions -= most)
        plain_sha256(message, 64 * ((compressions < most ? compressions : most) - 1), plain);
}

// Compares work of so many compressions with as many of plain C's, in that many runs. Stretches of the two are of equal length,
// so that what the machine does beside them falls on both.
static void compare(const char *name, void work(void), long compressions, int runs) {
    double least_ours = 1e9, least_plain = 1e9;
    for (int run = 0; run < runs; run++) {
        double start = seconds();
        work();
        double middle = seconds();
        plain_work(compressions);
        double end = seconds();
        if (middle - start < least_ours) least_ours = middle - start;
        if (end - middle < least_plain) least_plain = end - middle;
    }
    printf("%s %.1f %.1f\n", name, least_ours * 1e9, least_plain * 1e9);
}

int main(void) {
    for (size_t i = 0; i < sizeof message; i++) message[i] = (uint8_t)(i % 251);
    for (int i = 0; i < 32; i++) secret[i] = (uint8_t)(3 * i + 1), public_seed[i] = (uint8_t)(5 * i + 2);
    block();
    plain_work(sizeof message / 64 + 1);
    if (memcmp(ours, plain, 32) != 0) {
        fputs("bench: the two hashes differ\n", stderr);
        return 1;
    }
    if (!compare_checks()) return 1;
    compare("block", block, sizeof message / 64 + 1, 2000);
    compare("leaf", leaf, LEAF, 500);
    printf("note plain C is compiled by gcc %s with -O3\n", __VERSION__);
    // The library's functions are aligned to 16 bytes, on Arm to 4, so another build of this program can put them elsewhere in a line.
    printf("note our SHA-256 begins at byte %d of a 64-byte line\n",
           (int)((uintptr_t)zab_probe_sha256 % 64));
    return compare_pairs() ? 0 : 1;
}
