// What bench and beside are given: processor time, and the checks of bench/signatures.py on standard input.
#include <stdio.h>
#include <time.h>

#include "bench.h"

struct check checks[CHECKS];

// Processor time of all threads: what else the machine does in a run of seconds doesn't count, and Botan's threads do.
double seconds(void) {
    struct timespec t;
    clock_gettime(CLOCK_PROCESS_CPUTIME_ID, &t);
    return t.tv_sec + t.tv_nsec * 1e-9;
}

bool read_checks(void) {
    if (fread(checks, sizeof checks[0], CHECKS, stdin) == CHECKS) return true;
    fputs("bench: standard input is not sixteen checks\n", stderr);
    return false;
}

// Whether a checker accepts every signature and refuses each with its last bit changed.
bool tells_apart(const struct contender *who) {
    for (int i = 0; i < CHECKS; i++) {
        struct check damaged = checks[i];
        damaged.signature[sizeof damaged.signature - 1] ^= 1;
        if (!who->accepts(&checks[i]) || who->accepts(&damaged)) {
            fprintf(stderr, "bench: %s: signature %d is refused, or accepted when damaged\n", who->name, i);
            return false;
        }
    }
    return true;
}
