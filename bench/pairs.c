// Times making a key pair and signing with it: ours, Botan's, and as many of plain C's compressions as we need.
// Prints how many those are, and for each contender its least times in ns and its name.
//
// Our checker must accept every signature under the key that was made with it, Botan's too.
#include <stdio.h>
#include <string.h>

#include "bench.h"

// A round takes a quarter of a minute.
enum { ROUNDS = 4 };

static struct check pairs[CONTENDERS];
static double least_make[CONTENDERS], least_sign[CONTENDERS];

static bool time_work(bool work(struct check *), struct check *pair, double *least) {
    double start = seconds();
    bool done = work(pair);
    double time = seconds() - start;
    if (*least == 0 || time < *least) *least = time;
    return done;
}

static bool time_pair(int i) {
    const struct contender *who = &contenders[i];
    who->ready();
    if (time_work(who->make, &pairs[i], &least_make[i]) && time_work(who->sign, &pairs[i], &least_sign[i]) &&
        (i == PLAIN || contenders[OURS].accepts(&pairs[i])))
        return true;
    fprintf(stderr, "bench: %s: no key pair, or no good signature with it\n", who->name);
    return false;
}

static void print_times(void) {
    printf("needed make %ld\nneeded sign %ld\n", making(), signing(&pairs[OURS]));
    for (int i = 0; i < CONTENDERS; i++) {
        printf("make %.1f %s\n", least_make[i] * 1e9, contenders[i].name);
        printf("sign %.1f %s\n", least_sign[i] * 1e9, contenders[i].name);
    }
    puts("note Botan makes and signs with a thread for each processor; here all of them are on one core, and their times are added");
}

bool compare_pairs(void) {
    for (int i = 0; i < CONTENDERS; i++) memset(pairs[i].message, 0x5a, sizeof pairs[i].message);
    // How much signing needs hangs on the signature, so plain C has to be told ours.
    contenders[OURS].make(&pairs[PLAIN]);
    contenders[OURS].sign(&pairs[PLAIN]);
    for (int round = 0; round < ROUNDS; round++)
        for (int i = 0; i < CONTENDERS; i++)
            if (contenders[i].on_this_machine && !time_pair(i)) return false;
    print_times();
    return true;
}
