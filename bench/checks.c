// Times checking: ours, Botan's, and as many of plain C's compressions as the check needs.
// Prints the mean number of compressions, and for each its mean time in ns and its name.
//
// How far a check walks varies with the digest. So each signature has its own least time, and the mean of those is printed.
#include <stdio.h>

#include "bench.h"

enum { ROUNDS = 150 };

static double least[CONTENDERS][CHECKS];

// Botan's switches are set outside the measured stretch: asking the processor takes long on a virtual machine.
static void time_round(int who) {
    contenders[who].ready();
    for (int i = 0; i < CHECKS; i++) {
        double start = seconds();
        contenders[who].accepts(&checks[i]);
        double time = seconds() - start;
        if (least[who][i] == 0 || time < least[who][i]) least[who][i] = time;
    }
}

static void print_times(void) {
    double total = 0;
    for (int i = 0; i < CHECKS; i++) total += needed(&checks[i]);
    printf("needed check %.1f\n", total / CHECKS);
    for (int who = 0; who < CONTENDERS; who++) {
        double sum = 0;
        for (int i = 0; i < CHECKS; i++) sum += least[who][i];
        printf("check %.1f %s\n", sum / CHECKS * 1e9, contenders[who].name);
    }
    printf("note Botan %s; left on in its last row: %s\n", botan_version(), botan_flags());
}

// Where one contender can't be trusted, nothing is timed. Plain C checks nothing, and so is not asked to refuse.
static bool all_tell_apart(void) {
    for (struct contender *who = contenders; who < contenders + CONTENDERS; who++) {
        who->on_this_machine = who->ready();
        if (who != &contenders[PLAIN] && who->on_this_machine && !tells_apart(who)) return false;
    }
    if (!contenders[CONTENDERS - 1].on_this_machine) {
        fputs("bench: Botan's instructions can't be switched off\n", stderr);
        return false;
    }
    return true;
}

bool compare_checks(void) {
    if (!read_checks() || !all_tell_apart()) return false;
    for (int round = 0; round < ROUNDS; round++)
        for (int who = 0; who < CONTENDERS; who++)
            if (contenders[who].on_this_machine) time_round(who);
    print_times();
    return true;
}
