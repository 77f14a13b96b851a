// Times two builds of our library in turn. Its arguments are THIS.so OTHER.so, and the same two at three more places of a line: each is
// bench/ours.c with a build's archive. It reads its signatures from standard input. Prints for making, signing and checking: the time of
// either build, the mean over the places of the median there; the ratio of the two; and the least and the greatest ratio of a turn.
//
// Both builds must make the same key and the same signature, and tell good signatures from damaged ones.
#include <dlfcn.h>
#include <stdio.h>
#include <stdlib.h>
#include <string.h>

#include "bench.h"

enum { THIS, OTHER, BUILDS };
enum { MAKE, SIGN, CHECK, WORKS };
// A turn is at one of the places and takes some seconds; in it each build goes so many times through the sixteen checks.
enum { PLACES = 4, TURNS = 3, TIMES = 40 };

static struct contender builds[PLACES][BUILDS];
static double times[WORKS][BUILDS][PLACES][TURNS];

static bool load(struct contender *build, const char *path) {
    void *file = dlopen(path, RTLD_NOW | RTLD_LOCAL);
    if (!file) {
        fprintf(stderr, "beside: %s\n", dlerror());
        return false;
    }
    build->name = path;
    build->make = dlsym(file, "we_make");
    build->sign = dlsym(file, "we_sign");
    build->accepts = dlsym(file, "we_accept");
    return true;
}

static void do_work(int work, const struct contender *build, struct check *pair) {
    if (work == MAKE) build->make(pair);
    if (work == SIGN) build->sign(pair);
    if (work == CHECK)
        for (int i = 0; i < TIMES * CHECKS; i++) build->accepts(&checks[i % CHECKS]);
}

// The build that goes first changes from turn to turn.
static bool time_turn(int place, int turn) {
    const struct contender *at_place = builds[place];
    struct check pairs[BUILDS] = {0};
    for (int work = 0; work < WORKS; work++)
        for (int i = 0; i < BUILDS; i++) {
            int who = (i + turn) % BUILDS;
            double start = seconds();
            do_work(work, &at_place[who], &pairs[who]);
            times[work][who][place][turn] = seconds() - start;
        }
    // The signature rests on every byte of the secret record that was made.
    if (memcmp(&pairs[THIS], &pairs[OTHER], sizeof pairs[THIS]) == 0 && at_place[THIS].accepts(&pairs[THIS])) return true;
    fputs("beside: the two builds differ in key or signature, or the signature is not good\n", stderr);
    return false;
}

static int by_size(const void *a, const void *b) {
    const double *x = a, *y = b;
    return (*x > *y) - (*x < *y);
}

// A place that is slow for a build counts for a quarter, however few or many there are: a median over all turns would jump with them.
static double mean_of_medians(double of[PLACES][TURNS]) {
    double sum = 0;
    for (int place = 0; place < PLACES; place++) {
        qsort(of[place], TURNS, sizeof of[place][0], by_size);
        sum += of[place][TURNS / 2];
    }
    return sum / PLACES;
}

static void print_row(const char *name, double of[BUILDS][PLACES][TURNS], int parts) {
    double least = 1e9, most = 0;
    for (int place = 0; place < PLACES; place++)
        for (int turn = 0; turn < TURNS; turn++) {
            double ratio = of[THIS][place][turn] / of[OTHER][place][turn];
            if (ratio < least) least = ratio;
            if (ratio > most) most = ratio;
        }
    double this = mean_of_medians(of[THIS]), other = mean_of_medians(of[OTHER]);
    printf("%-32s %10.3f %10.3f %8.3f   %.3f to %.3f\n", name, other / parts * 1e3, this / parts * 1e3, this / other, least, most);
}

int main(int count, char **paths) {
    if (count != 1 + PLACES * BUILDS) {
        fputs("beside: two builds at four places are needed\n", stderr);
        return 2;
    }
    if (!read_checks()) return 1;
    for (int i = 0; i < PLACES * BUILDS; i++) {
        struct contender *build = &builds[i / BUILDS][i % BUILDS];
        if (!load(build, paths[1 + i]) || !tells_apart(build)) return 1;
    }
    for (int turn = 0; turn < TURNS; turn++)
        for (int place = 0; place < PLACES; place++)
            if (!time_turn(place, turn)) return 1;
    printf("%-32s %10s %10s %8s   %s\n", "ms, at four places of a line", "other", "this", "ratio", "of single turns");
    print_row("making a key pair", times[MAKE], 1);
    print_row("signing", times[SIGN], 1);
    print_row("a check of type 1, mean of 16", times[CHECK], TIMES * CHECKS);
    return 0;
}
