// Who is compared: plain C, ours, and Botan with more and with fewer instructions. Plain C does the compressions of the work, no more.
#include <string.h>

#include "bench.h"

long needed(const struct check *c) { return c->compressions[0] << 8 | c->compressions[1]; }

// All leaves and joins of the tree, and the public seed's preparation.
long making(void) { return 1024 * LEAF + 1023 * JOIN + 1; }

// The steps to the chain values of a digest: its half-bytes, and those of their checksum.
static long steps(const uint8_t digest[32]) {
    long sum = 0;
    for (int i = 0; i < 32; i++) sum += digest[i] / 16 + digest[i] % 16;
    long checksum = 64 * 15 - sum;
    return sum + checksum / 256 + checksum / 16 % 16 + checksum % 16;
}

// The path: every leaf but one, and the joins below its ten nodes. The index's own secret values and steps. The public seed, two
// compressions for r, and three for the message hash, whose 160 bytes are 2, r, the root, the index and the message.
long signing(const struct check *c) {
    uint8_t hashed[160] = {[31] = 2}, digest[32];
    memcpy(hashed + 32, c->signature + 4, 32);
    memcpy(hashed + 64, c->key + 4, 32);
    memcpy(hashed + 124, c->signature, 4);
    memcpy(hashed + 128, c->message, sizeof c->message);
    plain_sha256(hashed, sizeof hashed, digest);
    return 1023 * LEAF + 1013 * JOIN + SECRETS + steps(digest) * STEP + 1 + 2 + 3;
}

static bool ready(void) { return true; }

static bool plain_checks(const struct check *c) {
    plain_work(needed(c));
    return true;
}

static bool plain_makes(struct check *pair) {
    (void)pair;
    plain_work(making());
    return true;
}

static bool plain_signs(struct check *pair) {
    plain_work(signing(pair));
    return true;
}

static bool botan_with_sha(void) { return botan_may_use(true, false); }
static bool botan_with_bmi2(void) { return botan_may_use(false, true); }
static bool botan_alone(void) { return botan_may_use(false, false); }

struct contender contenders[CONTENDERS] = {
    [PLAIN] = {"plain C, those compressions alone", ready, plain_checks, plain_makes, plain_signs, false},
    [OURS] = {"ours", ready, we_accept, we_make, we_sign, false},
    {"Botan with SHA instructions", botan_with_sha, botan_accepts, botan_makes, botan_signs, false},
    {"Botan without them, with BMI2", botan_with_bmi2, botan_accepts, botan_makes, botan_signs, false},
    {"Botan without both", botan_alone, botan_accepts, botan_makes, botan_signs, false},
};
