// What the benchmark compares: plain C, our library and the inner layers that crates/probe exports, and Botan.
#ifndef ZABRINTOLY_BENCH_H
#define ZABRINTOLY_BENCH_H

#include <stdbool.h>
#include <stddef.h>
#include <stdint.h>
#include <zabrintoly.h>

#ifdef __cplusplus
extern "C" {
#endif

// Compressions, with seeds prepared once. A leaf: 67 chains of 15 steps, 66 joins, and its 67 secret values with their seed.
enum { STEP = 4, JOIN = 6, SECRETS = 3 + 67, LEAF = 67 * 15 * STEP + 66 * JOIN + SECRETS };

// A key, a message and its signature. bench/signatures.py writes sixteen, with the number of compressions that the check needs;
// those who make keys and sign fill in key and signature.
struct check {
    uint8_t key[68], message[32], signature[2500], compressions[2];
};
enum { CHECKS = 16 };
extern struct check checks[CHECKS];

struct contender {
    const char *name;
    bool (*ready)(void);
    bool (*accepts)(const struct check *);
    bool (*make)(struct check *);
    bool (*sign)(struct check *);
    bool on_this_machine;
};

// Plain C is first: it works, but checks and makes nothing.
enum { PLAIN, OURS, CONTENDERS = 5 };
extern struct contender contenders[CONTENDERS];

double seconds(void);
bool read_checks(void);
bool tells_apart(const struct contender *who);

void plain_work(long compressions);
long needed(const struct check *check);
long making(void);
long signing(const struct check *check);
bool compare_checks(void);
bool compare_pairs(void);

void plain_sha256(const uint8_t *message, size_t length, uint8_t out[32]);

bool we_accept(const struct check *check);
bool we_make(struct check *pair);
bool we_sign(struct check *pair);

void zab_probe_sha256(const uint8_t *message, size_t length, uint8_t out[32]);
void zab_probe_leaf(const uint8_t secret[32], const uint8_t public_seed[32], uint32_t leaf, uint8_t out[32]);

// Leaves Botan's SHA-256 these instructions and no others. False where it then has not just these: the machine lacks one.
bool botan_may_use(bool sha, bool bmi2);
bool botan_accepts(const struct check *check);
bool botan_makes(struct check *pair);
bool botan_signs(struct check *pair);
const char *botan_version(void);
const char *botan_flags(void);

#ifdef __cplusplus
}
#endif

#endif
