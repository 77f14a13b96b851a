// How much stack each operation takes: it is called on a painted stack, and the deepest byte whose paint is gone tells. Fails where that is
// over the 64 KiB of zabrintoly.h.
#include <stdio.h>
#include <stdlib.h>
#include <string.h>
#include <ucontext.h>

#include "zabrintoly.h"

enum { STACK = 1 << 20, LIMIT = 64 << 10 };

static uint8_t stack[STACK];
static ucontext_t outside, inside;
static const uint8_t *top;

static uint8_t material[ZAB_MATERIAL_SIZE], secret[ZAB_SECRET_SIZE], key[ZAB_KEY_SIZE], page[ZAB_PAGE_SIZE];
static uint8_t message[ZAB_MESSAGE_LIMIT], signature[ZAB_SIGNATURE_SIZE], long_signature[ZAB_SIGNATURE_SIZE_TYPE_3];
static uint32_t outcome;

static void make(void) { outcome = zab_make(ZAB_XMSS_SHA2_10_256, material, sizeof material, secret, sizeof secret, key, sizeof key); }

static void reserve(void) { outcome = zab_reserve(page, sizeof page, 0).outcome; }

static void mark(void) { outcome = zab_mark(page, sizeof page, ZAB_MARKS).outcome; }

static void sign(void) {
    outcome = zab_sign(secret, sizeof secret, page, sizeof page, ZAB_MARKS, message, sizeof message, signature, sizeof signature).outcome;
}

static void check(void) { outcome = zab_check(key, sizeof key, message, sizeof message, signature, sizeof signature); }

// The longest path: it leads to no known root, but all of it is walked before that is seen.
static void check_type_3(void) {
    static const uint8_t type_3[ZAB_KEY_SIZE] = {0, 0, 0, ZAB_XMSS_SHA2_20_256};
    outcome = zab_check(type_3, sizeof type_3, message, sizeof message, long_signature, sizeof long_signature);
}

static const struct operation {
    const char *name;
    void (*call)(void);
    uint32_t outcome;
} operations[] = {
    {"making a key pair", make, ZAB_DONE},
    {"reserving", reserve, ZAB_DONE},
    {"marking", mark, ZAB_DONE},
    {"signing 65,536 bytes", sign, ZAB_DONE},
    {"checking 65,536 bytes, type 1", check, ZAB_DONE},
    {"checking 65,536 bytes, type 3", check_type_3, ZAB_ROOT_DIFFERS},
};
static const struct operation *current;

static void call_current(void) {
    top = __builtin_frame_address(0);
    current->call();
}

// Bytes from the caller's frame down to the deepest one that has lost its paint.
static size_t used_over(uint8_t paint) {
    memset(stack, paint, sizeof stack);
    getcontext(&inside);
    inside.uc_stack.ss_sp = stack;
    inside.uc_stack.ss_size = sizeof stack;
    inside.uc_link = &outside;
    makecontext(&inside, call_current, 0);
    swapcontext(&outside, &inside);
    const uint8_t *deepest = stack;
    while (*deepest == paint) deepest++;
    return (size_t)(top - deepest);
}

// Two paints: a byte that is written with the one still shows over the other.
static size_t used(void) {
    const size_t first = used_over(0xa5), second = used_over(0x5a);
    return first > second ? first : second;
}

int main(void) {
    int bad = 0;
    for (size_t i = 0; i < sizeof message; i++) message[i] = (uint8_t)(i % 251);
    page[ZAB_PAGE_SIZE - 1] = 1; // all used but the last
    printf("%-48s %8s\n", "stack of a call, limit 65,536 bytes", "bytes");
    for (current = operations; current < operations + sizeof operations / sizeof operations[0]; current++) {
        const size_t bytes = used();
        const int good = bytes <= LIMIT && outcome == current->outcome;
        printf("%-48s %8zu%s\n", current->name, bytes, good ? "" : " FAILED");
        if (outcome != current->outcome) printf("outcome %u\n", (unsigned)outcome);
        bad |= !good;
    }
    return bad;
}
