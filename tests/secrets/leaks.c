// Stand-ins for making and signing that give a secret byte away, by a branch or, with BY_ADDRESS, by where they read. LEAKED is the place
// of the byte in the seed material and, four bytes later, in the record. Else they only copy, so that the secrets get where they should.
#include <string.h>

#include "zabrintoly.h"

static const volatile uint8_t table[256]; // volatile: each read is made
static volatile uint8_t seen;

static void leak(uint8_t byte) {
#ifdef BY_ADDRESS
    seen = table[byte];
#else
    if (byte & 1) seen = table[0];
#endif
}

uint32_t zab_make(uint32_t kind, const uint8_t *material, size_t material_length, uint8_t *secret, size_t secret_length, uint8_t *key,
                  size_t key_length) {
    const uint8_t type[] = {0, 0, 0, (uint8_t)kind};
    leak(material[LEAKED]);
    memcpy(secret, type, 4);
    memcpy(secret + 4, material, material_length);
    memcpy(secret + 100, material, secret_length - 100);
    memcpy(key, type, 4);
    memcpy(key + 4, material, 32);
    memcpy(key + 36, material + 64, key_length - 36);
    return ZAB_DONE;
}

zab_signed zab_sign(const uint8_t *secret, size_t secret_length, const uint8_t *page, size_t page_length, uint32_t session,
                    const uint8_t *message, size_t message_length, uint8_t *out, size_t out_length) {
    (void)secret_length, (void)page, (void)page_length, (void)session, (void)message, (void)message_length;
    leak(secret[4 + LEAKED]);
    memset(out, 0, 36);
    for (size_t i = 36; i < out_length; i++) out[i] = secret[4 + i % 32];
    return (zab_signed){ZAB_DONE, 0};
}
