// Our library as a checker, maker and signer.
#include <string.h>

#include "bench.h"

// So many marks are used when we sign: the index before it is in the middle of the tree and of a byte of the page.
enum { USED = 390 };

static uint8_t secret[132];

bool we_accept(const struct check *c) {
    return zab_check(c->key, sizeof c->key, c->message, sizeof c->message, c->signature, sizeof c->signature) == ZAB_DONE;
}

bool we_make(struct check *pair) {
    uint8_t material[96];
    for (size_t i = 0; i < sizeof material; i++) material[i] = (uint8_t)(3 * i + 1);
    return zab_make(1, material, sizeof material, secret, sizeof secret, pair->key, sizeof pair->key) == ZAB_DONE;
}

bool we_sign(struct check *pair) {
    uint8_t page[128] = {0};
    page[USED / 8] = 0xff >> USED % 8;
    memset(page + USED / 8 + 1, 0xff, sizeof page - USED / 8 - 1);
    return zab_sign(secret, sizeof secret, page, sizeof page, USED, pair->message, sizeof pair->message, pair->signature,
                    sizeof pair->signature)
               .outcome == ZAB_DONE;
}
