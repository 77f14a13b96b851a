// Makes a key pair or signs under valgrind, with secret bytes marked as undefined: valgrind then reports every branch and every address
// that depends on them. Afterwards it looks where the mark went, since a mark that is lost on the way would hide what depends on it.
#include <stdio.h>
#include <string.h>
#include <valgrind/memcheck.h>

#include "zabrintoly.h"

// Where the parts begin.
enum { MATERIAL_PUBLIC_SEED = 64 };
enum { RECORD_SECRET_SEED = 4, RECORD_MESSAGE_KEY = 36, RECORD_PUBLIC_SEED = 68, RECORD_ROOT = 100 };
enum { KEY_ROOT = 4, KEY_PUBLIC_SEED = 36, SIGNATURE_CHAINS = 36 };

static int bad;

// Whether each byte from `first` to before `end` has an undefined bit, or each has none.
static void expect_secret(const char *what, const uint8_t *bytes, size_t first, size_t end, int secret) {
    for (size_t i = first; i < end; i++) {
        uint8_t undefined = 0;
        if (VALGRIND_GET_VBITS(bytes + i, &undefined, 1) != 1) {
            puts("not under valgrind: nothing is followed");
            bad = 1;
            return;
        }
        if ((undefined != 0) == secret) continue;
        printf("%s: byte %zu %s\n", what, i, secret ? "does not depend on the secret" : "depends on the secret");
        bad = 1;
        return;
    }
    printf("%s: bytes %zu to %zu %s\n", what, first, end - 1, secret ? "depend on the secret" : "do not depend on the secret");
}

static void expect_done(uint32_t outcome) {
    expect_secret("outcome", (const uint8_t *)&outcome, 0, sizeof outcome, 0);
    VALGRIND_MAKE_MEM_DEFINED(&outcome, sizeof outcome);
    if (outcome == ZAB_DONE) return;
    printf("outcome %u\n", (unsigned)outcome);
    bad = 1;
}

static void fill(uint8_t *bytes, size_t length) {
    for (size_t i = 0; i < length; i++) bytes[i] = (uint8_t)(7 * i + 1);
}

static void making(void) {
    uint8_t material[ZAB_MATERIAL_SIZE], secret[ZAB_SECRET_SIZE], key[ZAB_KEY_SIZE];
    fill(material, sizeof material);
    VALGRIND_MAKE_MEM_UNDEFINED(material, MATERIAL_PUBLIC_SEED); // secret seed and message key
    expect_done(zab_make(ZAB_XMSS_SHA2_10_256, material, sizeof material, secret, sizeof secret, key, sizeof key));
    expect_secret("record, type", secret, 0, RECORD_SECRET_SEED, 0);
    expect_secret("record, secret seed and message key", secret, RECORD_SECRET_SEED, RECORD_PUBLIC_SEED, 1);
    expect_secret("record, public seed", secret, RECORD_PUBLIC_SEED, RECORD_ROOT, 0);
    expect_secret("record, root", secret, RECORD_ROOT, ZAB_SECRET_SIZE, 1);
    expect_secret("key, type", key, 0, KEY_ROOT, 0);
    expect_secret("key, root", key, KEY_ROOT, KEY_PUBLIC_SEED, 1);
    expect_secret("key, public seed", key, KEY_PUBLIC_SEED, ZAB_KEY_SIZE, 0);
}

// The record is marked from the secret seed up to a part that is public, or may be: the message key decides r, which the signature shows.
static void signing(size_t end_of_secrets) {
    static const uint8_t message[] = "class 3 stands where class 2.1 should";
    uint8_t secret[ZAB_SECRET_SIZE] = {0, 0, 0, ZAB_XMSS_SHA2_10_256}, page[ZAB_PAGE_SIZE], out[ZAB_SIGNATURE_SIZE];
    fill(secret + RECORD_SECRET_SEED, ZAB_SECRET_SIZE - RECORD_SECRET_SEED);
    memset(page, ZAB_UNUSED_MARKS, sizeof page);
    page[0] = 0x03; // index 5 is the last used one
    VALGRIND_MAKE_MEM_UNDEFINED(secret + RECORD_SECRET_SEED, end_of_secrets - RECORD_SECRET_SEED);
    const zab_signed answer = zab_sign(secret, sizeof secret, page, sizeof page, 6, message, sizeof message - 1, out, sizeof out);
    expect_done(answer.outcome);
    expect_secret("session", (const uint8_t *)&answer.session, 0, sizeof answer.session, 0);
    expect_secret("signature, index and r", out, 0, SIGNATURE_CHAINS, 0);
    expect_secret("signature, chain values and path", out, SIGNATURE_CHAINS, ZAB_SIGNATURE_SIZE, 1);
}

int main(int count, char **words) {
    const char *operation = count == 2 ? words[1] : "";
    if (strcmp(operation, "making") == 0)
        making();
    else if (strcmp(operation, "signing") == 0)
        signing(RECORD_MESSAGE_KEY);
    else if (strcmp(operation, "signing-with-message-key-marked") == 0)
        signing(RECORD_PUBLIC_SEED);
    else
        return 2;
    return bad;
}
