/* The header and the library serve C too: a key of a newer type is told from a damaged copy. */
#include <stdio.h>
#include <zabrintoly.h>

int main(void) {
    const uint8_t key[ZAB_KEY_SIZE] = {0, 0, 0, 7};
    const uint32_t outcome = zab_check(key, sizeof key, NULL, 0, NULL, 0);
    printf("%s %u\n", ZAB_VERSION, outcome);
    return outcome != ZAB_TYPE_NOT_SERVED;
}
