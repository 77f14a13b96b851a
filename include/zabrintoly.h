/*
 * Zabrintoly: XMSS signatures of RFC 8391, made and checked by proved code
 *
 * With SHA-256 and 32-byte values, keys of height 10 are made and sign, and signatures of heights 10, 16 and 20 are checked.
 * zabrintoly.h is the manual of the library. C++ programs take zabrintoly.hpp, which wraps it.
 *
 * WHAT EVERY CALL DOES
 *   - A call takes numbers and byte buffers, each buffer as a pointer and a length. Any length is allowed: a wrong one is answered
 *     by an outcome. A null pointer is allowed where the length is 0. There is nothing to test first.
 *   - A call answers one of the numbered outcomes below: the first of its list whose condition holds, or 0.
 *   - A refused call, one with an outcome other than 0, leaves every buffer as it found it and hands back the session as given.
 *   - A call keeps nothing between calls, allocates nothing, reads no file and no clock, and may be made from several threads at once,
 *     where they do not write to each other's buffers. It needs at most 64 KiB of stack (13 KiB were measured), and does not wipe it.
 *
 * THE CALLER'S ONE DUTY
 *   Pointers are valid for their lengths, and a buffer that a call writes to (`secret` and `key` of zab_make, `page` of zab_mark, `out`
 *   of zab_sign) overlaps no other buffer of the same call. zabrintoly.hpp takes the second half of this duty away.
 *
 * HOW TO CHECK
 *   One call of zab_check. Take the file where it answers 0, and only there. Tell the other numbers apart in what you say to people:
 *   ZAB_TYPE_NOT_SERVED means that a newer checker is needed, not that the file is damaged. With an empty signature the answer is
 *   ZAB_SIGNATURE_LENGTH exactly where the key is one that is served.
 *
 * HOW TO SIGN
 *   An index that signs two messages gives the key away. The page of marks says which indices are used; it is stored beside the
 *   secret record, and its mark is on the disk before the signature is made. Under a lock that no other signer of this key holds:
 *     1. zab_reserve with the stored page and session 0 gives a session, a place and a value.
 *     2. Write the value at that place of the stored page, and flush it to the device. One byte: a crash leaves it old or new.
 *     3. Read the page again.
 *     4. zab_mark with the page as read and the session: it answers 0 and changes nothing where step 2 was done.
 *     5. zab_sign with the page as read and the session. It answers ZAB_SESSION_DOES_NOT_FIT where the mark is not in the page.
 *     6. Go on with the session that it hands back: 0 after a signature.
 *
 *   A call of zab_sign with session 0 signs nothing, and names what it would refuse in record and message before an index is spent.
 *   After a restart begin with session 0. A mark that was stored without a signature is lost; the next index is taken.
 *   Never make a page anew for a key that has signed, and never bring an old copy of one back: its indices would be used twice.
 *   examples/converter does all of this.
 */
#ifndef ZABRINTOLY_H
#define ZABRINTOLY_H

#include <stddef.h>
#include <stdint.h>

#define ZAB_VERSION "1.0.0"

#ifdef __cplusplus
extern "C" {
#endif

/* Sizes in bytes. Numbers inside buffers are big-endian. */
enum {
    ZAB_MATERIAL_SIZE = 96,            /* seed material: secret seed, message key, public seed, 32 random bytes each */
    ZAB_SECRET_SIZE = 132,             /* secret record: type (4), secret seed, message key, public seed, root */
    ZAB_KEY_SIZE = 68,                 /* public key: type (4), root, public seed */
    ZAB_PAGE_SIZE = 128,               /* page: mark i is bit i mod 8 of byte i div 8 from the most significant; 1 unused, 0 used */
    ZAB_SIGNATURE_SIZE = 2500,         /* signature of type 1: index (4), r, 67 chain values, 10 path nodes */
    ZAB_SIGNATURE_SIZE_TYPE_2 = 2692,  /* the same with 16 path nodes */
    ZAB_SIGNATURE_SIZE_TYPE_3 = 2820,  /* the same with 20 path nodes */
    ZAB_MESSAGE_LIMIT = 65536,         /* the longest message */
    ZAB_MARKS = 1024                   /* marks of a page, and so signatures of a key */
};

/* Key types. All three are checked; making and signing serve the first. */
enum {
    ZAB_XMSS_SHA2_10_256 = 1,
    ZAB_XMSS_SHA2_16_256 = 2,
    ZAB_XMSS_SHA2_20_256 = 3
};

/* The value of every byte of a fresh page. Only the making of a key writes one. */
enum { ZAB_UNUSED_MARKS = 0xff };

/* Outcomes. */
enum {
    ZAB_DONE = 0,                   /* done, or accepted */
    ZAB_INPUT_LENGTH = 1,           /* public key, secret record or seed material of wrong length */
    ZAB_TYPE_NOT_SERVED = 2,        /* the key's type is not served by this operation */
    ZAB_SIGNATURE_LENGTH = 3,       /* the signature's length is wrong for the key's type */
    ZAB_MESSAGE_TOO_LONG = 4,       /* the message has more than 65,536 bytes */
    ZAB_INDEX_TOO_LARGE = 5,        /* the signature's index is 2^h or more */
    ZAB_ROOT_DIFFERS = 6,           /* the signature does not belong to this key and message */
    ZAB_PAGE_DAMAGED = 7,           /* the page has not 128 bytes, or a used mark after an unused one */
    ZAB_PAGE_FULL = 8,              /* every mark is used */
    ZAB_SESSION_PENDING = 9,        /* reserving with a session other than 0 */
    ZAB_SESSION_DOES_NOT_FIT = 10,  /* the session is not 1 to 1,024, or the page does not fit it */
    ZAB_OUT_LENGTH = 11,            /* a buffer to write to has the wrong length */
    ZAB_NOT_A_FRAME = 12            /* a line is no frame: of the checking program only */
};

/* What zab_reserve answers. Refused: the session as given, place and value 0. */
typedef struct zab_reserved {
    uint32_t outcome;
    uint32_t session; /* p means that index p - 1 is pending; 0 that none is */
    uint32_t place;   /* where to write in the stored page, 0 to 127 */
    uint8_t value;    /* what to write there */
} zab_reserved;

/* What zab_mark answers: the session as given. */
typedef struct zab_marked {
    uint32_t outcome;
    uint32_t session;
} zab_marked;

/* What zab_sign answers: session 0 with a signature, else the session as given. */
typedef struct zab_signed {
    uint32_t outcome;
    uint32_t session;
} zab_signed;

/*
 * Makes a key pair of type `kind` from 96 bytes of seed material, which must come from a source of random numbers for keys.
 * Writes 132 bytes to `secret` and 68 to `key`. Takes some seconds: it builds the tree of 1,024 leaves.
 * Outcomes, in this order: 1, 2, 11.
 */
uint32_t zab_make(uint32_t kind, const uint8_t *material, size_t material_length, uint8_t *secret, size_t secret_length, uint8_t *key,
                  size_t key_length);

/*
 * Finds the first unused index. Nothing is written: the mark counts once the caller has stored the byte.
 * Outcomes, in this order: 7, 9, 8.
 */
zab_reserved zab_reserve(const uint8_t *page, size_t page_length, uint32_t session);

/*
 * Marks the pending index used, where it is the first unused one; where its mark is the last used one, answers 0 and changes nothing.
 * Outcomes, in this order: 7, 10.
 */
zab_marked zab_mark(uint8_t *page, size_t page_length, uint32_t session);

/*
 * Signs with the pending index, whose mark must be the last used one of the page. Writes 2,500 bytes to `out`; `secret` and `page` are
 * only read. Takes as long as making: it builds the tree again.
 * Outcomes, in this order: 1, 2, 4, 11, 7, 10.
 */
zab_signed zab_sign(const uint8_t *secret, size_t secret_length, const uint8_t *page, size_t page_length, uint32_t session,
                    const uint8_t *message, size_t message_length, uint8_t *out, size_t out_length);

/*
 * Checks a signature. Nothing of it is read before the key's type is known to be served.
 * Outcomes, in this order: 1, 2, 3, 4, 5, 6.
 */
uint32_t zab_check(const uint8_t *key, size_t key_length, const uint8_t *message, size_t message_length, const uint8_t *signature,
                   size_t signature_length);

#ifdef __cplusplus
}
#endif

#endif
