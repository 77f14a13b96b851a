// Botan's checking, on keys and signatures as RFC 8391 writes them.
#pragma once
#include <botan/der_enc.h>
#include <botan/pubkey.h>
#include <botan/xmss.h>

#include <cstdint>
#include <vector>

using Bytes = std::vector<std::uint8_t>;

// Botan takes the key's 68 bytes as an octet string of ASN.1. It reads the type from them, whatever the verifier is told.
inline bool accepted(const Bytes& key, const Bytes& message, const Bytes& signature) {
    Bytes encoded;
    Botan::DER_Encoder(encoded).encode(key, Botan::OCTET_STRING);
    const Botan::XMSS_PublicKey loaded(encoded);
    Botan::PK_Verifier verifier(loaded, "");
    return verifier.verify_message(message, signature);
}
