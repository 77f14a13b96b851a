// Botan makes one key and signs with it. Arguments: the type (1, 2 or 3), and 32 bytes of seed from which the key is made.
// Standard input: one signature wanted a line, its index in decimal and its message. Standard output, a line for each: key, message,
// signature. Botan builds its tree again for every signature.
#include <botan/hmac_drbg.h>
#include <botan/pubkey.h>
#include <botan/xmss.h>

#include <iostream>

#include "fields.h"

// Its numbers of types are RFC 8391's.
static Botan::XMSS_PrivateKey make(const std::string& type, Botan::RandomNumberGenerator& random) {
    return {static_cast<Botan::XMSS_Parameters::xmss_algorithm_t>(std::stoi(type)), random};
}

int main(int, char** arguments) {
    // This generator's bytes follow from the seed alone.
    Botan::HMAC_DRBG random("SHA-256");
    const Field seed = bytes_of(arguments[2]);
    random.initialize_with(seed.data(), seed.size());
    Botan::XMSS_PrivateKey key = make(arguments[1], random);
    const std::string public_key = text_of(key.raw_public_key());
    std::string message;
    for (std::size_t index; std::cin >> index >> message;) {
        key.set_unused_leaf_index(index);
        Botan::PK_Signer signer(key, random, "");
        std::cout << public_key << ' ' << message << ' ' << text_of(signer.sign_message(bytes_of(message), random)) << std::endl;
    }
}
