// Botan as a checker, maker and signer. Its flags are set in the process, since Debian's Botan 2 reads no environment variable for them;
// its SHA-256 looks at them for every block.
#include <botan/cpuid.h>
#include <botan/der_enc.h>
#include <botan/pubkey.h>
#include <botan/system_rng.h>
#include <botan/version.h>
#include <botan/xmss.h>

#include <algorithm>
#include <memory>
#include <string>
#include <vector>

#include "bench.h"

using Botan::CPUID;

// The key that was made last, until it signs. Not kept longer: at the program's end Botan's memory for keys is gone before it.
static std::unique_ptr<Botan::XMSS_PrivateKey> made;

bool botan_may_use(bool sha, bool bmi2) {
    CPUID::initialize();
#ifdef BOTAN_TARGET_CPU_IS_X86_FAMILY
    if (!sha) CPUID::clear_cpuid_bit(CPUID::CPUID_SHA_BIT);
    if (!bmi2) CPUID::clear_cpuid_bit(CPUID::CPUID_BMI2_BIT);
#else
    if (!sha) CPUID::clear_cpuid_bit(CPUID::CPUID_ARM_SHA2_BIT);
#endif
    const std::string flags = ' ' + CPUID::to_string() + ' ';
    const auto has = [&](const char* name) { return flags.find(name) != std::string::npos; };
    return (has(" intel_sha ") || has(" arm_sha2 ")) == sha && has(" bmi2 ") == bmi2;
}

bool botan_accepts(const check* c) {
    std::vector<std::uint8_t> key;
    Botan::DER_Encoder(key).encode(c->key, sizeof c->key, Botan::OCTET_STRING);
    const Botan::XMSS_PublicKey loaded(key);
    Botan::PK_Verifier verifier(loaded, "SHA2_10_256");
    return verifier.verify_message(c->message, sizeof c->message, c->signature, sizeof c->signature);
}

bool botan_makes(check* pair) {
    made = std::make_unique<Botan::XMSS_PrivateKey>(Botan::XMSS_Parameters::XMSS_SHA2_10_256, Botan::system_rng());
    const std::vector<std::uint8_t> key = made->raw_public_key();
    if (key.size() != sizeof pair->key) return false;
    std::copy(key.begin(), key.end(), pair->key);
    return true;
}

bool botan_signs(check* pair) {
    const auto key = std::move(made);
    Botan::PK_Signer signer(*key, Botan::system_rng(), "SHA2_10_256");
    const std::vector<std::uint8_t> signature = signer.sign_message(pair->message, sizeof pair->message, Botan::system_rng());
    if (signature.size() != sizeof pair->signature) return false;
    std::copy(signature.begin(), signature.end(), pair->signature);
    return true;
}

const char* botan_version() {
    static const std::string version = Botan::short_version_string();
    return version.c_str();
}

const char* botan_flags() {
    static std::string flags;
    flags = CPUID::to_string();
    return flags.c_str();
}
