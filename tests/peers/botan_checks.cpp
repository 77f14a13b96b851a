// Botan checks. Standard input: a check a line, key, message, signature. Standard output: its version, then a line for each check,
// "accepted" or "refused", with what it says where it throws.
#include <botan/exceptn.h>
#include <botan/version.h>

#include <iostream>

#include "botan_xmss.h"
#include "fields.h"

static std::string answer(const Field& key, const Field& message, const Field& signature) {
    try {
        return accepted(key, message, signature) ? "accepted" : "refused";
    } catch (const Botan::Exception& error) {
        return std::string("refused: ") + error.what();
    }
}

int main() {
    std::cout << "Botan " << Botan::short_version_string() << '\n';
    std::string key, message, signature;
    while (std::cin >> key >> message >> signature)
        std::cout << answer(bytes_of(key), bytes_of(message), bytes_of(signature)) << '\n';
}
