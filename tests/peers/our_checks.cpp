// Our library checks. Standard input: a check a line, key, message, signature. Standard output: its version, then the outcome of each.
#include <zabrintoly.hpp>

#include <iostream>

#include "fields.h"

int main() {
    std::cout << "Zabrintoly " << ZAB_VERSION << '\n';
    std::string key, message, signature;
    while (std::cin >> key >> message >> signature)
        std::cout << static_cast<unsigned>(zabrintoly::check(bytes_of(key), bytes_of(message), bytes_of(signature))) << '\n';
}
