// Our library makes one key and signs with it, as a signer does whose page has all marks before the wanted index used. Arguments: the
// type, and 96 bytes of seed material. Standard input: one signature wanted a line, its index in decimal and its message. Standard
// output, a line for each: key, message, signature.
#include <zabrintoly.hpp>

#include <array>
#include <iostream>
#include <utility>

#include "fields.h"

using Page = std::array<std::uint8_t, zabrintoly::page_size>;
using Signature = std::array<std::uint8_t, zabrintoly::signature_size>;

struct Pair {
    std::array<std::uint8_t, zabrintoly::secret_size> secret;
    std::array<std::uint8_t, zabrintoly::key_size> key;
};

static void done(zabrintoly::Outcome outcome) {
    if (outcome != zabrintoly::Outcome::done) throw std::runtime_error(std::string(zabrintoly::text(outcome)));
}

static Pair make(const std::string& type, const Field& material) {
    Pair pair;
    done(zabrintoly::make(static_cast<std::uint32_t>(std::stoul(type)), material, pair.secret, pair.key));
    return pair;
}

static Page page_with(std::size_t used) {
    Page page;
    page.fill(zabrintoly::unused_marks);
    for (std::size_t mark = 0; mark < used; mark++) page.at(mark / 8) &= static_cast<std::uint8_t>(~(0x80 >> mark % 8));
    return page;
}

static Signature sign(const Pair& pair, std::size_t index, const Field& message) {
    Page page = page_with(index);
    auto reserved = zabrintoly::reserve(page, zabrintoly::Session::after_restart());
    done(reserved.outcome);
    page.at(reserved.place) = reserved.value;
    auto marked = zabrintoly::mark(page, std::move(reserved.session));
    done(marked.outcome);
    Signature signature;
    done(zabrintoly::sign(pair.secret, page, std::move(marked.session), message, signature).outcome);
    return signature;
}

int main(int, char** arguments) {
    const Pair pair = make(arguments[1], bytes_of(arguments[2]));
    std::string message;
    for (std::size_t index; std::cin >> index >> message;)
        std::cout << text_of(pair.key) << ' ' << message << ' ' << text_of(sign(pair, index, bytes_of(message))) << std::endl;
}
