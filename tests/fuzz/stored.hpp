// Good signatures and whole keys of the independent program, as prepare.py wrote them. Fields are a length of four bytes and the bytes.
#pragma once
#include <cstdint>
#include <cstdio>
#include <cstdlib>
#include <fstream>
#include <iterator>
#include <string>
#include <vector>

#include "lent.hpp"
#include "model.hpp"

// A signature that the key accepts for the message.
struct Signature {
    Content key, message, signature;
};

// Seed material, the record and the key that are made from it, and a signature that is made with the index.
struct Pair {
    Content material, secret, key;
    std::uint32_t index;
    Content message, signature;
};

class Fields {
  public:
    explicit Fields(const std::string &file) {
        std::ifstream in(file, std::ios::binary);
        all_.assign(std::istreambuf_iterator<char>(in), {});
        if (all_.empty()) {
            std::fprintf(stderr, "fuzz: %s is empty or can't be read\n", file.c_str());
            std::exit(1);
        }
    }
    [[nodiscard]] bool more() const { return at_ < all_.size(); }
    Content next() {
        const std::size_t begin = at_ + 4;
        at_ = begin + model::number(std::span(all_).subspan(at_));
        return Content(all_.begin() + static_cast<std::ptrdiff_t>(begin), all_.begin() + static_cast<std::ptrdiff_t>(at_));
    }

  private:
    Content all_;
    std::size_t at_ = 0;
};

// Braces give the fields in the order in which they are stored.
inline std::vector<Signature> stored_signatures(const std::string &folder) {
    std::vector<Signature> all;
    for (Fields fields(folder + "/signatures"); fields.more();) all.push_back({fields.next(), fields.next(), fields.next()});
    return all;
}

inline std::vector<Pair> stored_pairs(const std::string &folder) {
    std::vector<Pair> all;
    for (Fields fields(folder + "/pairs"); fields.more();)
        all.push_back({fields.next(), fields.next(), fields.next(), model::number(fields.next()), fields.next(), fields.next()});
    return all;
}
