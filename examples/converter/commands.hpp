// The three commands, and the files of a key that they use.
#ifndef CONVERTER_COMMANDS_HPP
#define CONVERTER_COMMANDS_HPP

#include <string.h>

#include <cstdint>
#include <utility>

#include "files.hpp"

namespace converter {

struct KeyFiles {
    Path folder;
    Path key = folder / "layout.key";       // the public key: given to whoever checks
    Path secret = folder / "layout.secret"; // the secret record: stays with the signer
    Path page = folder / "layout.page";     // the key and its page of marks: stays beside the record
};

[[nodiscard]] inline Path signature_of(Path table) { return table += ".sig"; }

// Bytes of a secret, which are overwritten before their memory is given back.
struct Secret {
    Content bytes;

    explicit Secret(Content content) : bytes(std::move(content)) {}
    ~Secret() { ::explicit_bzero(bytes.data(), bytes.size()); }
    Secret(const Secret &) = delete;
    Secret &operator=(const Secret &) = delete;
};

// Makes the three files of a key, where none of them is there.
void make_key(const KeyFiles &files, Waiting waiting);

// Writes the table's signature, in place of an earlier one. The answer is the index that it carries.
[[nodiscard]] std::uint32_t sign_table(const KeyFiles &files, const Path &table, Waiting waiting);

// The table's bytes, where its signature is accepted. Use these: who reads the file again may get other bytes than were checked.
[[nodiscard]] Content checked_table(const KeyFiles &files, const Path &table);

} // namespace converter

#endif
