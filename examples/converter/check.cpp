// Checks a table: all that a terminal's converter needs of this folder, with files.cpp.
#include "commands.hpp"
#include "failure.hpp"

namespace converter {

namespace {

using zabrintoly::Outcome;

// With an empty signature the library says whether it serves the key. A terminal that was given a key of a newer type has to hear of
// the type, and not of a signature that is missing or damaged.
void refuse_unless_served(const Path &path, zabrintoly::Bytes key) {
    const Outcome outcome = zabrintoly::check(key, {}, {});
    if (outcome != Outcome::signature_length) {
        Failure failure = refusal(outcome, path.string(), key);
        failure.not_done = "table and signature were not read";
        throw failure;
    }
}

// The file that an outcome of checking speaks of.
Path blamed(Outcome outcome, const Path &table) {
    const bool signature = outcome == Outcome::signature_length || outcome == Outcome::index_too_large;
    return signature ? signature_of(table) : table;
}

} // namespace

Content checked_table(const KeyFiles &files, const Path &table_path) {
    const Content key = read_file(files.key, zabrintoly::key_size);
    refuse_unless_served(files.key, key);
    Content table = read_file(table_path, zabrintoly::message_limit);
    // The longest signature of any type; the library knows the length for this key's.
    const Content signature = read_file(signature_of(table_path), zabrintoly::signature_size_type_3);
    const Outcome outcome = zabrintoly::check(key, table, signature);
    if (outcome != Outcome::done) {
        throw refusal(outcome, blamed(outcome, table_path).string());
    }
    return table;
}

} // namespace converter
