// What ends a run early: an exit status, and what the person at the terminal is told.
#ifndef CONVERTER_FAILURE_HPP
#define CONVERTER_FAILURE_HPP

#include <string>

#include "zabrintoly.hpp"

namespace converter {

// The exit status is 0, one of the library's outcomes 1 to 11, or one of these. The numbers are those of sysexits.h.
enum Status : int {
    status_usage = 64,
    status_other_key = 65,     // a file belongs to another key
    status_missing = 66,       // a file or folder is not there
    status_fault = 70,         // the disk or the memory gave back other bytes than it was given
    status_exists = 73,        // a key's file is there already
    status_input_output = 74,  // reading, writing or flushing failed: a full disk too
    status_locked = 75,        // another signer holds the key's lock
    status_not_permitted = 77, // this user may not do that to this file
};

// Thrown by every function here that can't do what its name says. `cause` begins with the file's name.
struct Failure {
    int status;
    std::string cause;
    std::string advice = {};   // what to do, where the cause does not say it
    std::string not_done = {}; // where it is not the command's usual word
};

// One of the library's refusals. `key` is what names the type: people have to hear it, so that they get a newer version.
[[nodiscard]] inline Failure refusal(zabrintoly::Outcome outcome, const std::string &file, zabrintoly::Bytes key = {}) {
    std::string cause = file;
    if (const auto type = zabrintoly::type_of(key); type && outcome == zabrintoly::Outcome::type_not_served) {
        cause += ", key type " + std::to_string(*type);
    }
    cause += ": ";
    cause += zabrintoly::text(outcome);
    return {static_cast<int>(outcome), cause};
}

} // namespace converter

#endif
