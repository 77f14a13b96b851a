// Signs a table. The order of the steps is what keeps an index from signing twice, whenever the run is cut: keep it when you copy.
#include <fcntl.h>

#include <algorithm>
#include <array>
#include <utility>

#include "commands.hpp"
#include "failure.hpp"
#include "page.hpp"

namespace converter {

namespace {

using zabrintoly::Bytes;
using zabrintoly::Outcome;
using zabrintoly::Session;

// With no index pending nothing is signed, and the library names what else it would refuse. Where record and table are good, what
// is left is that the session does not fit. So a bad table is refused here, before an index is spent on it.
void refuse_what_signing_would(const Path &secret, Bytes record, const Path &table_path, Bytes table) {
    std::array<std::uint8_t, zabrintoly::page_size> page;
    page.fill(zabrintoly::unused_marks);
    std::array<std::uint8_t, zabrintoly::signature_size> out;
    const Outcome outcome = zabrintoly::sign(record, page, Session::after_restart(), table, out).outcome;
    if (outcome == Outcome::message_too_long) {
        throw refusal(outcome, table_path.string());
    }
    if (outcome != Outcome::session_does_not_fit) {
        throw refusal(outcome, secret.string(), record);
    }
}

void refuse_unless_one_key(const KeyFiles &files, const PageFile &page, Bytes key) {
    page.refuse_unless_of(key, files.secret);
    const Content given_out = read_file(files.key, zabrintoly::key_size);
    if (!std::equal(key.begin(), key.end(), given_out.begin(), given_out.end())) {
        throw Failure{status_other_key, files.key.string() + ": this is another key than that of " + files.secret.string(),
                      "Bring the files of one key together; nobody who has this public key would accept the signature."};
    }
}

Session confirmed(const Path &page, const Content &stored, Session session) {
    Content copy = stored;
    auto marked = zabrintoly::mark(copy, std::move(session));
    // Marking changes nothing where the mark is stored. Else the disk did not keep what it was given.
    if (marked.outcome != Outcome::done || copy != stored) {
        throw Failure{status_fault, page.string() + ": the mark that was stored is not there when read again",
                      "Sign nothing more with this key. Have the disk looked after, and make a new key on another one."};
    }
    return std::move(marked.session);
}

// The page is the one that the disk has now, not the one that this run remembers.
Content signature_with(const PageFile &page, Session session, Bytes record, Bytes table) {
    const Content stored = page.read();
    session = confirmed(page.path(), stored, std::move(session));
    Content signature(zabrintoly::signature_size);
    const Outcome outcome = zabrintoly::sign(record, stored, std::move(session), table, signature).outcome;
    if (outcome != Outcome::done) {
        throw refusal(outcome, page.path().string());
    }
    return signature;
}

// A signature made wrong, by a fault of the machine or with a damaged record, could tell something of the secret. It is not let out.
void refuse_unless_accepted(const Path &secret, Bytes key, Bytes table, Bytes signature) {
    if (zabrintoly::check(key, table, signature) != Outcome::done) {
        throw Failure{status_fault, secret.string() + ": the signature made with it is not accepted, so it or the machine is at fault",
                      "The index is spent. Have the machine looked after before you sign again."};
    }
}

// The name carries the key's root: signers of one key are kept apart by the lock, and those of two keys by this name.
Path beside(Path signature, Bytes key) {
    constexpr auto digits = "0123456789abcdef";
    signature += ".";
    for (const std::uint8_t byte : key.subspan(4, 8)) {
        signature += digits[byte >> 4];
        signature += digits[byte & 15];
    }
    return signature += ".new";
}

} // namespace

std::uint32_t sign_table(const KeyFiles &files, const Path &table_path, Waiting waiting) {
    // 1. The lock, before the page is read. It is held to the end of this function, when the signature has its name.
    PageFile page(files.page, waiting);

    // 2. All that can be refused without an index.
    const Secret record(read_file(files.secret, zabrintoly::secret_size));
    const Content table = read_file(table_path, zabrintoly::message_limit);
    refuse_what_signing_would(files.secret, record.bytes, table_path, table);
    const auto key = zabrintoly::public_key_of(record.bytes).value();
    refuse_unless_one_key(files, page, key);

    // 3. The first unused index. The session begins empty at each start: what an earlier run had pending is lost with it.
    auto reserved = zabrintoly::reserve(page.read(), Session::after_restart());
    if (reserved.outcome != Outcome::done) {
        throw refusal(reserved.outcome, page.path().string());
    }
    const std::uint32_t index = *reserved.session.pending_index();

    // 4. Room for the signature. On a full disk each try would else cost an index, and a key has only 1,024.
    const Path signature_path = signature_of(table_path);
    const OpenFile signature_folder(folder_of(signature_path), O_RDONLY | O_DIRECTORY);
    NewFile signature_file(signature_path, beside(signature_path, key), 0644);
    signature_file.claim(zabrintoly::signature_size);

    // 5. The mark is on the disk before the signature is made. From here on the index is spent, whatever happens.
    page.store(reserved.place, reserved.value);

    // 6. The signature, which is checked before anybody sees it.
    const Content signature = signature_with(page, std::move(reserved.session), record.bytes, table);
    refuse_unless_accepted(files.secret, key, table, signature);

    // 7. The signature takes its name when it is whole and flushed.
    signature_file.write(signature);
    signature_file.replace();
    flush_name(signature_folder, signature_path);
    return index;
}

} // namespace converter
