// Makes a key: `layout.secret` and `layout.page` for the signer, then `layout.key` for whoever checks.
#include <fcntl.h>
#include <unistd.h>

#include <cerrno>
#include <system_error>

#include "commands.hpp"
#include "failure.hpp"
#include "page.hpp"

namespace converter {

namespace {

constexpr mode_t for_the_signer = 0600;
constexpr mode_t for_everybody = 0644;

// A fixed name, so that the next run finds and removes what a cut one left. The folder's lock keeps two runs apart.
Path beside(Path name) { return name += ".new"; }

constexpr const char *elsewhere = "Make the new key in another folder.";
constexpr const char *perhaps_cut = "Was an earlier make-key cut before it wrote layout.key? Then no key was given out: remove "
                                    "layout.secret and layout.page by hand and try again. Else make the new key in another folder.";

// A second key in the same files would bring unused marks back under the first.
void refuse_where_any_exists(const KeyFiles &files) {
    for (const Path &path : {files.key, files.secret, files.page}) {
        if (is_there(path)) {
            throw Failure{status_exists, path.string() + ": this file exists already",
                          is_there(files.key) ? elsewhere : perhaps_cut, "no key was made and nothing was changed"};
        }
    }
}

// The library asks nobody for random numbers. These are the operating system's, and the call waits until it has gathered enough.
Secret random_material() {
    Content bytes(zabrintoly::material_size);
    if (::getentropy(bytes.data(), bytes.size()) == -1) {
        throw Failure{status_fault, "the system's random source: " + std::system_category().message(errno)};
    }
    return Secret(std::move(bytes));
}

} // namespace

void make_key(const KeyFiles &files, Waiting waiting) {
    const OpenFile folder(files.folder, O_RDONLY | O_DIRECTORY);
    folder.lock(waiting);
    refuse_where_any_exists(files);
    NewFile secret_file(files.secret, beside(files.secret), for_the_signer);
    // Nobody else needs to open the page, and whoever can open it could keep the signer waiting for the lock.
    NewFile page_file(files.page, beside(files.page), for_the_signer);
    NewFile key_file(files.key, beside(files.key), for_everybody);

    const Secret material = random_material();
    Secret record{Content(zabrintoly::secret_size)};
    Content key(zabrintoly::key_size);
    const auto outcome = zabrintoly::make(zabrintoly::xmss_sha2_10_256, material.bytes, record.bytes, key);
    if (outcome != zabrintoly::Outcome::done) {
        throw refusal(outcome, files.folder.string());
    }

    // All three are on the disk before the first has its name: a full disk leaves nothing behind.
    secret_file.write(record.bytes);
    page_file.write(PageFile::fresh(key));
    key_file.write(key);
    // The public key comes last. Whoever has it can rely on it that record and page are on the disk.
    secret_file.appear();
    page_file.appear();
    folder.flush();
    key_file.appear();
    flush_name(folder, files.key);
}

} // namespace converter
