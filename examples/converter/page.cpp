#include "page.hpp"

#include <fcntl.h>

#include <algorithm>

#include "failure.hpp"

namespace converter {

namespace {

constexpr const char *never_anew = "Bring this key's own page to its place; an old copy of it, or one made anew, would use indices twice "
                                   "and give the key away. Where the page is lost, make a new key in another folder.";

// The page's bytes begin where the key ends.
constexpr std::ptrdiff_t start = zabrintoly::key_size;

OpenFile opened(const Path &path) {
    try {
        return OpenFile(path, O_RDWR);
    } catch (Failure &failure) {
        if (failure.status == status_missing) {
            failure.advice = never_anew;
        }
        throw;
    }
}

} // namespace

Content PageFile::fresh(zabrintoly::Bytes key) {
    Content bytes(key.begin(), key.end());
    bytes.resize(bytes.size() + zabrintoly::page_size, zabrintoly::unused_marks);
    return bytes;
}

PageFile::PageFile(const Path &path, Waiting waiting) : file_(opened(path)) {
    file_.lock(waiting);
    // While this run waited, somebody may have put another file in its place. Marks would then be stored where nobody reads them.
    if (!file_.still_in_place()) {
        throw Failure{status_missing, path.string() + ": another file is in its place since this run opened it", never_anew};
    }
}

Content PageFile::whole() const { return file_.read(zabrintoly::key_size + zabrintoly::page_size); }

void PageFile::refuse_unless_of(zabrintoly::Bytes key, const Path &record) const {
    const Content bytes = whole();
    // A file that is too short to hold a key is a damaged page, and reserving says so.
    if (bytes.size() >= key.size() && !std::equal(key.begin(), key.end(), bytes.begin())) {
        throw Failure{status_other_key, path().string() + ": this page belongs to another key than " + record.string(), never_anew};
    }
}

Content PageFile::read() const {
    const Content bytes = whole();
    return {bytes.begin() + std::min<std::ptrdiff_t>(start, std::ssize(bytes)), bytes.end()};
}

void PageFile::store(std::size_t place, std::uint8_t value) {
    file_.write({&value, 1}, zabrintoly::key_size + place);
    file_.flush();
}

} // namespace converter
