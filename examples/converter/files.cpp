#include "files.hpp"

#include <fcntl.h>
#include <stdio.h>
#include <sys/file.h>
#include <sys/stat.h>
#include <unistd.h>

#include <cerrno>
#include <system_error>
#include <utility>

#include "failure.hpp"

namespace converter {

namespace {

// A signal may interrupt a call that waits; nothing was done then, and the call is made again.
template <typename Call> auto uninterrupted(Call call) {
    auto answer = call();
    while (answer == -1 && errno == EINTR) {
        answer = call();
    }
    return answer;
}

Failure file_failure(const Path &path, const std::string &what, int error) {
    const std::string cause = path.string() + ": " + what + ": " + std::system_category().message(error);
    switch (error) {
    case ENOENT:
    case ENOTDIR:
        return {status_missing, cause};
    case EACCES:
    case EPERM:
    case EROFS:
        return {status_not_permitted, cause, "Run this as the user whose file it is, where it can be written."};
    case EEXIST:
        return {status_exists, cause};
    case ENOSPC:
    case EDQUOT:
        return {status_input_output, cause, "Make room on the disk, then try again."};
    case EIO:
        return {status_input_output, cause, "Have the disk looked after, then try again."};
    default:
        return {status_input_output, cause};
    }
}

int open_number(const Path &path, int flags, mode_t mode) {
    const int number = uninterrupted([&] { return ::open(path.c_str(), flags | O_CLOEXEC, mode); });
    if (number == -1) {
        throw file_failure(path, "can't be opened", errno);
    }
    return number;
}

// With O_EXCL the file is this run's own: never one that a link leads to, and never one that somebody else has open.
OpenFile made_afresh(const Path &path, mode_t mode) {
    if (::unlink(path.c_str()) == -1 && errno != ENOENT) {
        throw file_failure(path, "can't be removed", errno);
    }
    return OpenFile(path, O_WRONLY | O_CREAT | O_EXCL, mode);
}

} // namespace

OpenFile::OpenFile(Path path, int flags, mode_t mode) : path_(std::move(path)), number_(open_number(path_, flags, mode)) {}

OpenFile::~OpenFile() {
    if (number_ != -1) {
        ::close(number_);
    }
}

void OpenFile::fail(const std::string &what) const { throw file_failure(path_, what, errno); }

void OpenFile::lock(Waiting waiting) const {
    const int how = waiting == Waiting::wait ? LOCK_EX : LOCK_EX | LOCK_NB;
    if (uninterrupted([&] { return ::flock(number_, how); }) == 0) {
        return;
    }
    if (errno == EWOULDBLOCK) {
        throw Failure{status_locked, path_.string() + ": another run of this program holds the lock",
                      "Try again when that run has ended, or leave out --no-wait."};
    }
    fail("can't be locked");
}

bool OpenFile::still_in_place() const {
    struct stat opened {}, named {};
    return ::fstat(number_, &opened) == 0 && ::stat(path_.c_str(), &named) == 0 && opened.st_dev == named.st_dev &&
           opened.st_ino == named.st_ino;
}

Content OpenFile::read(std::size_t limit) const {
    Content bytes(limit + 1);
    std::size_t size = 0;
    while (size < bytes.size()) {
        const ssize_t more =
            uninterrupted([&] { return ::pread(number_, bytes.data() + size, bytes.size() - size, static_cast<off_t>(size)); });
        if (more == -1) {
            fail("can't be read");
        }
        if (more == 0) {
            break;
        }
        size += static_cast<std::size_t>(more);
    }
    bytes.resize(size);
    return bytes;
}

// A write may store fewer bytes than it was given, so it goes on until all are stored.
void OpenFile::write(zabrintoly::Bytes bytes, std::size_t place) const {
    for (std::size_t done = 0; done < bytes.size();) {
        const ssize_t more = uninterrupted(
            [&] { return ::pwrite(number_, bytes.data() + done, bytes.size() - done, static_cast<off_t>(place + done)); });
        if (more == -1) {
            fail("can't be written");
        }
        done += static_cast<std::size_t>(more);
    }
}

void OpenFile::claim(std::size_t size) const {
    const int answer = uninterrupted([&] {
        errno = ::posix_fallocate(number_, 0, static_cast<off_t>(size));
        return errno == 0 ? 0 : -1;
    });
    if (answer == -1) {
        fail("finds no room");
    }
}

// A flush that failed is not tried again: the kernel may have dropped the bytes, and would then say that all is well.
void OpenFile::flush() const {
    if (uninterrupted([&] { return ::fsync(number_); }) == -1) {
        fail("can't be flushed to the disk");
    }
}

// Some file systems report here that an earlier write failed. After an interrupted close the number is closed too.
void OpenFile::close() {
    if (::close(std::exchange(number_, -1)) == -1 && errno != EINTR) {
        fail("can't be closed");
    }
}

Content read_file(const Path &path, std::size_t limit) { return OpenFile(path, O_RDONLY).read(limit); }

bool is_there(const Path &path) {
    struct stat status {};
    if (::lstat(path.c_str(), &status) == 0) {
        return true;
    }
    if (errno != ENOENT) {
        throw file_failure(path, "can't be looked for", errno);
    }
    return false;
}

Path folder_of(const Path &path) { return path.has_parent_path() ? path.parent_path() : Path("."); }

NewFile::NewFile(Path name, const Path &beside, mode_t mode) : name_(std::move(name)), file_(made_afresh(beside, mode)) {}

NewFile::~NewFile() {
    if (beside_) {
        ::unlink(file_.path().c_str());
    }
}

void NewFile::write(zabrintoly::Bytes bytes) {
    file_.write(bytes, 0);
    file_.flush();
    file_.close();
}

void NewFile::appear() {
    settle(::renameat2(AT_FDCWD, file_.path().c_str(), AT_FDCWD, name_.c_str(), RENAME_NOREPLACE), "can't be made");
}

void NewFile::replace() { settle(::rename(file_.path().c_str(), name_.c_str()), "can't be replaced"); }

void NewFile::settle(int answer, const std::string &what) {
    if (answer == -1) {
        throw file_failure(name_, what, errno);
    }
    beside_ = false;
}

void flush_name(const OpenFile &folder, const Path &name) {
    try {
        folder.flush();
    } catch (Failure &failure) {
        failure.cause = name.string() + ", in its folder " + failure.cause;
        failure.not_done = "the file is whole, and a power cut may still take it away";
        throw;
    }
}

} // namespace converter
