// Files as a signer needs them: locked, flushed to the disk, and never seen half written.
#ifndef CONVERTER_FILES_HPP
#define CONVERTER_FILES_HPP

#include <sys/types.h>

#include <cstddef>
#include <cstdint>
#include <filesystem>
#include <string>
#include <vector>

#include "zabrintoly.hpp"

namespace converter {

using Path = std::filesystem::path;
using Content = std::vector<std::uint8_t>;

enum class Waiting { wait, refuse };

// An open file or folder. Closing it lets go of its lock, and so does the end of the process, whatever ended it.
class OpenFile {
  public:
    OpenFile(Path path, int flags, mode_t mode = 0);
    ~OpenFile();
    OpenFile(const OpenFile &) = delete;
    OpenFile &operator=(const OpenFile &) = delete;

    [[nodiscard]] const Path &path() const { return path_; }

    void lock(Waiting waiting) const;
    // False where the path leads to another file by now, or to none.
    [[nodiscard]] bool still_in_place() const;
    // The file from its start: at most `limit` bytes, and one more where there are more, so that the library sees a file too long.
    [[nodiscard]] Content read(std::size_t limit) const;
    void write(zabrintoly::Bytes bytes, std::size_t place) const;
    // Takes the room on the disk now, so that a later write does not find the disk full.
    void claim(std::size_t size) const;
    void flush() const;
    void close();

  private:
    [[noreturn]] void fail(const std::string &what) const;

    Path path_;
    int number_;
};

[[nodiscard]] Content read_file(const Path &path, std::size_t limit);

// True for whatever has this name, a link that leads nowhere too.
[[nodiscard]] bool is_there(const Path &path);

// The folder that holds this file.
[[nodiscard]] Path folder_of(const Path &path);

// A file that appears under its name whole and flushed, or not at all. It is written beside, under a name that nobody else uses while
// the caller holds a lock; what a cut run left there is removed first. After it has appeared, flush its folder.
class NewFile {
  public:
    NewFile(Path name, const Path &beside, mode_t mode);
    ~NewFile();
    NewFile(const NewFile &) = delete;
    NewFile &operator=(const NewFile &) = delete;

    void claim(std::size_t size) const { file_.claim(size); }
    void write(zabrintoly::Bytes bytes);
    // Takes its name where nothing has it yet.
    void appear();
    // Takes its name in place of what has it.
    void replace();

  private:
    void settle(int answer, const std::string &what);

    Path name_;
    OpenFile file_;
    bool beside_ = true;
};

// Flushes the name that a file has taken. Where that fails, the file is there all the same, and people are told so.
void flush_name(const OpenFile &folder, const Path &name);

} // namespace converter

#endif
