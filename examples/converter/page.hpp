// The page of marks in its file. An index that signs two tables gives the key away, and this file is what prevents it.
#ifndef CONVERTER_PAGE_HPP
#define CONVERTER_PAGE_HPP

#include <cstddef>
#include <cstdint>

#include "files.hpp"
#include "zabrintoly.hpp"

namespace converter {

// The file holds the public key, 68 bytes, and then the page, 128 bytes. With the key in front, the page of another key is noticed.
//
// An object of this class holds the file's lock, from before it reads until it goes. Keep it until the signature has its name.
class PageFile {
  public:
    // What a key's page file holds before the first signature. Only the making of a key may write it.
    [[nodiscard]] static Content fresh(zabrintoly::Bytes key);

    // A missing page is an error. It is never made anew: all marks would be unused again, and each index would sign twice.
    PageFile(const Path &path, Waiting waiting);

    [[nodiscard]] const Path &path() const { return file_.path(); }
    void refuse_unless_of(zabrintoly::Bytes key, const Path &record) const;
    // The page as it is stored now, whatever its length: the library refuses one that has not 128 bytes.
    [[nodiscard]] Content read() const;
    // Stores one byte of the page, and is back when it is on the disk. A power cut leaves that byte old or new.
    void store(std::size_t place, std::uint8_t value);

  private:
    [[nodiscard]] Content whole() const;

    OpenFile file_;
};

} // namespace converter

#endif
