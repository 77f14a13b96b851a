// Buffers to lend to a call, of any length up to somewhat over 2^32, between two stretches of memory that nobody may touch.
#pragma once
#include <sys/mman.h>

#include <algorithm>
#include <cstddef>
#include <cstdint>
#include <cstdio>
#include <cstdlib>
#include <span>
#include <vector>

using Content = std::vector<std::uint8_t>;

// The longest buffer whose every byte is written and compared. Of a longer one its first bytes are.
inline constexpr std::size_t watched_bytes = 70'000;

// A place for one buffer. It takes address space for the longest, and memory for what is touched.
class Region {
  public:
    Region() {
        void *all = mmap(nullptr, guard + size + guard, PROT_NONE, MAP_PRIVATE | MAP_ANONYMOUS | MAP_NORESERVE, -1, 0);
        if (all == MAP_FAILED || mprotect(static_cast<std::uint8_t *>(all) + guard, size, PROT_READ | PROT_WRITE) != 0) {
            std::perror("fuzz: no address space for a long buffer");
            std::exit(1);
        }
        begin_ = static_cast<std::uint8_t *>(all) + guard;
    }
    Region(const Region &) = delete;
    Region &operator=(const Region &) = delete;

    // The first so many bytes, or the last ones.
    [[nodiscard]] std::uint8_t *part(std::size_t length, bool last) const { return last ? begin_ + size - length : begin_; }
    [[nodiscard]] std::uint8_t *begin() const { return begin_; }
    [[nodiscard]] std::uint8_t *end() const { return begin_ + size; }

  private:
    static constexpr std::size_t guard = std::size_t{1} << 20;
    static constexpr std::size_t size = (std::size_t{1} << 32) + (std::size_t{1} << 20);
    std::uint8_t *begin_;
};

// What a buffer is to be: its length, which bytes it begins with, whether it touches the end of its region, whether it is null when empty.
struct Wanted {
    std::size_t length;
    Content content;
    bool last;
    bool null;
};

// How many were lent of two kinds that a caller seldom gives: null ones, and those whose length needs more than 31 bits.
inline unsigned long null_buffers, long_buffers;

// A buffer with what it held when it was lent. Its neighbours are watched with it.
class Lent {
  public:
    Lent(const Region &region, const Wanted &wanted) : length_(wanted.length) {
        long_buffers += length_ >> 31 != 0;
        if (length_ == 0 && wanted.null) {
            null_buffers++;
            return;
        }
        data_ = region.part(length_, wanted.last);
        watched_ = data_ - std::min<std::ptrdiff_t>(margin, data_ - region.begin());
        std::uint8_t *own_end = data_ + std::min(length_, watched_bytes);
        std::uint8_t *end = own_end + std::min<std::ptrdiff_t>(margin, region.end() - own_end);
        std::fill(watched_, end, std::uint8_t{0xee});
        std::copy_n(wanted.content.begin(), std::min(length_, wanted.content.size()), data_);
        before_.assign(watched_, end);
    }
    [[nodiscard]] std::uint8_t *data() const { return data_; }
    [[nodiscard]] std::size_t size() const { return length_; }
    [[nodiscard]] std::span<std::uint8_t> bytes() const { return {data_, length_}; }

    // What it must hold after the call where not all of it may stay as it was.
    void expect(std::size_t place, std::span<const std::uint8_t> bytes) {
        std::copy(bytes.begin(), bytes.end(), before_.begin() + (data_ - watched_) + static_cast<std::ptrdiff_t>(place));
    }
    [[nodiscard]] bool as_expected() const { return std::equal(before_.begin(), before_.end(), watched_); }

  private:
    static constexpr std::ptrdiff_t margin = 64;
    std::size_t length_;
    std::uint8_t *data_ = nullptr;
    std::uint8_t *watched_ = nullptr;
    Content before_;
};
