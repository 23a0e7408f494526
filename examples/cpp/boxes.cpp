// Lists the boxes of a file and the rows of each table of durations among them, in C++17: boxes FILE.
#include <cstddef>
#include <cstdint>
#include <fstream>
#include <iostream>
#include <iterator>
#include <optional>
#include <stdexcept>
#include <string>
#include <string_view>
#include <vector>
#include "mp4_box_codec.h"

// Elements that belong to somebody else. From C++20 on, std::span does the same.
template <typename T> class Span {
  public:
    Span(const T *data, std::size_t size) : data_(data), size_(size) {}
    Span(const std::vector<T> &all) : Span(all.data(), all.size()) {}
    const T *data() const { return data_; }
    std::size_t size() const { return size_; }
    const T *begin() const { return data_; }
    const T *end() const { return data_ + size_; }
    Span part(std::uint64_t at, std::uint64_t count) const {
        if (at > size_ || count > size_ - at)
            throw std::out_of_range("a box ends after the file");
        return Span(data_ + at, count);
    }

  private:
    const T *data_;
    std::size_t size_;
};
using Bytes = Span<std::uint8_t>;

// A status that isn't MP4_OK, with its meaning.
class Error : public std::runtime_error {
  public:
    explicit Error(std::uint32_t status) : std::runtime_error(text(status)), status(status) {}
    const std::uint32_t status;

  private:
    static std::string text(std::uint32_t status) {
        std::uint8_t text[200];
        std::size_t length = 0;
        mp4_status_text(status, text, sizeof text, &length);
        return std::string(text, text + length);
    }
};

static std::size_t count_of(std::size_t count) { return count; }
static std::size_t count_of(const mp4_table &table) { return table.count; }

// Asks a function how many elements there are, and then for the elements.
template <typename Row, typename Table>
static std::vector<Row> filled(std::uint32_t (*fill)(const std::uint8_t *, std::size_t, Row *, std::size_t, Table *),
                               Bytes bytes) {
    Table table{};
    std::uint32_t status = fill(bytes.data(), bytes.size(), nullptr, 0, &table);
    std::vector<Row> rows(count_of(table));
    if (status == MP4_NO_ROOM)
        status = fill(bytes.data(), bytes.size(), rows.data(), rows.size(), &table);
    if (status != MP4_OK)
        throw Error(status);
    return rows;
}

// Returns the box at a path, or nothing.
static std::optional<Bytes> find(Bytes file, std::string_view path) {
    mp4_place place{};
    const auto *text = reinterpret_cast<const std::uint8_t *>(path.data());
    const std::uint32_t status = mp4_find(file.data(), file.size(), text, path.size(), &place);
    if (status == MP4_BOX_NOT_FOUND)
        return std::nullopt;
    if (status != MP4_OK)
        throw Error(status);
    return file.part(place.position, place.length);
}

int main(int arguments, char **argument) try {
    if (arguments != 2)
        throw std::invalid_argument("usage: boxes FILE");
    std::ifstream in(argument[1], std::ios::binary);
    const std::vector<std::uint8_t> file((std::istreambuf_iterator<char>(in)), std::istreambuf_iterator<char>());
    for (const mp4_span &span : filled(mp4_list, Bytes(file))) {
        char code[5];
        std::cout << mp4_code_text(span.code, code) << ' ' << span.position << ' ' << span.length << '\n';
    }
    for (unsigned index = 0;; index++) {
        const std::string trak = "moov/trak[" + std::to_string(index) + "]";
        if (!find(file, trak))
            break;
        if (const auto stts = find(file, trak + "/mdia/minf/stbl/stts"))
            for (const auto &[count, delta] : filled(mp4_stts, *stts))
                std::cout << trak << ": " << count << " samples of " << delta << '\n';
    }
    return 0;
} catch (const std::exception &why) {
    std::cerr << why.what() << '\n';
    return 1;
}
