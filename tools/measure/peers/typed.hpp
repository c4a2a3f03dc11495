// The owned values that the peers in C++ read: those of the Rust peers, with each text on the heap.
#pragma once
#include <cstdint>
#include <cstdlib>
#include <cstring>
#include <functional>
#include <optional>
#include <string_view>
#include <unordered_map>
#include <utility>
#include <vector>

// A text on the heap whatever its length, as Rust's String is: std::string keeps 15 bytes in itself.
struct Text {
    char *bytes = nullptr;
    size_t length = 0;

    Text() = default;
    explicit Text(std::string_view text) : length(text.size()) {
        if (length == 0) return;
        bytes = static_cast<char *>(malloc(length));
        memcpy(bytes, text.data(), length);
    }
    Text(Text &&other) noexcept { *this = std::move(other); }
    Text &operator=(Text &&other) noexcept {
        std::swap(bytes, other.bytes);
        std::swap(length, other.length);
        return *this;
    }
    Text(const Text &) = delete;
    ~Text() { free(bytes); }
    operator std::string_view() const { return {bytes, length}; }
    bool operator==(const Text &other) const {
        return std::string_view(*this) == std::string_view(other);
    }
};

template <> struct std::hash<Text> {
    size_t operator()(const Text &text) const { return std::hash<std::string_view>()(text); }
};

struct Record {
    int32_t value = 0;
    std::optional<Text> note;
};

using Map = std::unordered_map<Text, int32_t>;

// Reads a value of the kind, which is numbered as in main.rs, and drops it. Returns how many items it
// has, or -1 where the input is none. `Reader::read(value)` reads one.
template <class Reader> int64_t read_kind(int kind, Reader reader) {
    auto counted = [&](auto value) -> int64_t { return reader.read(value) ? value.size() : -1; };
    switch (kind) {
    case 0: return counted(std::vector<uint8_t>());
    case 1: return counted(std::vector<uint64_t>());
    case 2: return counted(std::vector<Text>());
    case 3: return counted(Map());
    default: return counted(std::vector<Record>());
    }
}
