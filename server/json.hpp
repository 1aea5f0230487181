// JSON as it is written: numbers, texts and objects.
#pragma once
#include <algorithm>
#include <charconv>
#include <cstdint>
#include <cstdio>
#include <string>
#include <string_view>
#include <vector>

inline void put(std::string &out, uint64_t number) {
    char room[24];
    out.append(room, std::to_chars(room, room + sizeof room, number).ptr);
}

// In one room for all of them, since a route may have many.
inline void put(std::string &out, const uint32_t *numbers, size_t count) {
    constexpr size_t LONGEST = 12;
    size_t begin = out.size();
    out.resize(begin + 2 + LONGEST * count);
    char *at = out.data() + begin;
    *at++ = '[';
    for (size_t i = 0; i < count; i++) {
        if (i) *at++ = ',', *at++ = ' ';
        at = std::to_chars(at, at + LONGEST, numbers[i]).ptr;
    }
    *at++ = ']';
    out.resize(size_t(at - out.data()));
}

inline void put(std::string &out, const std::vector<uint32_t> &numbers) {
    put(out, numbers.data(), numbers.size());
}

// How many bytes the character of UTF-8 has with which a text begins; 0 if it begins with none.
inline size_t character_size(std::string_view text) {
    auto at = [&](size_t i) { return static_cast<unsigned char>(text[i]); };
    auto first = at(0);
    size_t size = first < 0x80 ? 1
        : first < 0xc2         ? 0
        : first < 0xe0         ? 2
        : first < 0xf0         ? 3
        : first < 0xf5         ? 4
                               : 0;
    if (size > text.size()) return 0;
    for (size_t i = 1; i < size; i++)
        if ((at(i) & 0xc0) != 0x80) return 0;
    bool is_overlong = (first == 0xe0 && at(1) < 0xa0) || (first == 0xf0 && at(1) < 0x90);
    bool is_beyond = (first == 0xed && at(1) >= 0xa0) || (first == 0xf4 && at(1) >= 0x90);
    return is_overlong || is_beyond ? 0 : size;
}

// A text in quotes; what is no UTF-8 is shown as U+FFFD.
inline void put_quoted(std::string &out, std::string_view text) {
    out += '"';
    for (size_t size = 0; !text.empty(); text.remove_prefix(std::max<size_t>(size, 1))) {
        size = character_size(text);
        char first = text[0];
        if (first == '"' || first == '\\') (out += '\\') += first;
        else if (!size) out += "\\ufffd";
        else if ((first >= ' ' && first != 127) || size > 1) out += text.substr(0, size);
        else {
            char room[8];
            std::snprintf(room, sizeof room, "\\u%04x", unsigned(first));
            out += room;
        }
    }
    out += '"';
}

inline std::string shown(double number, int digits) {
    char room[64];
    std::snprintf(room, sizeof room, "%.*f", digits, number);
    return room;
}

// An object, field by field.
class Object {
  public:
    Object &raw(std::string_view name, std::string_view value) {
        if (out.size() > 1) out += ", ";
        put_quoted(out, name);
        (out += ": ") += value;
        return *this;
    }
    Object &number(std::string_view name, uint64_t value) {
        raw(name, "");
        put(out, value);
        return *this;
    }
    Object &text(std::string_view name, std::string_view value) {
        raw(name, "");
        put_quoted(out, value);
        return *this;
    }
    std::string end() { return std::move(out += '}'); }

  private:
    std::string out = "{";
};
