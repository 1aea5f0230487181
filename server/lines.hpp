// Texts by their lines and fields.
#pragma once
#include <algorithm>
#include <charconv>
#include <cstdint>
#include <string_view>
#include <vector>

// Calls `take` with each line and its number, counted from 1.
template <class Take> void each_line(std::string_view text, const Take &take) {
    uint64_t number = 0;
    for (size_t at = 0, end = 0; at < text.size(); at = end + 1) {
        end = std::min(text.find('\n', at), text.size());
        auto line = text.substr(at, end - at);
        if (!line.empty() && line.back() == '\r') line.remove_suffix(1);
        take(++number, line);
    }
}

// The fields of a line, by blanks.
inline std::vector<std::string_view> fields_of(std::string_view line) {
    std::vector<std::string_view> fields;
    for (size_t at = 0; (at = line.find_first_not_of(" \t\r", at)) != line.npos;) {
        size_t end = std::min(line.find_first_of(" \t\r", at), line.size());
        fields.push_back(line.substr(at, end - at));
        at = end;
    }
    return fields;
}

template <class Number> bool read_number(std::string_view text, Number &number) {
    auto read = std::from_chars(text.data(), text.data() + text.size(), number);
    return read.ec == std::errc() && read.ptr == text.data() + text.size();
}
