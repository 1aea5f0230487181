// Files that are read whole.
#pragma once
#include "json.hpp"
#include <stdexcept>

// A file can't be served; the message names it and says why.
struct BadFile : std::runtime_error {
    using std::runtime_error::runtime_error;
};

// Which file was read, and when.
struct Origin {
    std::string file, sha256, read;

    Object shown() const {
        Object object;
        object.text("file", file).text("sha256", sha256).text("read", read);
        return object;
    }
};

// The text of a regular file of at most 2^32 bytes for which there is memory; else BadFile or
// std::bad_alloc.
std::string read_file(const std::string &path, Origin &origin);
