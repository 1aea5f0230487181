// The version, which is that of the library.
#pragma once
#include <diffuse.h>
#include <string>

inline std::string version() {
    return std::to_string(DIFFUSE_VERSION_MAJOR) + "." + std::to_string(DIFFUSE_VERSION_MINOR) + "."
        + std::to_string(DIFFUSE_VERSION_PATCH);
}
