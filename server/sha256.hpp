// SHA-256 (FIPS 180-4), by which /health says which file it serves.
#pragma once
#include <string>
#include <string_view>

std::string sha256(std::string_view text);
