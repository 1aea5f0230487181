// What a request's head must be, beyond what libmicrohttpd asks for.
#pragma once
#include "request.hpp"

// Refuses a head that a proxy could read otherwise, a body that is too long or has no length, and
// methods other than GET, HEAD, POST and OPTIONS.
void check_head(Request &request, std::string_view version);
Refused too_long_body();

// The path of a request's first line, without its query, its host and the version /v1.
std::string path_of(std::string_view line);
std::string_view query_of(std::string_view line);

constexpr uint64_t LONGEST_HEAD = 15000, LONGEST_BODY = 16384;
