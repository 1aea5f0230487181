// A request that is refused, with its status of HTTP and, if the library refused it, the library's
// status.
#pragma once
#include "json.hpp"

struct Refused {
    int http;
    std::string error, detail;
    int status = 0;

    std::string reply() const {
        Object object;
        object.text("error", error).raw("status", status ? std::to_string(status) : "null");
        return object.number("http", uint64_t(http)).text("detail", detail).end() + "\n";
    }
};

inline Refused refusal(int http, std::string detail) {
    return {http, "Refused", std::move(detail)};
}
