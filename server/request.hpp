// A request, from its first line to its reply.
#pragma once
#include "fields.hpp"
#include "reply.hpp"
#include <chrono>
#include <memory>

struct MHD_Connection;
struct Connection;
using Clock = std::chrono::steady_clock;

inline double seconds_since(Clock::time_point begin) {
    return std::chrono::duration<double>(Clock::now() - begin).count();
}

struct Request {
    enum class State { reading, asking, waiting, searching, answered };
    MHD_Connection *at = nullptr;
    Connection *connection = nullptr;
    std::string method, line, path, body;
    // Who a proxy says that the client is, and what the reply is, if that is not JSON.
    std::string forwarded;
    const char *type = nullptr;
    Fields fields;
    Reply reply;
    Share share;
    State state = State::reading;
    bool is_begun = false, is_sent = false, is_last = false;
    Clock::time_point came = Clock::now();
};
