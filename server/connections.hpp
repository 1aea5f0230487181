// The connections of the moment, which are counted here and not by the HTTP library. None may read
// or write for longer than its time, be it byte by byte, and of those of one address few may be
// slow at a time.
#pragma once
#include "log.hpp"
#include "metrics.hpp"
#include "options.hpp"
#include "refused.hpp"
#include <chrono>
#include <map>
#include <memory>
#include <vector>

struct Connection {
    // Fresh until its first byte is seen; reading lasts to the last byte of a request; asking,
    // until there is a reply. An ended one has been shut down, and sends nothing more.
    enum class State { fresh, reading, asking, writing, idle, ended };
    int socket = -1;
    std::string address;
    // One that came when there were enough: only /health and /metrics are answered on it.
    bool is_spare = false;
    std::atomic<State> state{State::fresh};
    std::atomic<int64_t> since{0};
    // How many bytes had come when its last reply began.
    std::atomic<uint64_t> bytes{0};
    // Its client has closed it while it waited for an answer for a second or more.
    std::atomic<bool> has_left{false};

    // Goes on to a state; false if it has been ended.
    bool enter(State next);
    // Goes from one state to another, if it still has the first.
    bool change(State from, State to) { return state.compare_exchange_strong(from, to); }
    // The head of a request has come: its time began with its first byte, if that was seen before.
    bool begin_request();
    bool begin_reply();
    // Sends a refusal past the HTTP library, which must have nothing to send.
    void send_alone(int status, const char *why) const noexcept;
};

class Connections {
  public:
    static constexpr unsigned SPARE = 64;
    // Descriptors beside those of the connections that `--connections` allows.
    static constexpr unsigned OTHERS = 32 + 2 * SPARE;

    Connections(const Options &options, Log &log, Metrics &metrics)
        : options(options), log(log), metrics(metrics) {}
    // Whether so many are being shut down that none is to be taken for a moment.
    bool is_full() const;
    // Counts a connection that has been taken, and makes room for it; false if there is none.
    bool admit(int socket);
    Connection *open(int socket, std::string address);
    void close(Connection *connection);
    // Ends those that are too slow, or were idle for too long.
    void look(bool is_draining);
    // Ends the connection that was idle for longest, if one is.
    void make_room();
    // Those that have not been ended.
    size_t count() const;

  private:
    const Options &options;
    Log &log;
    Metrics &metrics;
    mutable std::mutex lock;
    std::map<Connection *, std::unique_ptr<Connection>> all;
    // Those that were taken and are not yet open, by their sockets, and whether each is spare.
    std::map<int, bool> coming;
    size_t ended = 0, turn = 0;

    size_t living() const { return all.size() + coming.size() - ended; }
    void end_longest_idle();
    bool is_over(const Connection &connection, bool is_draining) const;
    void look_at(Connection &connection, bool is_draining,
        std::map<std::string, std::vector<Connection *>> &slow);
    void end_slow(const std::vector<Connection *> &of_one_address);
    void end(Connection &connection, const char *why);
};
