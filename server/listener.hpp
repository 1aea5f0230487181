// The socket that listens. It is ours and not the HTTP library's, so that running out of
// descriptors is no busy loop, and so that what waits at the end is still taken.
#pragma once
#include "connections.hpp"
#include <functional>
#include <sys/socket.h>

class Listener {
  public:
    using Taker = std::function<bool(int, const sockaddr *, socklen_t)>;

    // Listens; throws std::runtime_error if it can't.
    explicit Listener(const Options &options);
    unsigned port() const;
    // A thread takes connections from now on.
    void start(Connections &connections, Log &log, Metrics &metrics, Taker taker);
    // Takes the connections that wait, for a second at most, and listens no more.
    void finish();

  private:
    static constexpr int BACKLOG = 1024;
    const Options &options;
    int socket = -1, wakes[2] = {-1, -1};
    std::atomic<bool> is_done{false};

    void run(Connections &connections, Log &log, Metrics &metrics, const Taker &taker);
    bool wait(int pause) const;
    int step(
        Connections &connections, Log &log, Metrics &metrics, const Taker &taker, bool was_short);
    int take(Connections &connections, Metrics &metrics, const Taker &taker);
};
