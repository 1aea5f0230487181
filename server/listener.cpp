#include "listener.hpp"
#include <cerrno>
#include <cstring>
#include <netdb.h>
#include <poll.h>
#include <thread>
#include <unistd.h>

namespace {

// Milliseconds until a connection is tried again: for which there was no descriptor, and if many
// are being closed.
constexpr int PAUSE = 100, CLOSING = 2;

[[noreturn]] void fail(const Options &options, const std::string &why) {
    throw std::runtime_error(options.host + ":" + std::to_string(options.port) + ": " + why);
}

}  // namespace

Listener::Listener(const Options &options) : options(options) {
    addrinfo hints{}, *found = nullptr;
    hints.ai_flags = AI_PASSIVE | AI_NUMERICSERV;
    hints.ai_socktype = SOCK_STREAM;
    int status =
        getaddrinfo(options.host.c_str(), std::to_string(options.port).c_str(), &hints, &found);
    if (status != 0) fail(options, gai_strerror(status));
    int one = 1;
    socket = ::socket(found->ai_family, SOCK_STREAM | SOCK_NONBLOCK | SOCK_CLOEXEC, 0);
    bool good = socket >= 0 && setsockopt(socket, SOL_SOCKET, SO_REUSEADDR, &one, sizeof one) == 0
                && bind(socket, found->ai_addr, found->ai_addrlen) == 0
                && listen(socket, BACKLOG) == 0 && pipe(wakes) == 0;
    int error = errno;
    freeaddrinfo(found);
    if (!good) fail(options, strerror(error));
}

unsigned Listener::port() const {
    sockaddr_storage at{};
    socklen_t size = sizeof at;
    char port[16] = "";
    getsockname(socket, reinterpret_cast<sockaddr *>(&at), &size);
    getnameinfo(
        reinterpret_cast<sockaddr *>(&at), size, nullptr, 0, port, sizeof port, NI_NUMERICSERV);
    return unsigned(std::stoul(port));
}

void Listener::start(Connections &connections, Log &log, Metrics &metrics, Taker taker) {
    std::thread([&, taker] { run(connections, log, metrics, taker); }).detach();
}

// Takes one connection; gives the error, or 0.
int Listener::take(Connections &connections, Metrics &metrics, const Taker &taker) {
    sockaddr_storage from{};
    socklen_t size = sizeof from;
    int taken =
        accept4(socket, reinterpret_cast<sockaddr *>(&from), &size, SOCK_NONBLOCK | SOCK_CLOEXEC);
    if (taken < 0) return errno;
    bool is_admitted = false;
    try {
        is_admitted = connections.admit(taken);
    } catch (const std::bad_alloc &) {
    }
    if (!is_admitted) close(taken);
    if (!is_admitted || !taker(taken, reinterpret_cast<sockaddr *>(&from), size))
        metrics.refused_connections++;
    return 0;
}

// Waits for a connection, or just for a pause if there is one; false once the end has come.
bool Listener::wait(int pause) const {
    pollfd both[] = {{pause ? -1 : socket, POLLIN, 0}, {wakes[0], POLLIN, 0}};
    poll(both, 2, pause ? pause : -1);
    return !both[1].revents;
}

// Takes a connection, if it can; gives the pause until the next one.
int Listener::step(
    Connections &connections, Log &log, Metrics &metrics, const Taker &taker, bool was_short) {
    if (connections.is_full()) return CLOSING;
    int error = take(connections, metrics, taker);
    bool is_short = error == EMFILE || error == ENFILE || error == ENOBUFS || error == ENOMEM;
    if (!is_short) return 0;
    if (!was_short)
        log.note(
            [&] { return event("no connection can be taken").text("error", strerror(error)); });
    connections.make_room();
    return PAUSE;
}

void Listener::run(Connections &connections, Log &log, Metrics &metrics, const Taker &taker) {
    for (int pause = 0; wait(pause);)
        pause = step(connections, log, metrics, taker, pause == PAUSE);
    auto end = std::chrono::steady_clock::now() + std::chrono::seconds(1);
    for (int taken = 0; taken < BACKLOG && std::chrono::steady_clock::now() < end; taken++)
        if (take(connections, metrics, taker) == EAGAIN) break;
    close(socket);
    is_done = true;
}

void Listener::finish() {
    (void)!write(wakes[1], "e", 1);
    while (!is_done) std::this_thread::sleep_for(std::chrono::milliseconds(1));
}
