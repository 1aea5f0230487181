#include "connections.hpp"
#include <algorithm>
#include <linux/tcp.h>
#include <netinet/in.h>
#include <sys/socket.h>

namespace {

using State = Connection::State;

// An idle connection is looked at in one of so many looks.
constexpr size_t TURNS = 10;

int64_t now() {
    return std::chrono::duration_cast<std::chrono::microseconds>(
        std::chrono::steady_clock::now().time_since_epoch())
        .count();
}

// For how many seconds a connection has done what it does.
double age(const Connection &connection) { return double(now() - connection.since) / 1e6; }

bool is_slow(const Connection &connection) {
    State state = connection.state;
    return (state == State::reading || state == State::writing) && age(connection) > 1;
}

// Whether nothing is lost with a connection: none of its requests has begun.
bool is_idle(const Connection &connection) {
    State state = connection.state;
    return state == State::idle || (state == State::fresh && age(connection) > 1);
}

// What the system knows of a connection: how many bytes have come, with one for its end, and
// whether its client has closed it, which some do that still wait for a reply.
struct Heard {
    uint64_t bytes = 0;
    bool is_closed = false;
};

Heard hear(const Connection &connection) {
    constexpr int ESTABLISHED = 1;
    tcp_info info{};
    socklen_t size = sizeof info;
    if (getsockopt(connection.socket, IPPROTO_TCP, TCP_INFO, &info, &size) != 0) return {};
    return {info.tcpi_bytes_received, info.tcpi_state != ESTABLISHED};
}

// A connection on which more bytes have come since its last reply began reads a request.
void note_bytes(Connection &connection, uint64_t bytes) {
    State state = connection.state;
    if ((state != State::idle && state != State::fresh) || bytes <= connection.bytes) return;
    if (connection.change(state, State::reading) && state == State::idle) connection.since = now();
}

}  // namespace

bool Connection::enter(State next) {
    since = now();
    for (State here = state; here != State::ended;)
        if (state.compare_exchange_weak(here, next)) return true;
    return false;
}

bool Connection::begin_request() {
    State here = state;
    return here == State::reading || enter(State::reading);
}

bool Connection::begin_reply() {
    bytes = hear(*this).bytes;
    return enter(State::writing);
}

void Connection::send_alone(int status, const char *why) const noexcept {
    try {
        std::string body = refusal(status, why).reply();
        std::string text =
            "HTTP/1.1 " + std::to_string(status)
            + (status == 408 ? " Request Timeout" : " Request Header Fields Too Large")
            + "\r\nContent-Type: application/json\r\nConnection: close\r\nContent-Length: "
            + std::to_string(body.size()) + "\r\n\r\n" + body;
        (void)!send(socket, text.data(), text.size(), MSG_DONTWAIT | MSG_NOSIGNAL);
    } catch (const std::bad_alloc &) {
    }
}

bool Connections::is_full() const {
    std::lock_guard<std::mutex> held(lock);
    return all.size() + coming.size() >= options.connections + 2 * SPARE && ended > 0;
}

bool Connections::admit(int socket) {
    std::lock_guard<std::mutex> held(lock);
    // The library may have closed one without a word: its socket is this one now.
    coming.erase(socket);
    if (living() >= options.connections) end_longest_idle();
    size_t others = living();
    if (others >= options.connections + SPARE) return false;
    coming[socket] = others >= options.connections;
    return true;
}

Connection *Connections::open(int socket, std::string address) {
    auto made = std::make_unique<Connection>();
    auto *connection = made.get();
    connection->socket = socket;
    connection->address = std::move(address);
    connection->enter(State::fresh);
    std::lock_guard<std::mutex> held(lock);
    auto place = coming.find(socket);
    if (place != coming.end()) {
        connection->is_spare = place->second;
        coming.erase(place);
    }
    all[connection] = std::move(made);
    return connection;
}

void Connections::close(Connection *connection) {
    std::lock_guard<std::mutex> held(lock);
    ended -= connection->state == State::ended;
    all.erase(connection);
}

size_t Connections::count() const {
    std::lock_guard<std::mutex> held(lock);
    return living();
}

bool Connections::is_over(const Connection &connection, bool is_draining) const {
    switch (connection.state.load()) {
    case State::fresh:
    case State::reading: return age(connection) > options.read;
    case State::writing: return age(connection) > options.write;
    case State::idle:
        return age(connection) > (is_draining ? std::min(1.0, options.idle) : options.idle);
    default: return false;
    }
}

// Shuts a connection down, unless it has begun something else meanwhile; whoever is in the middle
// of a request is told why.
void Connections::end(Connection &connection, const char *why) {
    State state = connection.state;
    bool is_reading = state == State::reading || state == State::fresh;
    double seconds = age(connection);
    if (state == State::ended || !connection.change(state, State::ended)) return;
    ended++;
    if (is_reading && why) {
        connection.send_alone(408, "the request has not come in time");
        metrics.answered("other", 408, seconds);
    }
    if (state != State::idle && why) {
        metrics.slow_connections++;
        log.note([&] {
            return event(why).text("client", connection.address).raw("seconds", shown(seconds, 3));
        });
    }
    shutdown(connection.socket, SHUT_RDWR);
}

// Of the slow connections of one address those that are slow for longest go, if they are too many.
void Connections::end_slow(const std::vector<Connection *> &slow) {
    if (slow.size() <= options.slow) return;
    // The times may change meanwhile, so they are read once.
    std::vector<std::pair<int64_t, Connection *>> by_time;
    for (auto *connection : slow) by_time.emplace_back(connection->since, connection);
    std::sort(by_time.begin(), by_time.end());
    for (size_t i = 0; i + options.slow < by_time.size(); i++)
        end(*by_time[i].second, "too many slow connections of one address");
}

void Connections::look_at(Connection &connection, bool is_draining,
    std::map<std::string, std::vector<Connection *>> &slow) {
    State state = connection.state;
    bool may_wait = !is_draining && (state == State::idle || state == State::fresh);
    if (may_wait && (size_t(connection.socket) + turn) % TURNS != 0) return;
    const auto heard = hear(connection);
    if (!heard.is_closed) note_bytes(connection, heard.bytes);
    bool has_left = heard.is_closed && age(connection) > 1;
    if (has_left && state == State::asking) connection.has_left = true;
    // The library does not always see that.
    if (has_left && state == State::idle) end(connection, nullptr);
    if (is_over(connection, is_draining)) end(connection, "too slow");
    else if (is_slow(connection)) slow[connection.address].push_back(&connection);
}

void Connections::look(bool is_draining) {
    std::lock_guard<std::mutex> held(lock);
    std::map<std::string, std::vector<Connection *>> slow;
    turn++;
    for (auto &[connection, owner] : all) look_at(*connection, is_draining, slow);
    for (auto &[address, connections] : slow) end_slow(connections);
}

void Connections::end_longest_idle() {
    Connection *longest = nullptr;
    for (auto &[connection, owner] : all)
        if (is_idle(*connection) && (!longest || connection->since < longest->since))
            longest = connection;
    if (longest) end(*longest, nullptr);
}

void Connections::make_room() {
    std::lock_guard<std::mutex> held(lock);
    end_longest_idle();
}
