// Routes, trees, tables and nearest vertices over HTTP, in JSON, from one road graph in memory.
//
// The answers come from the proved library; the server is glue, of which nothing is proved.
// README.md lists the paths.
#include "http.hpp"
#include "listener.hpp"
#include "manager.hpp"
#include "reloads.hpp"
#include <csignal>
#include <malloc.h>
#include <sys/resource.h>
#include <system_error>
#include <thread>
#include <unistd.h>

namespace {

// What is freed goes back to the system, or to all threads: long lists are mapped by themselves, and
// the threads have one arena.
void share_memory() {
    mallopt(M_MMAP_THRESHOLD, 1 << 17);
    mallopt(M_ARENA_MAX, 1);
}

// As many descriptors as connections need; or else fewer connections.
void allow_descriptors(Options &options) {
    rlimit limit{};
    const rlim_t others = Connections::OTHERS;
    if (getrlimit(RLIMIT_NOFILE, &limit) != 0) return;
    limit.rlim_cur = limit.rlim_max;
    setrlimit(RLIMIT_NOFILE, &limit);
    if (limit.rlim_max < options.connections + others)
        options.connections = unsigned(limit.rlim_max > others ? limit.rlim_max - others : 1);
}

sigset_t set_of(std::initializer_list<int> numbers) {
    sigset_t signals;
    sigemptyset(&signals);
    for (int number : numbers) sigaddset(&signals, number);
    return signals;
}

// Looks after requests and connections that take too long.
void watch(Connections &connections, Searches &searches, const std::atomic<bool> &is_draining) {
    for (;; std::this_thread::sleep_for(std::chrono::milliseconds(50))) try {
            searches.expire(false);
            connections.look(is_draining);
        } catch (const std::bad_alloc &) {
        }
}

// Waits for a time, as long as there is something to wait for; false if a signal has come.
template <class Holds> bool wait(double seconds, const sigset_t &enders, const Holds &holds) {
    auto begin = Clock::now();
    const timespec moment{0, 10000000};
    while (holds() && seconds_since(begin) < seconds)
        if (sigtimedwait(&enders, nullptr, &moment) > 0) return false;
    return true;
}

// Answers what has come, and closes each connection with its next reply, or when it is silent; what
// is not answered near the end of the time is refused. A further signal to end ends this at once.
void drain(const Options &options, Listener &listener, Connections &connections, Searches &searches,
    const sigset_t &enders) {
    auto is_open = [&] { return connections.count() > 0; };
    listener.finish();
    if (!wait(0.9 * options.drain, enders, is_open)) return;
    searches.expire(true);
    wait(0.1 * options.drain, enders, is_open);
}

// Reads the files; with --parts, only says what it has found.
std::shared_ptr<Roads> read_roads(const Options &options) {
    auto roads = Roads::read(options);
    if (options.parts) {
        std::fputs(roads->parts_text().c_str(), stdout);
        std::fflush(stdout);
        _exit(0);
    }
    return roads;
}

void announce(Log &log, const Listener &listener, const Roads &roads) {
    if (!roads.not_factored.empty())
        log.note([&] { return event("not factored").text("why", roads.not_factored); });
    log.note([&] {
        return event("listening")
            .number("port", listener.port())
            .number("vertices", roads.vertices)
            .number("arcs", roads.arcs);
    });
    notify_manager("READY=1");
}

// The parts of the server, which are never destroyed, since threads use them up to the end.
struct Server {
    Options options;
    Log log;
    Metrics metrics;
    Listener listener{options};
    Connections connections{options, log, metrics};
    Searches searches;
    Http http{options, log, metrics, connections, searches};
    Reloads reloads{options, log, metrics, searches};
    std::atomic<bool> is_draining{false};

    Server(const Options &given, const std::shared_ptr<Roads> &roads)
        : options(given), searches(options, roads, Http::hold, Http::resume) {}

    void start() {
        log.start();
        searches.start();
        reloads.start();
        std::thread([this] { watch(connections, searches, is_draining); }).detach();
        auto take = [this](int socket, const sockaddr *from, socklen_t size) {
            return http.take(socket, from, size);
        };
        listener.start(connections, log, metrics, take);
    }

    // Goes on for the time of grace, and then answers what has come.
    void end() {
        const auto enders = set_of({SIGTERM, SIGINT});
        notify_manager("STOPPING=1");
        http.end();
        log.note([] { return event("ending"); });
        if (wait(options.grace, enders, [] { return true; })) {
            is_draining = true;
            log.note([] { return event("draining"); });
            http.drain();
            drain(options, listener, connections, searches, enders);
        }
        log.note([&] { return event("ended").number("connections", connections.count()); });
        log.finish();
    }
};

[[noreturn]] void serve(Options options) {
    allow_descriptors(options);
    auto roads = read_roads(options);
    // Up to here SIGTERM ends the program by itself; from now on whoever waits for it hears it.
    const auto signals = set_of({SIGHUP, SIGTERM, SIGINT});
    pthread_sigmask(SIG_BLOCK, &signals, nullptr);
    auto &server = *new Server(options, roads);
    if (!options.user.empty()) become(options.user);
    server.start();
    announce(server.log, server.listener, *roads);
    roads = nullptr;
    for (int signal = 0; sigwait(&signals, &signal) == 0 && signal == SIGHUP;) server.reloads.ask();
    server.end();
    _exit(0);
}

}  // namespace

int main(int count, char **words) {
    Options options = read_options(count, words);
    const auto reload = set_of({SIGHUP});
    pthread_sigmask(SIG_BLOCK, &reload, nullptr);
    std::signal(SIGPIPE, SIG_IGN);
    share_memory();
    std::string error;
    try {
        serve(options);
    } catch (const std::bad_alloc &) {
        error = "out of memory";
    } catch (const std::system_error &why) {
        error = std::string("no thread can be started: ") + why.what();
    } catch (const std::exception &why) {
        error = why.what();
    }
    std::fprintf(stderr, "diffuse-server: %s\n", error.c_str());
    _exit(1);
}
