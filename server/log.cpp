#include "log.hpp"
#include <algorithm>
#include <cerrno>
#include <chrono>
#include <ctime>
#include <thread>
#include <unistd.h>

namespace {

// Writes a text as far as the reader takes it; gives how many lines it did not.
uint64_t write_text(const std::string &text) {
    size_t done = 0;
    while (done < text.size()) {
        ssize_t step = write(STDERR_FILENO, text.data() + done, text.size() - done);
        if (step < 0 && errno == EINTR) continue;
        if (step <= 0) break;
        done += size_t(step);
    }
    return uint64_t(std::count(text.begin() + ptrdiff_t(done), text.end(), '\n'));
}

}  // namespace

std::string now_as_text() {
    timespec now{};
    clock_gettime(CLOCK_REALTIME, &now);
    tm parts{};
    gmtime_r(&now.tv_sec, &parts);
    char room[64];
    size_t length = strftime(room, sizeof room, "%Y-%m-%dT%H:%M:%S", &parts);
    std::snprintf(room + length, sizeof room - length, ".%03ldZ", now.tv_nsec / 1000000);
    return room;
}

Object event(const char *name) {
    Object line;
    line.text("time", now_as_text()).text("event", name);
    return line;
}

void Log::start() {
    waiting.reserve(MOST);
    writing.reserve(MOST);
    std::thread([this] { write_all(); }).detach();
}

void Log::add(Object line) {
    std::string text = line.end() + "\n";
    std::lock_guard<std::mutex> held(lock);
    if (waiting.size() + text.size() > MOST) {
        lost++;
        return;
    }
    if (waiting.empty()) changed.notify_all();
    waiting += text;
}

void Log::write_all() {
    for (;;) {
        {
            std::unique_lock<std::mutex> held(lock);
            is_writing = false;
            changed.notify_all();
            changed.wait(held, [this] { return !waiting.empty(); });
            is_writing = true;
        }
        // Lines that come soon after each other are written at once.
        std::this_thread::sleep_for(std::chrono::milliseconds(5));
        {
            std::lock_guard<std::mutex> held(lock);
            writing.clear();
            writing.swap(waiting);
        }
        lost += write_text(writing);
    }
}

void Log::finish() {
    std::unique_lock<std::mutex> held(lock);
    changed.wait_for(
        held, std::chrono::seconds(1), [this] { return waiting.empty() && !is_writing; });
}
