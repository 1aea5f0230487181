// The log: a line of JSON for each event, on standard error. A thread of its own writes it, so
// whoever logs never waits, and a reader that stalls or is gone ends nothing: what it does not take
// is dropped and counted.
#pragma once
#include "json.hpp"
#include <atomic>
#include <condition_variable>
#include <mutex>

std::string now_as_text();

class Log {
  public:
    // Starts the thread; what is added before waits for it.
    void start();
    // Adds the line that `make` gives; without memory for it, it is dropped and counted.
    template <class Make> void note(const Make &make) noexcept {
        try {
            add(make());
        } catch (...) {
            lost++;
        }
    }
    uint64_t dropped() const { return lost; }
    // Waits until all is written, or for a second.
    void finish();

  private:
    static constexpr size_t MOST = 1 << 20;
    std::mutex lock;
    std::condition_variable changed;
    std::string waiting, writing;
    bool is_writing = false;
    std::atomic<uint64_t> lost{0};

    void add(Object line);
    void write_all();
};

// A line that begins with the time.
Object event(const char *name);
