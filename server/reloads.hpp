// Reads the files again on a thread of its own, so that SIGTERM is heard meanwhile. A reload that
// fails in any way changes nothing.
#pragma once
#include "log.hpp"
#include "metrics.hpp"
#include "searches.hpp"

class Reloads {
  public:
    Reloads(const Options &options, Log &log, Metrics &metrics, Searches &searches)
        : options(options), log(log), metrics(metrics), searches(searches) {}
    void start();
    // One reload follows, however often it is asked for before that begins.
    void ask();

  private:
    const Options &options;
    Log &log;
    Metrics &metrics;
    Searches &searches;
    std::mutex lock;
    std::condition_variable changed;
    bool is_asked = false;

    void reload();
    void note_failure(const char *error);
};
