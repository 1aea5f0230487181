// Counters and latencies, in the text form that Prometheus reads.
#pragma once
#include <array>
#include <atomic>
#include <cstdint>
#include <string>
#include <string_view>

class Metrics {
  public:
    // A request was answered.
    void answered(std::string_view path, int status, double seconds);
    std::atomic<uint64_t> reloads{0}, failed_reloads{0}, reweighed_reloads{0},
        refused_connections{0}, slow_connections{0}, cut_requests{0};

    // The families of requests, and the counters above.
    std::string text() const;

  private:
    static constexpr std::array<const char *, 8> PATHS = {
        "/route", "/tree", "/table", "/nearest", "/roads", "/health", "/metrics", "other"};
    static constexpr std::array<double, 13> BOUNDS = {
        0.001, 0.0025, 0.005, 0.01, 0.025, 0.05, 0.1, 0.25, 0.5, 1, 2.5, 5, 10};
    struct OfPath {
        std::array<std::atomic<uint64_t>, 600> statuses{};
        std::array<std::atomic<uint64_t>, BOUNDS.size() + 1> buckets{};
        std::atomic<uint64_t> nanoseconds{0};
    };
    std::array<OfPath, PATHS.size()> paths;

    static void put_histogram(std::string &out, const std::string &label, const OfPath &of);
};

// The lines that begin a family, and those of a family that is one number.
void put_type(std::string &out, const std::string &name, const char *kind, const char *help);
void put_family(
    std::string &out, const char *name, const char *kind, const char *help, double number);
