#include "metrics.hpp"
#include "json.hpp"
#include <algorithm>
#include <cmath>
#include <cstdio>

namespace {

std::string number(double value) {
    char room[32];
    std::snprintf(room, sizeof room, "%g", value);
    return room;
}

}  // namespace

void put_type(std::string &out, const std::string &name, const char *kind, const char *help) {
    out += "# HELP " + name + " " + help + ".\n# TYPE " + name + " " + kind + "\n";
}

void put_family(
    std::string &out, const char *name, const char *kind, const char *help, double number) {
    put_type(out, name, kind, help);
    bool is_whole = number == std::floor(number) && std::abs(number) < 1e15;
    out += std::string(name) + " " + shown(number, is_whole ? 0 : 6) + "\n";
}

void Metrics::answered(std::string_view path, int status, double seconds) {
    auto place = size_t(std::find(PATHS.begin(), PATHS.end() - 1, path) - PATHS.begin());
    auto bucket = size_t(std::lower_bound(BOUNDS.begin(), BOUNDS.end(), seconds) - BOUNDS.begin());
    auto &of = paths[place];
    of.statuses[size_t(std::clamp(status, 0, 599))].fetch_add(1, std::memory_order_relaxed);
    of.buckets[bucket].fetch_add(1, std::memory_order_relaxed);
    of.nanoseconds.fetch_add(uint64_t(std::max(seconds, 0.0) * 1e9), std::memory_order_relaxed);
}

void Metrics::put_histogram(std::string &out, const std::string &label, const OfPath &of) {
    const std::string name = "diffuse_request_seconds";
    uint64_t count = 0;
    for (size_t i = 0; i <= BOUNDS.size(); i++) {
        count += of.buckets[i];
        auto bound = i < BOUNDS.size() ? number(BOUNDS[i]) : "+Inf";
        out += name + "_bucket{" + label + ",le=\"" + bound + "\"} " + std::to_string(count) + "\n";
    }
    char sum[64];
    std::snprintf(sum, sizeof sum, "%.6f", double(of.nanoseconds) / 1e9);
    out += name + "_sum{" + label + "} " + sum + "\n" + name + "_count{" + label + "} "
           + std::to_string(count) + "\n";
}

std::string Metrics::text() const {
    std::string out, histograms;
    put_type(out, "diffuse_requests_total", "counter", "Requests that were answered");
    put_type(histograms, "diffuse_request_seconds", "histogram", "From a request to its answer");
    for (size_t place = 0; place < PATHS.size(); place++) {
        auto &of = paths[place];
        bool is_asked = false;
        std::string label = std::string("path=\"") + PATHS[place] + "\"";
        for (size_t status = 0; status < of.statuses.size(); status++) {
            if (!of.statuses[status]) continue;
            is_asked = true;
            out += "diffuse_requests_total{" + label + ",status=\"" + std::to_string(status)
                   + "\"} " + std::to_string(of.statuses[status]) + "\n";
        }
        if (is_asked) put_histogram(histograms, label, of);
    }
    out += histograms;
    put_type(out, "diffuse_reloads_total", "counter", "Times that the files were read again");
    out += "diffuse_reloads_total{result=\"done\"} " + std::to_string(reloads) + "\n";
    out += "diffuse_reloads_total{result=\"failed\"} " + std::to_string(failed_reloads) + "\n";
    auto put = [&](const char *name, const char *help, uint64_t count) {
        put_family(out, name, "counter", help, double(count));
    };
    put("diffuse_reloads_reweighed_total", "Reloads over the old links", reweighed_reloads);
    put("diffuse_connections_refused_total", "Connections that were too many", refused_connections);
    put("diffuse_connections_slow_total", "Connections that were too slow", slow_connections);
    put("diffuse_requests_cut_total", "Requests without a reply", cut_requests);
    return out;
}
