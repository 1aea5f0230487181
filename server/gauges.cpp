// What /metrics says of the moment, and of the process.
#include "http.hpp"
#include "version.hpp"
#include <cmath>
#include <ctime>
#include <dirent.h>
#include <fstream>
#include <sys/resource.h>
#include <unistd.h>

namespace {

const double BEGAN = double(std::time(nullptr));

// A number of /proc/self/statm, in bytes: 0 for the address space, 1 for the memory that is held.
double memory(int place) {
    uint64_t pages[2] = {0, 0};
    std::ifstream("/proc/self/statm") >> pages[0] >> pages[1];
    return double(pages[place]) * double(sysconf(_SC_PAGESIZE));
}

double processor_seconds() {
    rusage used{};
    getrusage(RUSAGE_SELF, &used);
    return double(used.ru_utime.tv_sec + used.ru_stime.tv_sec)
           + double(used.ru_utime.tv_usec + used.ru_stime.tv_usec) / 1e6;
}

double open_descriptors() {
    double count = 0;
    DIR *folder = opendir("/proc/self/fd");
    while (folder && readdir(folder)) count++;
    if (folder) closedir(folder);
    // Without the folder itself, its parent, and what reads it.
    return count - 3;
}

double most_descriptors() {
    rlimit limit{};
    getrlimit(RLIMIT_NOFILE, &limit);
    return double(limit.rlim_cur);
}

void put_process(std::string &out) {
    put_family(out, "process_cpu_seconds_total", "counter", "Processor time", processor_seconds());
    put_family(out, "process_start_time_seconds", "gauge", "When it began, since 1970", BEGAN);
    put_family(out, "process_resident_memory_bytes", "gauge", "Memory that is held", memory(1));
    put_family(out, "process_virtual_memory_bytes", "gauge", "Address space", memory(0));
    put_family(out, "process_open_fds", "gauge", "Descriptors", open_descriptors());
    put_family(out, "process_max_fds", "gauge", "Descriptors at most", most_descriptors());
}

}  // namespace

std::string Http::metrics_text() const {
    auto roads = searches.now();
    std::string out;
    put_type(out, "diffuse_build_info", "gauge", "The version");
    out += "diffuse_build_info{version=\"" + version() + "\"} 1\n";
    put_family(out, "diffuse_vertices", "gauge", "Vertices of the graph", roads->vertices);
    put_family(out, "diffuse_arcs", "gauge", "Arcs of the graph", double(roads->arcs));
    put_family(out, "diffuse_graph_age_seconds", "gauge", "Since the graph was read",
        std::floor(seconds_since(roads->since)));
    put_family(
        out, "diffuse_connections", "gauge", "Open connections", double(connections.count()));
    put_family(out, "diffuse_requests_waiting", "gauge", "Requests that wait for a search",
        double(searches.waiting()));
    put_family(out, "diffuse_searches_running", "gauge", "Requests that are searched for",
        double(searches.running()));
    put_family(out, "diffuse_resident_bytes", "gauge", "Memory that is held", memory(1));
    put_family(out, "diffuse_log_lines_dropped_total", "counter", "Lines that the log lost",
        double(log.dropped()));
    put_process(out);
    return out + metrics.text();
}
