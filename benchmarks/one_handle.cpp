// Reads a graph into a handle of libdiffuse, factors it if a third word says so, asks for one route, and reports its own peak
// memory in bytes: what a server over this graph can't do without.
//
//     one_handle GRAPH [factors]
#include <diffuse.h>

#include <fstream>
#include <iostream>
#include <iterator>
#include <string>
#include <vector>

static int stop(const char* message) {
    std::cerr << "one_handle: " << message << "\n";
    return 1;
}

int main(int count, char** words) {
    if (count < 2) return stop("usage: one_handle GRAPH [factors]");
    diffuse_graph graph = DIFFUSE_CLOSED;
    {
        std::ifstream file(words[1], std::ios::binary | std::ios::ate);
        std::string text(size_t(std::max<std::streamoff>(file.tellg(), 0)), '\0');
        file.seekg(0).read(text.data(), std::streamsize(text.size()));
        auto status = diffuse_graph_read(reinterpret_cast<const uint8_t*>(text.data()), text.size(), &graph, nullptr);
        if (status != DIFFUSE_STATUS_DONE) return stop(diffuse_status_text(status));
    }
    if (count > 2 && diffuse_graph_factor(&graph, DIFFUSE_ALGEBRA_SHORTEST) != DIFFUSE_STATUS_DONE) return stop("no factors");
    uint32_t last = diffuse_graph_vertices(&graph);
    std::vector<uint32_t> room(last);
    auto status = diffuse_graph_route(&graph, DIFFUSE_ALGEBRA_SHORTEST, 0, 1, last, nullptr, nullptr, room.data(), room.size());
    if (status != DIFFUSE_STATUS_DONE && status != DIFFUSE_STATUS_NO_ROUTE) return stop(diffuse_status_text(status));
    std::ifstream state("/proc/self/status");
    for (std::string name; state >> name;) {
        size_t kilobytes = 0;
        if (name == "VmHWM:" && state >> kilobytes) std::cout << kilobytes * 1024 << "\n";
    }
    diffuse_graph_close(&graph);
}
