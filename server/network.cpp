#include "network.hpp"
#include <algorithm>

size_t arcs_from(Handle &graph, uint32_t vertex, std::vector<diffuse_arc> &room) {
    size_t count = 0;
    auto status = diffuse_graph_arcs_from(graph.at(), vertex, room.data(), room.size(), &count);
    if (status != DIFFUSE_STATUS_NO_ROOM) return count;
    room.resize(count);
    return arcs_from(graph, vertex, room);
}

Network network_of(Handle &graph) {
    Network network;
    std::vector<diffuse_arc> some;
    network.heads.reserve(diffuse_graph_arcs(graph.at()));
    for (uint32_t tail = 1; tail <= diffuse_graph_vertices(graph.at()); tail++) {
        size_t count = arcs_from(graph, tail, some);
        for (size_t i = 0; i < count; i++) network.heads.push_back(some[i].head - 1);
        network.first.push_back(uint32_t(network.heads.size()));
    }
    return network;
}

Network Network::both_ways() const {
    std::vector<uint64_t> pairs;
    pairs.reserve(2 * heads.size());
    for (uint32_t tail = 0; tail < vertices(); tail++)
        for (uint32_t i = first[tail]; i < first[tail + 1]; i++) {
            if (heads[i] == tail) continue;
            pairs.push_back(uint64_t(tail) << 32 | heads[i]);
            pairs.push_back(uint64_t(heads[i]) << 32 | tail);
        }
    std::sort(pairs.begin(), pairs.end());
    pairs.erase(std::unique(pairs.begin(), pairs.end()), pairs.end());
    Network both;
    both.first.assign(first.size(), 0);
    both.heads.reserve(pairs.size());
    for (auto pair : pairs) {
        both.first[(pair >> 32) + 1]++;
        both.heads.push_back(uint32_t(pair));
    }
    for (size_t v = 1; v < both.first.size(); v++) both.first[v] += both.first[v - 1];
    return both;
}
