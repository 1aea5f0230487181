// The arcs of a graph by their tails, counted from 0, for what is worked out when it is read.
#pragma once
#include "handle.hpp"
#include <cstdint>
#include <vector>

struct Network {
    // The heads of the arcs from v: from first[v] to first[v + 1].
    std::vector<uint32_t> first{0}, heads;

    uint32_t vertices() const { return uint32_t(first.size() - 1); }
    // With each arc in both directions, once, and without loops.
    Network both_ways() const;
};

// Puts the arcs that leave a vertex, counted from 1, into the first places of a room that grows if it
// must; gives how many there are.
size_t arcs_from(Handle &graph, uint32_t vertex, std::vector<diffuse_arc> &room);

Network network_of(Handle &graph);
