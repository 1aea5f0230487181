// The parts of a graph in which each vertex reaches each.
#pragma once
#include "network.hpp"

struct Parts {
    // How many there are, how many vertices the largest has, and whether a vertex is in that.
    uint32_t count = 0, largest = 0;
    std::vector<bool> is_in;

    // Most vertices are in one part, so that routes between places of other ones may be wrong.
    bool has_large() const { return uint64_t(largest) * 2 >= is_in.size(); }
};

// By Tarjan's algorithm.
Parts parts_of(const Network &network);
