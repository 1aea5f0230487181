// Vertices numbered way by way, as maps have them: a way is a walk along streets that no earlier way has, and the vertices of a
// way that have no number yet get the next ones. So a block of numbers is no region, and blocks interleave.
#pragma once
#include "graphs.hpp"
#include "random.hpp"

// A street by its ends, two vertices from 0 on.
using Ends = std::pair<uint32_t, uint32_t>;

// Streets that ways are made of, each once.
class Ways {
    const vector<Ends>& streets;
    vector<vector<uint32_t>> at;
    vector<bool> used;
    vector<uint32_t> order;
    vector<bool> met;

    void meet(uint32_t vertex) {
        if (!met[vertex]) order.push_back(vertex);
        met[vertex] = true;
    }

    // A street at a vertex that no way has, at random; none is the number of streets.
    size_t next_street(uint32_t vertex, Random& random) {
        vector<uint32_t>& here = at[vertex];
        here.erase(std::remove_if(here.begin(), here.end(), [&](uint32_t it) { return used[it]; }), here.end());
        return here.empty() ? streets.size() : here[random.below(here.size())];
    }

    // A way of so many streets at most.
    void walk(size_t street, uint64_t most, Random& random) {
        uint32_t vertex = random.below(2) == 1 ? streets[street].second : streets[street].first;
        meet(vertex);
        for (; most > 0 && street < streets.size(); most--) {
            used[street] = true;
            vertex = streets[street].first == vertex ? streets[street].second : streets[street].first;
            meet(vertex);
            street = next_street(vertex, random);
        }
    }

public:
    Ways(uint32_t vertices, const vector<Ends>& streets, Random random)
        : streets(streets), at(vertices), used(streets.size()), met(vertices) {
        constexpr uint64_t LONGEST = 24;
        vector<uint32_t> begun(streets.size());
        std::iota(begun.begin(), begun.end(), 0u);
        for (uint32_t street : begun) at[streets[street].first].push_back(street), at[streets[street].second].push_back(street);
        random.shuffle(begun);
        for (uint32_t street : begun) {
            if (!used[street]) walk(street, 1 + random.below(LONGEST), random);
        }
        for (uint32_t vertex = 0; vertex < vertices; vertex++) meet(vertex);
    }

    // The vertices in the order of their numbers.
    const vector<uint32_t>& in_order() const { return order; }
};
