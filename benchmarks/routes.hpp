// Pairs, and their routes, one after the other.
#pragma once
#include "common.hpp"

#include <algorithm>

struct Pair {
    uint32_t source, target;
};

static inline vector<Pair> read_pairs(const char* path, uint32_t vertices) {
    return read_questions<Pair>(path, "q", "p2p", [&](Fields& fields) {
        auto source = static_cast<uint32_t>(fields.number(1, vertices));
        return Pair{source, static_cast<uint32_t>(fields.number(1, vertices))};
    });
}

// A search that stops at its target. Its lists serve all pairs: what one has touched is put back before the next.
class RouteFinder {
    const Graph& graph;
    Answer answer;
    Heap heap;
    vector<uint32_t> found, order;

    void put_back() {
        for (uint32_t v : found) answer.distance[v] = UNREACHED, answer.hops[v] = answer.parent[v] = 0;
        found.clear();
        heap.clear();
    }

public:
    explicit RouteFinder(const Graph& graph) : graph(graph), answer(graph.vertices()) {}

    // The distance of the target, and the vertices from the source to it, each the parent of the next; UNREACHED and none if
    // there is no route.
    uint64_t find(uint32_t source, uint32_t target, vector<uint32_t>& route) {
        put_back();
        route.clear();
        settle(graph, source, target, heap, answer, [&](uint32_t v) { found.push_back(v); });
        if (answer.distance[target] == UNREACHED) return UNREACHED;
        find_parents(graph, source, target, order, answer);
        for (uint32_t v = target; v != 0; v = answer.parent[v]) route.push_back(v);
        std::reverse(route.begin(), route.end());
        return answer.distance[target];
    }
};
