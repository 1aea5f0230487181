// Boost and LEMON, if they are installed: distances and predecessors alone, without least hops or parents, and no routes.
#pragma once
#include "peer.hpp"

#include <algorithm>
#include <memory>

#if __has_include(<boost/graph/compressed_sparse_row_graph.hpp>)
#define HAS_BOOST
#include <boost/graph/compressed_sparse_row_graph.hpp>
#include <boost/graph/dijkstra_shortest_paths.hpp>
#endif
#if __has_include(<lemon/static_graph.h>)
#define HAS_LEMON
#include <lemon/dijkstra.h>
#include <lemon/static_graph.h>
#endif

#ifdef HAS_BOOST
struct Boost : Peer {
    struct Weight {
        uint64_t weight;
    };
    using Rows = boost::compressed_sparse_row_graph<boost::directedS, boost::no_property, Weight, boost::no_property, uint32_t, uint32_t>;
    std::unique_ptr<Rows> graph;
    vector<uint64_t> distances;
    vector<uint32_t> predecessors;

    Boost() : Peer("Boost") {}

    bool finds_routes() const override { return false; }

    void open(const ArcList& list) override {
        vector<std::pair<uint32_t, uint32_t>> ends;
        vector<Weight> weights;
        for (const Arc& arc : list.arcs) ends.push_back({arc.tail - 1, arc.head - 1}), weights.push_back({arc.weight});
        graph = std::make_unique<Rows>(boost::edges_are_unsorted_multi_pass, ends.begin(), ends.end(), weights.begin(), list.vertices);
    }

    uint64_t tree(uint32_t source) override {
        size_t n = boost::num_vertices(*graph);
        distances.assign(n, UNREACHED), predecessors.assign(n, 0);
        auto index = boost::get(boost::vertex_index, *graph);
        boost::dijkstra_shortest_paths(*graph, source - 1,
            boost::weight_map(boost::get(&Weight::weight, *graph))
                .distance_map(boost::make_iterator_property_map(distances.begin(), index))
                .predecessor_map(boost::make_iterator_property_map(predecessors.begin(), index))
                .distance_inf(UNREACHED));
        return sum_of(distances.data(), n);
    }
};
#endif

#ifdef HAS_LEMON
struct Lemon : Peer {
    using Weights = lemon::StaticDigraph::ArcMap<uint64_t>;
    lemon::StaticDigraph graph;
    std::unique_ptr<Weights> weights;

    Lemon() : Peer("LEMON") {}

    bool finds_routes() const override { return false; }

    void open(const ArcList& list) override {
        vector<Arc> sorted = list.arcs;
        std::stable_sort(sorted.begin(), sorted.end(), [](const Arc& a, const Arc& b) { return a.tail < b.tail; });
        vector<std::pair<int, int>> ends;
        for (const Arc& arc : sorted) ends.push_back({int(arc.tail - 1), int(arc.head - 1)});
        graph.build(int(list.vertices), ends.begin(), ends.end());
        weights = std::make_unique<Weights>(graph);
        for (size_t i = 0; i < sorted.size(); i++) (*weights)[graph.arc(int(i))] = sorted[i].weight;
    }

    uint64_t tree(uint32_t source) override {
        lemon::Dijkstra<lemon::StaticDigraph, Weights> search(graph, *weights);
        search.run(graph.node(int(source - 1)));
        uint64_t sum = 0;
        for (int v = 0; v < graph.nodeNum(); v++)
            if (search.reached(graph.node(v))) sum += search.dist(graph.node(v));
        return sum;
    }
};
#endif
