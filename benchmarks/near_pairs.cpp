// Writes pairs of neighbours over a graph, as a .p2p, to standard output:
//
//     near_pairs GRAPH PAIRS SEED
//
// Each target is one of the hundred vertices that a breadth-first search finds first after the source, or the source itself
// if it finds none. The same words and graph give the same bytes on every machine.
#include "common.hpp"
#include "random.hpp"

#include <unordered_set>

constexpr size_t AROUND = 100;
constexpr uint64_t NEAR = 1;

// The first vertices that are found along arcs out of a source, without it.
static vector<uint32_t> around(const Graph& graph, uint32_t source) {
    vector<uint32_t> found = {source};
    std::unordered_set<uint32_t> seen = {source};
    for (size_t i = 0; i < found.size() && found.size() <= AROUND; i++) {
        for (auto [head, weight] : graph.out_of(found[i])) {
            if (found.size() <= AROUND && seen.insert(head).second) found.push_back(head);
        }
    }
    found.erase(found.begin());
    return found;
}

int main(int count, char** words) {
    if (count != 4) stop("usage: near_pairs GRAPH PAIRS SEED");
    Graph graph(read_graph(words[1]));
    uint64_t pairs = number(words[2], MOST_QUESTIONS);
    Random random(number(words[3], 1 << 30), NEAR);
    if (graph.vertices() == 0 && pairs > 0) stop("there is no vertex to ask for");
    Output out;
    out.line("c near pairs, made by benchmarks/near_pairs.cpp\np aux sp p2p", {pairs});
    for (uint64_t i = 0; i < pairs; i++) {
        auto source = static_cast<uint32_t>(1 + random.below(graph.vertices()));
        vector<uint32_t> targets = around(graph, source);
        out.line("q", {source, targets.empty() ? source : targets[random.below(targets.size())]});
    }
    out.write_out();
}
