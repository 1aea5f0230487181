// Answers every pair of a .p2p as `diffuse solve GRAPH QUESTIONS` does, with the same bytes:
//
//     pairs_dijkstra GRAPH QUESTIONS [--times]
//
// For each pair it searches as `heap_dijkstra` does until nothing waits that is as near as the target, and then goes over the
// tight arcs up to the target's hops. Its lists are made once.
#include "routes.hpp"
#include "times.hpp"

int main(int count, char** words) {
    if (!has_two_files(count, words)) stop("usage: pairs_dijkstra GRAPH QUESTIONS [--times]");
    Times times;
    Graph graph(read_graph(words[1]));
    vector<Pair> pairs = read_pairs(words[2], graph.vertices());
    RouteFinder finder(graph);
    vector<uint32_t> route;
    Output out;
    out.line("p ans p2p", {pairs.size()}, " shortest");
    for (Pair pair : pairs) {
        times.enter(SOLVING);
        uint64_t distance = finder.find(pair.source, pair.target, route);
        times.enter(WRITING);
        out.line("q", {pair.source, pair.target});
        if (distance == UNREACHED) {
            out.line("u", {});
            continue;
        }
        out.line("d", {distance, route.size() - 1});
        out.list('r', route);
    }
    out.write_out();
    if (count == 4) times.show();
}
