// Answers every question of a .ss as `diffuse solve GRAPH QUESTIONS` does, with the same bytes:
//
//     heap_dijkstra GRAPH QUESTIONS [--times]
//
// It is the plain program to measure against: the graph in compressed rows, Dijkstra's algorithm with a binary heap
// that keeps old entries, and one pass over tight arcs for the least hops and the least parents.
#include "common.hpp"
#include "times.hpp"

int main(int count, char** words) {
    if (!has_two_files(count, words)) stop("usage: heap_dijkstra GRAPH QUESTIONS [--times]");
    Times times;
    Graph graph(read_graph(words[1]));
    vector<uint32_t> sources = read_sources(words[2], graph.vertices());
    Output out;
    out.line("p ans ss", {sources.size()}, " shortest");
    for (uint32_t source : sources) {
        times.enter(SOLVING);
        Answer answer = solve(graph, source);
        times.enter(WRITING);
        write_answer(out, source, answer);
    }
    out.write_out();
    if (count == 4) times.show();
}
