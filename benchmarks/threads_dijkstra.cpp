// Answers every question of a .ss on several threads, with the bytes of `heap_dijkstra` and of `diffuse solve`:
//
//     threads_dijkstra GRAPH QUESTIONS THREADS
//
// The graph is read once. Each thread takes the next source, answers it as `heap_dijkstra` does, and writes the answer
// once those of all sources before it are written: so texts stand in order, and one is written while others are found.
#include "common.hpp"

#include <condition_variable>
#include <functional>
#include <mutex>
#include <thread>

// The sources, and how far the threads are with them.
struct Progress {
    const Graph& graph;
    const vector<uint32_t>& sources;
    Output& out;
    size_t taken = 0, written = 0;
    std::mutex mutex{};
    std::condition_variable turns{};
};

static void answer_sources(Progress& progress) {
    std::unique_lock<std::mutex> lock(progress.mutex);
    while (progress.taken < progress.sources.size()) {
        size_t mine = progress.taken++;
        lock.unlock();
        uint32_t source = progress.sources[mine];
        Answer answer = solve(progress.graph, source);
        lock.lock();
        progress.turns.wait(lock, [&] { return progress.written == mine; });
        write_answer(progress.out, source, answer);
        progress.written++;
        progress.turns.notify_all();
    }
}

int main(int count, char** words) {
    uint64_t threads = count == 4 ? std::strtoull(words[3], nullptr, 10) : 0;
    if (threads < 1 || threads > 64) stop("usage: threads_dijkstra GRAPH QUESTIONS THREADS");
    Graph graph(read_graph(words[1]));
    vector<uint32_t> sources = read_sources(words[2], graph.vertices());
    Output out;
    out.line("p ans ss", {sources.size()}, " shortest");
    Progress progress{graph, sources, out};
    vector<std::thread> others;
    for (uint64_t i = 1; i < threads; i++) others.emplace_back(answer_sources, std::ref(progress));
    answer_sources(progress);
    for (std::thread& other : others) other.join();
    out.write_out();
}
