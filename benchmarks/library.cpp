// Trees, routes and tables from graphs that are kept in memory, by libdiffuse, by the plain program and, if they are installed,
// by Boost and LEMON:
//
//     library GRAPH PAIRS NEAR_PAIRS ROUNDS
//
// Each round asks all of them for a tree, a route and a hundred near routes, by the pairs in turn, and each seventh round for a table of
// the first hundred sources and targets; another one begins each time. A line for each, with commas: its name, the bytes of its
// graph and of its factors, microseconds of processor time for opening and for factoring, and for each kind of answer a check
// number and the microseconds of each round. libdiffuse is asked with its graph as it is, and factored.
#include "other_libraries.hpp"
#include "routes.hpp"

#include <diffuse.h>

struct Diffuse : Peer {
    diffuse_graph graph = DIFFUSE_CLOSED;
    vector<uint64_t> codes;
    vector<uint32_t> hops, parents, room;

    explicit Diffuse(const char* name = "libdiffuse") : Peer(name) {}
    ~Diffuse() override { diffuse_graph_close(&graph); }

    void open(const ArcList& list) override {
        auto* arcs = reinterpret_cast<const diffuse_arc*>(list.arcs.data());
        if (diffuse_graph_open(list.vertices, arcs, list.arcs.size(), &graph) != DIFFUSE_STATUS_DONE) stop("open is refused");
    }

    uint64_t tree(uint32_t source) override {
        size_t n = diffuse_graph_vertices(&graph);
        codes.resize(n), hops.resize(n), parents.resize(n);
        auto status = diffuse_graph_tree(
            &graph, DIFFUSE_ALGEBRA_SHORTEST, 0, &source, 1, codes.data(), n, hops.data(), n, parents.data(), n);
        if (status != DIFFUSE_STATUS_DONE) stop("a tree is refused");
        return sum_of(codes.data(), n);
    }

    uint64_t route(uint32_t source, uint32_t target) override {
        room.resize(diffuse_graph_vertices(&graph));
        uint64_t code = 0;
        uint32_t length;
        auto status = diffuse_graph_route(
            &graph, DIFFUSE_ALGEBRA_SHORTEST, 0, source, target, &code, &length, room.data(), room.size());
        if (status != DIFFUSE_STATUS_DONE && status != DIFFUSE_STATUS_NO_ROUTE) stop("a route is refused");
        return status == DIFFUSE_STATUS_DONE ? code : 0;
    }

    uint64_t table(const Vertices& sources, const Vertices& targets) override {
        codes.resize(sources.size() * targets.size());
        auto status = diffuse_graph_table(&graph, DIFFUSE_ALGEBRA_SHORTEST, 0, sources.data(), sources.size(), targets.data(),
            targets.size(), codes.data(), codes.size());
        if (status != DIFFUSE_STATUS_DONE) stop("a table is refused");
        return sum_of(codes.data(), codes.size());
    }
};

struct Factored : Diffuse {
    Factored() : Diffuse("libdiffuse with factors") {}

    void factor() override {
        if (diffuse_graph_factor(&graph, DIFFUSE_ALGEBRA_SHORTEST) != DIFFUSE_STATUS_DONE) stop("factors are refused");
    }
};

// The plain program's graph, and its searches as heap_dijkstra.cpp and pairs_dijkstra.cpp have them.
struct Baseline : Peer {
    std::unique_ptr<Graph> graph;
    std::unique_ptr<RouteFinder> finder;
    vector<uint32_t> vertices;

    Baseline() : Peer("baseline") {}

    void open(const ArcList& list) override { graph = std::make_unique<Graph>(list); }

    uint64_t tree(uint32_t source) override {
        Answer answer = solve(*graph, source);
        return sum_of(answer.distance.data() + 1, graph->vertices());
    }

    uint64_t route(uint32_t source, uint32_t target) override {
        if (!finder) finder = std::make_unique<RouteFinder>(*graph);
        uint64_t distance = finder->find(source, target, vertices);
        return distance == UNREACHED ? 0 : distance;
    }

    uint64_t table(const Vertices& sources, const Vertices& targets) override {
        uint64_t sum = 0;
        for (uint32_t source : sources) {
            Answer answer(graph->vertices());
            Heap heap;
            settle(*graph, source, NO_TARGET, heap, answer, [](uint32_t) {});
            for (uint32_t target : targets) sum += answer.distance[target] == UNREACHED ? 0 : answer.distance[target];
        }
        return sum;
    }
};

static vector<std::unique_ptr<Peer>> all_peers() {
    vector<std::unique_ptr<Peer>> peers;
    peers.push_back(std::make_unique<Diffuse>());
    peers.push_back(std::make_unique<Baseline>());
    peers.push_back(std::make_unique<Factored>());
#ifdef HAS_BOOST
    peers.push_back(std::make_unique<Boost>());
#endif
#ifdef HAS_LEMON
    peers.push_back(std::make_unique<Lemon>());
#endif
    return peers;
}

// The ends of the first hundred pairs.
static std::pair<Vertices, Vertices> ends_of(const vector<Pair>& pairs) {
    std::pair<Vertices, Vertices> ends;
    for (size_t i = 0; i < pairs.size() && i < 100; i++) {
        ends.first.push_back(pairs[i].source);
        ends.second.push_back(pairs[i].target);
    }
    return ends;
}

// A hundred near routes one after the other, since what a route costs depends on the one before: the sum of their distances.
uint64_t near_routes(Peer& peer, const vector<Pair>& pairs, size_t round) {
    uint64_t sum = 0;
    for (size_t i = 0; i < 100; i++) {
        Pair pair = pairs[(100 * round + i) % pairs.size()];
        sum += peer.route(pair.source, pair.target);
    }
    return sum;
}

int main(int count, char** words) {
    if (count != 5) stop("usage: library GRAPH PAIRS NEAR_PAIRS ROUNDS");
    ArcList list = read_graph(words[1]);
    vector<Pair> pairs = read_pairs(words[2], list.vertices), near_pairs = read_pairs(words[3], list.vertices);
    if (pairs.empty() || near_pairs.empty()) stop("there are no pairs");
    auto [sources, targets] = ends_of(pairs);
    vector<std::unique_ptr<Peer>> peers = all_peers();
    for (auto& peer : peers) peer->begin(list);
    size_t rounds = std::strtoul(words[4], nullptr, 10);
    for (size_t round = 0; round < rounds; round++) {
        Pair pair = pairs[round % pairs.size()];
        for (size_t i = 0; i < peers.size(); i++) {
            Peer& peer = *peers[(i + round) % peers.size()];
            peer.ask(TREE, [&] { return peer.tree(pair.source); });
            if (!peer.finds_routes()) continue;
            peer.ask(ROUTE, [&] { return peer.route(pair.source, pair.target); });
            peer.ask(NEAR_ROUTES, [&] { return near_routes(peer, near_pairs, round); });
            if (round % 7 == 0) peer.ask(TABLE, [&, &sources = sources, &targets = targets] { return peer.table(sources, targets); });
        }
    }
    for (auto& peer : peers) peer->print();
}
