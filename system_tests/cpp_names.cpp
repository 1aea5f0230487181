// Each member of diffuse.hpp, held against an answer about the five vertices that was worked out by hand. Each wrong one is printed.
// Link with -Wl,--wrap=diffuse_graph_route,--wrap=diffuse_graph_near. With FORGOTTEN, a measure, it must not compile: it has no limit.
#include <diffuse.hpp>

#include <array>
#include <cstdio>
#include <cstdlib>
#include <new>
#include <thread>
#if __cplusplus >= 202002L
#include <span>
#endif
#if __cplusplus >= 201703L
#include <string_view>
#endif

using numbers = std::vector<std::uint32_t>;
using codes = std::vector<std::uint64_t>;

static int wrong, asked;        // how often a route or what is near was asked of the library
static std::size_t most_bytes;  // of all lists that were made in C++, those of the longest

void* operator new(std::size_t bytes) {
    most_bytes = std::max(most_bytes, bytes);
    if (void* at = std::malloc(bytes)) return at;
    throw std::bad_alloc();
}
void operator delete(void* at) noexcept { std::free(at); }
void operator delete(void* at, std::size_t) noexcept { std::free(at); }

extern "C" {
diffuse_status __real_diffuse_graph_route(diffuse_graph*, diffuse_algebra, uint64_t, uint32_t, uint32_t, uint64_t*, uint32_t*, uint32_t*, size_t);
diffuse_status __wrap_diffuse_graph_route(diffuse_graph* graph, diffuse_algebra by, uint64_t limit, uint32_t source, uint32_t target,
                                          uint64_t* code, uint32_t* hops, uint32_t* room, size_t n) {
    asked++;
    return __real_diffuse_graph_route(graph, by, limit, source, target, code, hops, room, n);
}
diffuse_status __real_diffuse_graph_near(diffuse_graph*, diffuse_algebra, uint64_t, const uint32_t*, size_t, uint32_t*, size_t, uint64_t*, size_t,
                                         uint32_t*, size_t, uint32_t*, size_t, size_t*);
diffuse_status __wrap_diffuse_graph_near(diffuse_graph* graph, diffuse_algebra by, uint64_t limit, const uint32_t* sources, size_t n_sources,
                                         uint32_t* vertices, size_t n_vertices, uint64_t* of, size_t n_codes, uint32_t* hops, size_t n_hops,
                                         uint32_t* parents, size_t n_parents, size_t* count) {
    asked++;
    return __real_diffuse_graph_near(graph, by, limit, sources, n_sources, vertices, n_vertices, of, n_codes, hops, n_hops, parents, n_parents, count);
}
}

static void expect(bool right, const char* what) {
    if (right) return;
    std::printf("wrong: %s\n", what);
    wrong = 1;
}

template <class Call>
static bool refused(diffuse_status status, Call call) {
    try {
        call();
    } catch (const diffuse::error& error) {
        return error.status() == status && std::string(error.what()) == diffuse_status_text(status);
    }
    return false;
}

static const std::vector<diffuse::arc> FIVE = {{1, 2, 4}, {1, 3, 1}, {3, 2, 2}, {2, 4, 5}, {3, 4, 8}, {4, 4, 0}, {5, 1, 3}};

// A graph from 1 on through all others, and one from 1 to each other at its number.
static std::vector<diffuse::arc> chain(std::uint32_t n) {
    std::vector<diffuse::arc> arcs;
    for (std::uint32_t v = 1; v < n; v++) arcs.push_back({v, v + 1, 1});
    return arcs;
}
static std::vector<diffuse::arc> star(std::uint32_t n) {
    std::vector<diffuse::arc> arcs;
    for (std::uint32_t v = 2; v <= n; v++) arcs.push_back({1, v, v});
    return arcs;
}

// Each scoped name is its algebra, by all calls.
static void scoped_names() {
    diffuse::graph graph(5, FIVE);
    const std::pair<diffuse::measure, std::uint64_t> rows[] = {
        {diffuse::shortest, 8}, {diffuse::widest, 4}, {diffuse::reach, 0}, {diffuse::hops, 2}, {diffuse::reliable, 20}, {diffuse::within(8), 8}};
    for (const auto& row : rows) {
        expect(graph.route(1, 4, row.first).code == row.second, "route by a scoped name");
        expect(graph.table({1}, {4}, row.first) == codes({row.second}), "table by a scoped name");
        expect(graph.check(graph.tree({1}, row.first), {1}, row.first).right(), "check by a scoped name");
    }
    expect(graph.near({1}, diffuse::within(3)).vertices == numbers({1, 3, 2}), "near within 3");
    expect(!graph.route(1, 4, diffuse::within(7)).found() && graph.factor(diffuse::hops) == DIFFUSE_STATUS_DONE, "within 7");
#ifdef FORGOTTEN
    graph.near({1}, FORGOTTEN);
    graph.near_into({}, {}, {}, {}, {1}, FORGOTTEN);
#endif
}

// A const graph is asked, in the caller's room, from lists of each kind.
static void rooms_of_a_caller() {
    diffuse::graph first(5, {FIVE.data(), FIVE.size()});
    first.number(FIVE);
    const diffuse::graph graph = std::move(first);
    std::uint32_t room[5] = {7, 7, 7, 7, 7}, steps[3];
    auto found = graph.route_into(room, 1, 4);
    expect(found.found && found.code == 8 && found.hops == 3 && found.vertices() == 4, "route_into");
    expect(numbers(room, room + 5) == numbers({1, 3, 2, 4, 7}), "what route_into writes");
    found = graph.route_into({room, 3}, 1, 2, diffuse::hops);
    expect(found.code == 1 && numbers(room, room + 5) == numbers({1, 2, 2, 4, 7}), "pointer and length");
    found = graph.route_into({room, 3}, 1, 4);
    expect(found.found && found.vertices() == 4 && found.code == 8 && room[1] == 2, "a room that is too short");
    expect(!graph.route_into(room, 1, 5).found && graph.route_into(room, 1, 5).vertices() == 0, "no route in a room");
    expect(graph.route_arcs_into(room, steps, 1, 4).hops == 3 && numbers(steps, steps + 3) == numbers({1, 2, 3}), "route_arcs_into");
    std::array<std::uint64_t, 5> lengths;
    numbers parents(5);
    const numbers source = {1};
    graph.tree_into(lengths, {}, parents, source);
    expect(lengths[3] == 8 && lengths[4] == DIFFUSE_UNREACHED && parents == numbers({0, 3, 1, 2, 0}), "tree_into");
    expect(refused(DIFFUSE_STATUS_NO_ROOM, [&] { graph.tree_into({lengths.data(), 4}, {}, parents, source); }), "a tree's short list");
    expect(graph.near_into(room, lengths, {}, {}, source) == 4 && room[3] == 4 && lengths[2] == 3, "near_into");
    expect(graph.near_into({room, 3}, {}, {}, {}, {5, 4}) == 5 && room[0] == 1, "what is near is too much");
    graph.table_into({lengths.data(), 2}, std::array<std::uint32_t, 2>{{1, 5}}, {4});
    expect(lengths[0] == 8 && lengths[1] == 11, "table_into");
    diffuse::arc leaving[2];
    expect(graph.arcs_from_into(leaving, 3) == 2 && leaving[1].weight == 8 && graph.arcs_from_into({leaving, 1}, 3) == 2, "arcs_from_into");
    graph.tree_into(lengths, {}, parents, source);
    expect(graph.check(lengths, graph.tree({1}).hops, parents, source).right(), "check of a caller's lists");
    expect(graph.share().vertices() == 5 && graph.reweigh(FIVE).arcs() == 7 && graph.arcs_from(1).size() == 2, "a const graph");
}

// Bytes of each kind are read; C++20's spans are lists.
static void texts_and_spans() {
    const char text[] = "p sp 2 1\na 1 2 3\n and more";
    const std::vector<unsigned char> bytes(text, text + 17);
    expect(diffuse::graph::read(text, 17).route(1, 2).code == 3 && diffuse::graph::read(bytes).route(1, 2).code == 3, "read of bytes");
#if __cplusplus >= 201703L
    expect(diffuse::graph::read(std::string_view(text, 17)).arcs() == 1, "read of a view");
#endif
#if __cplusplus >= 202002L
    numbers list = {9, 1, 5, 9}, room(4);
    std::span<const std::uint32_t> sources = std::span(list).subspan(1, 2);
    const diffuse::graph graph(5, std::span(FIVE));
    expect(graph.table(sources, sources) == codes({0, DIFFUSE_UNREACHED, 3, 0}), "a span");
    expect(graph.route_into(std::span(room), 1, 4).found && room == numbers({1, 3, 2, 4}), "a span to write");
#endif
}

// A long answer is asked again once; the next one has its room.
static void asked_once() {
    diffuse::graph line(5000, chain(5000)), hub(5000, star(5000));
    for (int run = 0; run < 3; run++) {
        asked = 0;
        expect(line.route(1, 4000).hops() == 3999 && asked == (run ? 1 : 2), "how often a route is asked");
        asked = 0;
        expect(hub.near({1}).vertices.back() == 5000 && asked == (run ? 1 : 2), "how often what is near is asked");
    }
    asked = 0;
    expect(line.route(1, 5).vertices == numbers({1, 2, 3, 4, 5}) && line.route(4, 3004).hops() == 3000 && asked == 2, "routes of all lengths");
    expect(hub.near({1}, diffuse::within(3)).parents == numbers({0, 1, 1}) && asked == 3, "a small answer after a large one");
}

// A near answer of a large graph takes a short list, not one of all vertices.
static void short_lists() {
    diffuse::graph line(200000, chain(200000));
    line.number(chain(200000));
    for (int run = 0; run < 2; run++) {
        most_bytes = 0;
        expect(line.route(1, 5).hops() == 4 && line.route_arcs(1, 5).arcs.size() == 4 && line.arcs_from(7).size() == 1, "near routes");
        expect(line.near({1}, diffuse::within(3)).vertices.size() == 4 && line.table({1}, {2}).size() == 1, "what is near");
    }
    expect(most_bytes <= 1024 * sizeof(std::uint64_t), "the lists of near answers");
}

// Who owns a graph: what is assigned to is closed, and what was moved away is none.
static void owners() {
    diffuse::graph first(5, FIVE), second(100, chain(100));
    expect(first.is_open() && first.handle()->is_open && !diffuse::graph().is_open(), "is_open");
    second = std::move(first);
    expect(!first.is_open() && second.is_open() && second.vertices() == 5, "assignment over an open graph");
    expect(refused(DIFFUSE_STATUS_CLOSED, [&] { first.route(1, 4); }), "a graph that was moved away");
    first = second.share();
    first = diffuse::graph(4, {{1, 2, 9}});
    diffuse::graph& same = second;
    second = std::move(same);
    expect(first.route(1, 2).code == 9 && second.route(1, 4).code == 8, "assignment to itself");
    second = diffuse::graph();
    expect(!second.is_open(), "assignment of none");
    std::uint32_t hops = 0;
    expect(diffuse_graph_route(first.handle(), DIFFUSE_ALGEBRA_HOPS, 0, 1, 2, nullptr, &hops, nullptr, 0) == DIFFUSE_STATUS_NO_ROOM && hops == 1, "handle");
}

// Whether a stop is set; a stop that is freed, clear, stops nothing.
static void stops() {
    diffuse::graph line(200000, chain(200000));
    {
        diffuse::stop stop;
        line.stop_by(stop);
        expect(!stop.is_set(), "a new stop");
        stop.set();
        expect(stop.is_set() && refused(DIFFUSE_STATUS_STOPPED, [&] { line.route(1, 200000); }), "a stop that is set");
        expect(refused(DIFFUSE_STATUS_STOPPED, [&] { line.factor(); }), "a factoring that is stopped");
        stop.clear();
        expect(!stop.is_set(), "a stop that is clear");
    }
    expect(line.route(1, 200000).code == 199999, "a stop that was freed");
}

int main() {
    scoped_names();
    rooms_of_a_caller();
    texts_and_spans();
    asked_once();
    short_lists();
    owners();
    stops();
    const auto& arcs = FIVE;
    diffuse::graph graph(5, arcs);
    expect(graph.vertices() == 5 && graph.arcs() == 7, "sizes");
    auto leaving = graph.arcs_from(3);
    expect(leaving.size() == 2 && leaving[0].head == 2 && leaving[1].head == 4 && leaving[1].weight == 8, "arcs_from");
    expect(graph.arcs_from(4).size() == 1, "arcs_from a loop");
    auto route = graph.route(1, 4);
    expect(route.found() && route.code == 8 && route.hops() == 3 && route.vertices == numbers({1, 3, 2, 4}), "route");
    expect(!graph.route(1, 5).found() && !graph.route(1, 4, DIFFUSE_ALGEBRA_WITHIN, 7).found(), "no route");
    expect(graph.route(1, 4, DIFFUSE_ALGEBRA_HOPS).code == 2, "route by hops");
    auto tree = graph.tree({1});
    expect(tree.codes == codes({0, 3, 1, 8, DIFFUSE_UNREACHED}) && tree.parents == numbers({0, 3, 1, 2, 0}), "tree");
    auto near = graph.near({1}, DIFFUSE_ALGEBRA_WITHIN, 3);
    expect(near.vertices == numbers({1, 3, 2}) && near.codes == codes({0, 1, 3}) && near.hops == numbers({0, 1, 2}), "near");
    expect(near.parents == numbers({0, 1, 3}) && graph.near({}).vertices.empty(), "parents of near");
    expect(graph.check(tree, {1}).right(), "check of the tree");
    tree.codes[3] = 9;
    auto verdict = graph.check(tree, {1});
    expect(verdict.vertex == 4 && verdict.reason == DIFFUSE_REASON_NOT_BEST, "check of another tree");
    expect(graph.table({1, 5}, {4, 1}) == codes({8, 0, 11, 3}) && graph.table({1}, {}).empty(), "table");
    expect(graph.factor() == DIFFUSE_STATUS_DONE && graph.route(1, 4).vertices == numbers({1, 3, 2, 4}), "factor");
    expect(graph.factor(diffuse::shortest, numbers({4, 2, 0, 1, 3})) == DIFFUSE_STATUS_DONE && graph.table({1}, {4}) == codes({8}), "factor by an order");
    diffuse::graph other = graph.reweigh({{1, 2, 1}, {2, 4, 30}, {3, 4, 3}});
    expect(other.route(1, 4).code == 31 && graph.route(1, 4).code == 8, "reweigh");
    expect(refused(DIFFUSE_STATUS_NO_LINK, [&] { graph.reweigh({{4, 5, 1}}); }), "no link");
    diffuse::graph second = graph.share();
    std::thread([&] { expect(second.route(1, 4).code == 8, "share"); }).join();
    diffuse::stop stop;
    second.stop_by(stop);
    stop.set();
    expect(refused(DIFFUSE_STATUS_STOPPED, [&] { second.table({1}, {4}); }), "stopped");
    stop.clear();
    expect(second.table({1}, {4}) == codes({8}), "a stop that is cleared");
    stop.set();
    second.stop_by_none();
    expect(second.table({1}, {4}) == codes({8}), "no stop");
    expect(refused(DIFFUSE_STATUS_NO_NUMBERS, [&] { graph.route_arcs(1, 4); }), "no numbers");
    graph.number(arcs);
    auto numbered = graph.route_arcs(1, 4);
    expect(numbered.found() && numbered.code == 8 && numbered.vertices == numbers({1, 3, 2, 4}) && numbered.arcs == numbers({1, 2, 3}), "route_arcs");
    expect(!graph.route_arcs(1, 5).found() && graph.route_arcs(4, 4).arcs.empty(), "no arcs");
    expect(graph.share().route_arcs(1, 4, DIFFUSE_ALGEBRA_HOPS).arcs == numbers({0, 3}), "numbers that are shared");
    expect(refused(DIFFUSE_STATUS_OTHER_ARCS, [&] { graph.number({{1, 2, 4}}); }), "other arcs");
    diffuse::graph moved = std::move(graph);
    expect(moved.route(1, 4).code == 8, "move");
    graph = std::move(moved);
    expect(graph.route(5, 4).vertices == numbers({5, 1, 3, 2, 4}), "move back");
    expect(refused(DIFFUSE_STATUS_CLOSED, [&] { diffuse::graph().route(1, 4); }), "closed");
    expect(refused(DIFFUSE_STATUS_NO_VERTEX, [&] { graph.route(1, 6); }), "no vertex");
    expect(refused(DIFFUSE_STATUS_NO_FACTORS, [&] { graph.factor(DIFFUSE_ALGEBRA_WIDEST); }), "no factors");
    expect(refused(DIFFUSE_STATUS_NO_ORDER, [&] { graph.factor(diffuse::hops, numbers({0, 0, 1, 2, 3})); }), "no order");
    expect(diffuse::graph::read("p sp 2 1\na 1 2 3\n").route(1, 2).code == 3, "read");
    try {
        diffuse::graph::read("p sp 2 1\na 1 2\n");
        expect(false, "a text with a fault");
    } catch (const diffuse::text_error& error) {
        expect(error.line() == 2 && error.status() == DIFFUSE_STATUS_FIELDS, "line of a fault");
        expect(std::string(error.what()) == "line 2: a wrong number of fields", "text of a fault");
    }
    diffuse::graph long_one(100, chain(100));
    expect(long_one.route(1, 100).hops() == 99, "a long route");
    long_one.number(chain(100));
    expect(long_one.route_arcs(1, 100).arcs.back() == 98, "the arcs of a long route");
    expect(diffuse::graph(3000, star(3000)).near({1}).vertices.back() == 3000, "near with many places");
    return wrong;
}
