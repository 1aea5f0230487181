// Graphs of the C library as C++ values, for C++11 and later: a handle closes itself, and a refusal is an exception. What diffuse.h
// promises and asks of a caller holds here too: one call at a time uses a graph, even a const one, since each answer changes what
// the graph keeps. So each thread has a graph of its own, by share().
#ifndef DIFFUSE_HPP
#define DIFFUSE_HPP
#include <diffuse.h>

#include <algorithm>
#include <atomic>
#include <initializer_list>
#include <stdexcept>
#include <string>
#include <type_traits>
#include <utility>
#include <vector>

namespace diffuse {

using arc = ::diffuse_arc;
using algebra = ::diffuse_algebra;

// The algebras without a limit.
enum unlimited : std::uint32_t {
    shortest = DIFFUSE_ALGEBRA_SHORTEST,
    widest = DIFFUSE_ALGEBRA_WIDEST,
    reach = DIFFUSE_ALGEBRA_REACH,
    hops = DIFFUSE_ALGEBRA_HOPS,
    reliable = DIFFUSE_ALGEBRA_RELIABLE
};

// What is best: one of these, within(limit), or an algebra's number and its limit, else 0.
class measure {
    algebra its;
    std::uint64_t most;

public:
    constexpr measure(unlimited by) noexcept : its(static_cast<algebra>(by)), most(0) {}
    constexpr measure(algebra by, std::uint64_t limit = 0) noexcept : its(by), most(limit) {}

    constexpr algebra number() const noexcept { return its; }
    constexpr std::uint64_t limit() const noexcept { return most; }
};

constexpr measure within(std::uint64_t limit) noexcept { return {DIFFUSE_ALGEBRA_WITHIN, limit}; }

// A caller's list: a pointer and a length, or whatever has data() and size(), as std::vector, std::array and std::span have.
template <class T>
class view {
    T* first = nullptr;
    std::size_t count = 0;

    template <class List>
    using of = typename std::remove_pointer<decltype(std::declval<List&>().data())>::type;

public:
    view() = default;
    view(T* at, std::size_t n) noexcept : first(at), count(n) {}
    template <class List, class = typename std::enable_if<std::is_convertible<of<List> (*)[], T (*)[]>::value>::type>
    view(List&& list) : view(list.data(), list.size()) {}
    template <std::size_t n>
    view(T (&list)[n]) noexcept : view(list, n) {}
    template <class U = T, class = typename std::enable_if<std::is_const<U>::value>::type>
    view(std::initializer_list<typename std::remove_const<U>::type> list) noexcept : view(list.begin(), list.size()) {}

    T* data() const noexcept { return first; }
    std::size_t size() const noexcept { return count; }
};

using numbers = view<const std::uint32_t>;
using room = view<std::uint32_t>;

// A call was refused for the reason that its status gives.
class error : public std::runtime_error {
    diffuse_status its;

public:
    explicit error(diffuse_status reason, const std::string& where = "")
        : std::runtime_error(where + diffuse_status_text(reason)), its(reason) {}

    diffuse_status status() const noexcept { return its; }
};

// A text is no graph; its first fault is in this line, counted from 1.
class text_error : public error {
    std::uint64_t its;

public:
    text_error(diffuse_status reason, std::uint64_t at) : error(reason, "line " + std::to_string(at) + ": "), its(at) {}

    std::uint64_t line() const noexcept { return its; }
};

// The best value from a source to a target as a code, and the route: its vertices, or none if no walk has a value.
struct route {
    std::uint64_t code = DIFFUSE_UNREACHED;
    std::vector<std::uint32_t> vertices;

    bool found() const noexcept { return !vertices.empty(); }
    std::uint32_t hops() const noexcept { return vertices.empty() ? 0 : static_cast<std::uint32_t>(vertices.size() - 1); }
};

// A route and its arcs: the place of each in the list by which the arcs of the graph were numbered.
struct numbered_route : route {
    std::vector<std::uint32_t> arcs;
};

// Whether there is a route, its code and hops, and how many vertices it has.
struct outline {
    bool found = false;
    std::uint64_t code = DIFFUSE_UNREACHED;
    std::uint32_t hops = 0;

    std::size_t vertices() const noexcept { return found ? std::size_t(hops) + 1 : 0; }
};

// Of each vertex v, in place v - 1, what diffuse_graph_tree writes.
struct tree {
    std::vector<std::uint64_t> codes;
    std::vector<std::uint32_t> hops, parents;
};

// The vertices that are reached, the best first, and in the same places what diffuse_graph_near writes of them.
struct near_lines {
    std::vector<std::uint32_t> vertices;
    std::vector<std::uint64_t> codes;
    std::vector<std::uint32_t> hops, parents;

    void resize(std::size_t n) { vertices.resize(n), codes.resize(n), hops.resize(n), parents.resize(n); }
};

// The first vertex whose line is wrong, and why; vertex 0 if none is.
struct verdict {
    std::uint32_t vertex = 0, reason = 0;

    bool right() const noexcept { return vertex == 0; }
    const char* text() const noexcept { return right() ? "right" : diffuse_reason_text(reason); }
};

// A stop by which another thread ends calls of the graphs that have it: they throw DIFFUSE_STATUS_STOPPED. It is set (by a
// signal handler too), cleared and given by one call at a time; any thread may ask whether it is set.
class stop {
    ::diffuse_stop at = DIFFUSE_CLOSED;
    std::atomic<bool> flag{false};
    friend class graph;

public:
    stop() {
        auto status = diffuse_stop_new(&at);
        if (status != DIFFUSE_STATUS_DONE) throw error(status);
    }
    stop(const stop&) = delete;
    stop& operator=(const stop&) = delete;
    ~stop() { diffuse_stop_free(&at); }

    void set() { diffuse_stop_set(&at), flag = true; }
    void clear() { diffuse_stop_clear(&at), flag = false; }
    bool is_set() const noexcept { return flag; }
};

// A graph in memory, or none: one that was moved away. It keeps the room of its longest answers.
class graph {
    mutable ::diffuse_graph at = DIFFUSE_CLOSED;
    mutable numbered_route last_route;
    mutable near_lines last_near;

    static void expect(diffuse_status status) {
        if (status != DIFFUSE_STATUS_DONE) throw error(status);
    }

    static outline outline_of(diffuse_status status, std::uint64_t code, std::uint32_t hops) {
        outline found;
        if (status == DIFFUSE_STATUS_NO_ROUTE) return found;
        if (status != DIFFUSE_STATUS_NO_ROOM) expect(status);
        found.found = true, found.code = code, found.hops = hops;
        return found;
    }

    // Room for so many vertices, and for longer answers to come.
    std::size_t more_than(std::size_t count) const { return std::max(count, std::min<std::size_t>(2 * count, vertices())); }

    // Asks again if the answer was longer than the room.
    template <class Ask>
    outline in_last_route(Ask ask) const {
        if (last_route.vertices.empty()) last_route.vertices.resize(64), last_route.arcs.resize(64);
        auto found = ask();
        if (found.vertices() <= last_route.vertices.size()) return found;
        auto n = more_than(found.vertices());
        last_route.vertices.resize(n), last_route.arcs.resize(n);
        return ask();
    }

    template <class T>
    static std::vector<T> first(const std::vector<T>& list, std::size_t count) {
        return std::vector<T>(list.data(), list.data() + count);
    }

public:
    graph() = default;
    graph(std::uint32_t vertices, view<const arc> arcs) { expect(diffuse_graph_open(vertices, arcs.data(), arcs.size(), &at)); }
    graph(graph&& other) noexcept { *this = std::move(other); }
    graph& operator=(graph&& other) noexcept {
        auto taken = other.at;
        other.at = diffuse_graph_closed();
        diffuse_graph_close(&at);
        at = taken, last_route = std::move(other.last_route), last_near = std::move(other.last_near);
        return *this;
    }
    graph(const graph&) = delete;
    graph& operator=(const graph&) = delete;
    ~graph() { diffuse_graph_close(&at); }

    // The graph of a .gr text.
    static graph read(const void* text, std::size_t length) {
        graph made;
        std::uint64_t line = 0;
        auto status = diffuse_graph_read(static_cast<const std::uint8_t*>(text), length, &made.at, &line);
        if (status >= DIFFUSE_STATUS_NO_PROBLEM && status <= DIFFUSE_STATUS_TOO_FEW) throw text_error(status, line);
        expect(status);
        return made;
    }
    static graph read(const std::string& text) { return read(text.data(), text.size()); }
    template <class Text>
    static auto read(const Text& text) -> typename std::enable_if<sizeof(*text.data()) == 1, graph>::type {
        return read(text.data(), text.size());
    }

    bool is_open() const noexcept { return at.is_open; }

    // The handle, for calls of diffuse.h. It is still the graph's.
    ::diffuse_graph* handle() const noexcept { return &at; }

    // A second graph over the same arcs, factors and numbers, for another thread.
    graph share() const {
        graph second;
        expect(diffuse_graph_share(&at, &second.at));
        return second;
    }

    // Lets this stop end calls of the graph, which then throw DIFFUSE_STATUS_STOPPED. stop_by_none() takes the stop away.
    void stop_by(stop& by) { expect(diffuse_graph_stop_by(&at, &by.at)); }
    void stop_by_none() {
        ::diffuse_stop none = DIFFUSE_CLOSED;
        expect(diffuse_graph_stop_by(&at, &none));
    }

    std::uint32_t vertices() const { return diffuse_graph_vertices(&at); }
    std::size_t arcs() const { return diffuse_graph_arcs(&at); }

    // The arcs that leave a vertex.
    std::vector<arc> arcs_from(std::uint32_t vertex) const {
        std::vector<arc> found(arcs_from_into({}, vertex));
        arcs_from_into(found, vertex);
        return found;
    }

    diffuse::route route(std::uint32_t source, std::uint32_t target, measure by = shortest) const {
        auto said = in_last_route([&] { return route_into(last_route.vertices, source, target, by); });
        diffuse::route found;
        found.code = said.code, found.vertices = first(last_route.vertices, said.vertices());
        return found;
    }

    // Numbers the arcs by their places in this list, counted from 0; see diffuse_graph_number.
    void number(view<const arc> arcs) { expect(diffuse_graph_number(&at, arcs.data(), arcs.size())); }

    // The route and its arcs, of a graph that was numbered.
    numbered_route route_arcs(std::uint32_t source, std::uint32_t target, measure by = shortest) const {
        auto said = in_last_route([&] { return route_arcs_into(last_route.vertices, last_route.arcs, source, target, by); });
        numbered_route found;
        found.code = said.code, found.vertices = first(last_route.vertices, said.vertices());
        found.arcs = first(last_route.arcs, said.hops);
        return found;
    }

    diffuse::tree tree(numbers sources, measure by = shortest) const {
        std::size_t n = vertices();
        diffuse::tree found;
        found.codes.resize(n), found.hops.resize(n), found.parents.resize(n);
        tree_into(found.codes, found.hops, found.parents, sources, by);
        return found;
    }

    near_lines near(numbers sources, measure by = shortest) const {
        auto& lists = last_near;
        auto ask = [&] { return near_into(lists.vertices, lists.codes, lists.hops, lists.parents, sources, by); };
        if (lists.vertices.empty()) lists.resize(std::min<std::size_t>(1024, vertices()));
        auto count = ask();
        if (count > lists.vertices.size()) lists.resize(more_than(count)), ask();
        near_lines found;
        found.vertices = first(lists.vertices, count), found.codes = first(lists.codes, count);
        found.hops = first(lists.hops, count), found.parents = first(lists.parents, count);
        return found;
    }
    // By an algebra's number, what is near has a limit too, so that none is forgotten.
    near_lines near(numbers sources, algebra by) const = delete;

    verdict check(const diffuse::tree& lines, numbers sources, measure by = shortest) const {
        return check(lines.codes, lines.hops, lines.parents, sources, by);
    }
    verdict check(view<const std::uint64_t> codes, numbers hops, numbers parents, numbers sources, measure by = shortest) const {
        verdict wrong;
        auto status = diffuse_graph_check(&at, by.number(), by.limit(), sources.data(), sources.size(), codes.data(), codes.size(),
                                          hops.data(), hops.size(), parents.data(), parents.size(), &wrong.vertex, &wrong.reason);
        if (status != DIFFUSE_STATUS_WRONG) expect(status);
        return wrong;
    }

    // The codes from each source to each target, row by row.
    std::vector<std::uint64_t> table(numbers sources, numbers targets, measure by = shortest) const {
        std::vector<std::uint64_t> codes(sources.size() * targets.size());
        table_into(codes, sources, targets, by);
        return codes;
    }

    // The same in a caller's room. If a list has too few places for a route, the arcs of a vertex or what is near, nothing is written,
    // and what is returned says how many are needed.
    outline route_into(room vertices, std::uint32_t source, std::uint32_t target, measure by = shortest) const {
        std::uint64_t code = 0;
        std::uint32_t hops = 0;
        auto status = diffuse_graph_route(&at, by.number(), by.limit(), source, target, &code, &hops, vertices.data(), vertices.size());
        return outline_of(status, code, hops);
    }
    outline route_arcs_into(room vertices, room arcs, std::uint32_t source, std::uint32_t target, measure by = shortest) const {
        std::uint64_t code = 0;
        std::uint32_t hops = 0;
        auto status = diffuse_graph_route_arcs(&at, by.number(), by.limit(), source, target, &code, &hops, vertices.data(),
                                               vertices.size(), arcs.data(), arcs.size());
        return outline_of(status, code, hops);
    }
    std::size_t arcs_from_into(view<arc> arcs, std::uint32_t vertex) const {
        std::size_t count = 0;
        auto status = diffuse_graph_arcs_from(&at, vertex, arcs.data(), arcs.size(), &count);
        if (status != DIFFUSE_STATUS_NO_ROOM) expect(status);
        return count;
    }
    void tree_into(view<std::uint64_t> codes, room hops, room parents, numbers sources, measure by = shortest) const {
        expect(diffuse_graph_tree(&at, by.number(), by.limit(), sources.data(), sources.size(), codes.data(), codes.size(), hops.data(),
                                  hops.size(), parents.data(), parents.size()));
    }
    std::size_t near_into(room vertices, view<std::uint64_t> codes, room hops, room parents, numbers sources,
                          measure by = shortest) const {
        std::size_t count = 0;
        auto status = diffuse_graph_near(&at, by.number(), by.limit(), sources.data(), sources.size(), vertices.data(), vertices.size(),
                                         codes.data(), codes.size(), hops.data(), hops.size(), parents.data(), parents.size(), &count);
        if (status != DIFFUSE_STATUS_NO_ROOM) expect(status);
        return count;
    }
    std::size_t near_into(room, view<std::uint64_t>, room, room, numbers, algebra) const = delete;
    void table_into(view<std::uint64_t> codes, numbers sources, numbers targets, measure by = shortest) const {
        expect(diffuse_graph_table(&at, by.number(), by.limit(), sources.data(), sources.size(), targets.data(), targets.size(),
                                   codes.data(), codes.size()));
    }

    // The same by an algebra's number and a limit.
    diffuse::route route(std::uint32_t source, std::uint32_t target, algebra by, std::uint64_t limit) const {
        return route(source, target, measure(by, limit));
    }
    numbered_route route_arcs(std::uint32_t source, std::uint32_t target, algebra by, std::uint64_t limit) const {
        return route_arcs(source, target, measure(by, limit));
    }
    diffuse::tree tree(numbers sources, algebra by, std::uint64_t limit) const { return tree(sources, measure(by, limit)); }
    near_lines near(numbers sources, algebra by, std::uint64_t limit) const { return near(sources, measure(by, limit)); }
    verdict check(const diffuse::tree& lines, numbers sources, algebra by, std::uint64_t limit) const {
        return check(lines, sources, measure(by, limit));
    }
    std::vector<std::uint64_t> table(numbers sources, numbers targets, algebra by, std::uint64_t limit) const {
        return table(sources, targets, measure(by, limit));
    }

    // Factors the graph: DONE, or DENSE or HEAVY if searches go on to answer.
    diffuse_status factor(measure by = shortest) {
        auto status = diffuse_graph_factor(&at, by.number());
        if (status != DIFFUSE_STATUS_DENSE && status != DIFFUSE_STATUS_HEAVY) expect(status);
        return status;
    }

    // The same by an order of elimination, the place of each vertex in it, from 0: DONE or HEAVY.
    diffuse_status factor(measure by, numbers places) {
        auto status = diffuse_graph_factor_by(&at, by.number(), places.data(), places.size());
        if (status != DIFFUSE_STATUS_HEAVY) expect(status);
        return status;
    }

    // A second graph with these arcs on the same vertices, factored as this one is, over its links. Its arcs are not numbered.
    graph reweigh(view<const arc> arcs) const {
        graph second;
        expect(diffuse_graph_reweigh(&at, arcs.data(), arcs.size(), &second.at));
        return second;
    }
};

}  // namespace diffuse
#endif
