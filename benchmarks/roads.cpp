// Writes road-like graphs and questions, in the formats of the 9th DIMACS Implementation Challenge, to standard output:
//
//     roads graph VERTICES ARCS SEED [shuffled | ways | motorways]     a .gr
//     roads ss VERTICES QUESTIONS SEED              a .ss: sources
//     roads p2p VERTICES QUESTIONS SEED             a .p2p: pairs
//     roads ms VERTICES QUESTIONS SEED              a .ms: one to five sources a question
//
// The same words give the same bytes on every machine.
//
// A graph is made from places on a grid, one a cell, each moved a little from the middle of its cell. Streets join
// neighbouring places: a random tree that reaches all of them, and random further streets until there are enough.
// A street is an arc each way of one weight, its length with bends. Places are numbered along a Z-curve, so that
// neighbours mostly have near numbers, as in the challenge's graphs; with `shuffled` the numbers have no order, and with `ways`
// they follow random walks along streets, as in OpenStreetMap's (`ways.hpp`). With `motorways` some of the further streets go straight over eight cells, along every 32nd row and column, at less than half
// their length: then a route by few arcs is seldom much longer than the shortest.
#include "graphs.hpp"
#include "random.hpp"
#include "ways.hpp"

#include <cmath>

// What a sequence is used for.
enum Use { STREETS = 1, PLACES, BENDS, DIRECTIONS, NUMBERS, SOURCES, PAIRS, GROUPS };

// Places 0 to count - 1, in the order of a Z-curve through the cells of a grid that is filled row by row.
class Plane {
    uint32_t width;
    vector<uint32_t> cell_of, place_in;

    // Every second bit of a number, put together.
    static uint32_t half_of_bits(uint64_t z) {
        uint32_t half = 0;
        for (int bit = 0; bit < 32; bit++) half |= static_cast<uint32_t>((z >> (2 * bit)) & 1) << bit;
        return half;
    }

public:
    explicit Plane(uint32_t count) : width(1), cell_of(count), place_in(count) {
        while (uint64_t(width) * width < count) width++;
        uint32_t place = 0;
        for (uint64_t z = 0; place < count; z++) {
            uint64_t x = half_of_bits(z), y = half_of_bits(z >> 1), cell = y * width + x;
            if (x >= width || cell >= count) continue;
            cell_of[place] = static_cast<uint32_t>(cell);
            place_in[cell] = place++;
        }
    }

    uint32_t count() const { return static_cast<uint32_t>(cell_of.size()); }
    int64_t column(uint32_t place) const { return cell_of[place] % width; }
    int64_t row(uint32_t place) const { return cell_of[place] / width; }

    // The place to the right of this one, or below it; or this place where there is none.
    uint32_t neighbour(uint32_t place, bool below) const {
        uint64_t cell = cell_of[place];
        if (!below && cell % width + 1 == width) return place;
        uint64_t next = cell + (below ? width : 1);
        return next < count() ? place_in[next] : place;
    }

    // The place where a motorway from this one comes out, to the right or below; or this place where there is none.
    uint32_t next_exit(uint32_t place, bool below) const {
        constexpr uint64_t FAR = 8, APART = 32;
        uint64_t x = cell_of[place] % width, y = cell_of[place] / width, next = cell_of[place] + FAR * (below ? width : 1);
        if ((below ? x : y) % APART != APART / 2 || (below ? y : x) % FAR != 0) return place;
        return (below || x + FAR < width) && next < count() ? place_in[next] : place;
    }
};

// A possible street: twice the number of its upper or left place, and one more where it leads down.
using Street = uint32_t;

static std::pair<uint32_t, uint32_t> ends_of(const Plane& plane, Street street) {
    uint32_t place = street / 2;
    return {place, plane.neighbour(place, street % 2 == 1)};
}

// The streets of the graph, each marked: a random tree, and further ones up to the number that is wanted.
static vector<bool> chosen_streets(const Plane& plane, uint64_t wanted, uint64_t seed) {
    vector<Street> possible;
    possible.reserve(size_t(plane.count()) * 2);
    for (uint64_t street = 0; street < uint64_t(plane.count()) * 2; street++) {
        auto [a, b] = ends_of(plane, static_cast<Street>(street));
        if (a != b) possible.push_back(static_cast<Street>(street));
    }
    Random(seed, STREETS).shuffle(possible);
    vector<bool> chosen(size_t(plane.count()) * 2);
    Groups groups(plane.count());
    size_t left_over = 0;
    for (Street street : possible) {
        auto [a, b] = ends_of(plane, street);
        if (groups.join(a, b)) chosen[street] = true;
        else possible[left_over++] = street;
    }
    uint64_t tree = plane.count() - 1;
    if (wanted < tree || wanted - tree > left_over) {
        stop("a graph of this number of vertices has from " + std::to_string(tree * 2) + " to " +
             std::to_string((tree + left_over) * 2) + " arcs here");
    }
    for (uint64_t i = 0; i < wanted - tree; i++) chosen[possible[i]] = true;
    return chosen;
}

// How long streets are: cells have a side of 1,000; places lie up to 350 from the middle; bends add up to three fifths.
class Lengths {
    const Plane& plane;
    uint64_t seed;

    // Where a place lies along one of the two directions.
    int64_t where(uint32_t place, int64_t middle, uint64_t direction) const {
        uint64_t moved = Random(seed, PLACES, 2 * uint64_t(place) + direction).below(701);
        return middle * 1000 + static_cast<int64_t>(moved) - 350;
    }

public:
    Lengths(const Plane& plane, uint64_t seed) : plane(plane), seed(seed) {}

    uint64_t weight(uint32_t a, uint32_t b) const {
        int64_t across = where(a, plane.column(a), 0) - where(b, plane.column(b), 0);
        int64_t down = where(a, plane.row(a), 1) - where(b, plane.row(b), 1);
        auto straight = static_cast<uint64_t>(std::sqrt(static_cast<double>(across * across + down * down)));
        uint64_t bends = Random(seed, BENDS, (uint64_t(a) << 32) + b).below(61);
        return std::max<uint64_t>(1, straight * (100 + bends) / 100);
    }
};

// How the vertices are numbered, and whether there are motorways.
enum class Kind { ORDERED, SHUFFLED, WAYS, MOTORWAYS };

static uint64_t count_motorways(const Plane& plane) {
    uint64_t count = 0;
    for (uint32_t place = 0; place < plane.count(); place++) {
        for (bool below : {false, true}) count += plane.next_exit(place, below) != place;
    }
    return count;
}

static vector<Ends> all_ends(const Plane& plane, const vector<bool>& chosen) {
    vector<Ends> ends;
    for (size_t street = 0; street < chosen.size(); street++) {
        if (chosen[street]) ends.push_back(ends_of(plane, static_cast<Street>(street)));
    }
    return ends;
}

// The places in the order of their numbers.
static vector<uint32_t> places_in_order(const Plane& plane, const vector<bool>& chosen, uint64_t seed, Kind kind) {
    Random random(seed, NUMBERS);
    if (kind == Kind::WAYS) return Ways(plane.count(), all_ends(plane, chosen), random).in_order();
    vector<uint32_t> place_of(plane.count());
    std::iota(place_of.begin(), place_of.end(), 0u);
    if (kind == Kind::SHUFFLED) random.shuffle(place_of);
    return place_of;
}

static void write_graph(uint32_t vertices, uint64_t arcs, uint64_t seed, Kind kind) {
    if (vertices == 0 || arcs % 2 == 1) stop("a graph has at least one vertex, and an even number of arcs");
    Plane plane(vertices);
    bool motorways = kind == Kind::MOTORWAYS;
    uint64_t fast = motorways ? count_motorways(plane) : 0;
    if (fast > arcs / 2) stop("too few arcs for the motorways");
    vector<bool> chosen = chosen_streets(plane, arcs / 2 - fast, seed);
    vector<uint32_t> place_of = places_in_order(plane, chosen, seed, kind), number_of(vertices);
    for (uint32_t i = 0; i < vertices; i++) number_of[place_of[i]] = i + 1;

    Output out;
    string size = std::to_string(vertices), length = std::to_string(arcs);
    out.text("c road-like graph in the form of the 9th DIMACS Implementation Challenge: Shortest Paths\n");
    out.text("c made by benchmarks/roads.cpp: graph " + size + " " + length + " " + std::to_string(seed));
    constexpr const char* WORDS[] = {"", " shuffled", " ways", " motorways"};
    out.text(string(WORDS[static_cast<int>(kind)]) + "\nc\n");
    out.text("p sp " + size + " " + length + "\n");
    out.text("c graph contains " + size + " nodes and " + length + " arcs\nc\n");
    Lengths lengths(plane, seed);
    Random directions(seed, DIRECTIONS);
    auto write_both = [&](uint32_t a, uint32_t b, uint64_t weight) {
        uint64_t u = number_of[a], v = number_of[b];
        if (directions.below(2) == 1) std::swap(u, v);
        write_street(out, u, v, weight);
    };
    for (uint32_t place : place_of) {
        for (Street street : {place * 2, place * 2 + 1}) {
            auto [a, b] = ends_of(plane, street);
            if (chosen[street]) write_both(a, b, lengths.weight(a, b));
        }
        for (bool below : {false, true}) {
            uint32_t exit = motorways ? plane.next_exit(place, below) : place;
            if (exit != place) write_both(place, exit, lengths.weight(place, exit) * 9 / 20);
        }
    }
    out.write_out();
}

// The comments and the problem line of a question file.
static void write_head(Output& out, const string& kind, uint32_t vertices, uint64_t questions, uint64_t seed) {
    string size = std::to_string(vertices), length = std::to_string(questions);
    out.text("c questions in the form of the 9th DIMACS Implementation Challenge: Shortest Paths\n");
    out.text("c made by benchmarks/roads.cpp: " + kind + " " + size + " " + length + " " + std::to_string(seed) + "\nc\n");
    out.text("p aux sp " + kind + " " + length + "\n");
    out.text("c contains " + length + (questions == 1 ? " question\nc\n" : " questions\nc\n"));
}

static void write_questions(const string& kind, uint32_t vertices, uint64_t questions, uint64_t seed) {
    if (vertices == 0 && questions > 0) stop("there is no vertex to ask for");
    Output out;
    write_head(out, kind, vertices, questions, seed);
    Random random(seed, kind == "ss" ? SOURCES : kind == "p2p" ? PAIRS : GROUPS);
    auto vertex = [&] { return 1 + random.below(vertices); };
    for (uint64_t i = 0; i < questions; i++) {
        if (kind == "ss") {
            out.line("s", {vertex()});
        } else if (kind == "p2p") {
            uint64_t source = vertex();
            out.line("q", {source, vertex()});
        } else {
            out.text("m");
            for (uint64_t left = 1 + random.below(5); left > 0; left--) out.text(" " + std::to_string(vertex()));
            out.text("\n");
        }
    }
    out.write_out();
}

int main(int count, char** words) {
    string kind = count > 1 ? words[1] : "";
    string order = count == 6 ? words[5] : "";
    bool graph = kind == "graph" && (count == 5 || order == "shuffled" || order == "ways" || order == "motorways");
    bool questions = (kind == "ss" || kind == "p2p" || kind == "ms") && count == 5;
    if (!graph && !questions) stop("usage: roads graph VERTICES ARCS SEED [shuffled | ways | motorways] | roads ss|p2p|ms VERTICES QUESTIONS SEED");
    auto vertices = static_cast<uint32_t>(number(words[2], 1 << 25));
    uint64_t length = number(words[3], graph ? 1 << 27 : 1 << 20), seed = number(words[4], 1 << 30);
    Kind drawn = order == "shuffled"    ? Kind::SHUFFLED
                 : order == "ways"      ? Kind::WAYS
                 : order == "motorways" ? Kind::MOTORWAYS
                                        : Kind::ORDERED;
    if (graph) write_graph(vertices, length, seed, drawn);
    else write_questions(kind, vertices, length, seed);
}
