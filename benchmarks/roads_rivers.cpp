// Writes road-like graphs that rivers cut, in the form of the 9th DIMACS Implementation Challenge, to standard output:
//
//     roads_rivers VERTICES ARCS SEED [shuffled | ways]
//
// The same words give the same bytes on every machine.
//
// Eight tenths of the vertices are crossings on a grid. A river cuts the grid in two, further ones cut the halves, and so on
// down to regions of 64 crossings. Of the streets over a river that cuts k crossings only 0.7 * k^(1/3) are bridges, mostly
// those of main roads. So few vertices separate a region from the others, as in road networks. Every 16th row and column is a
// main road, and one in four of these a fast one: their streets are all there, and take 60 and 25 hundredths of the time of
// others. The other streets are a random tree, and random further ones until there are enough. A tenth of the vertices lie on
// streets, up to four on one, and a tenth are dead ends, or lead to one. A street is an arc each way of one weight. Vertices
// are numbered along a Z-curve through the crossings that they lie at; with `shuffled` the numbers have no order, and with `ways`
// they follow random walks along streets, as in OpenStreetMap's (`ways.hpp`).
#include "graphs.hpp"
#include "random.hpp"
#include "ways.hpp"

// What a sequence is used for.
enum Use { RIVERS = 1, STREETS, LENGTHS, DEAD_ENDS, NUMBERS };

// A possible street: twice the number of its upper or left crossing, and one more where it leads down.
using Street = uint32_t;

enum Road { SIDE, MAIN, FAST };

static Road road_along(uint32_t line) { return line % 64 == 32 ? FAST : line % 16 == 0 ? MAIN : SIDE; }

// Crossings, numbered row by row.
struct Grid {
    uint32_t width = 1, height = 1;

    // As nearly a square as that many crossings can be.
    explicit Grid(uint64_t crossings) {
        while (uint64_t(width + 1) * (width + 1) <= crossings) width++;
        height = std::max(1u, static_cast<uint32_t>(crossings / width));
    }

    uint32_t crossings() const { return width * height; }
    uint32_t column(uint32_t crossing) const { return crossing % width; }
    uint32_t row(uint32_t crossing) const { return crossing / width; }
    bool has(Street street) const { return street % 2 == 1 ? row(street / 2) + 1 < height : column(street / 2) + 1 < width; }
    uint32_t end(Street street) const { return street / 2 + (street % 2 == 1 ? width : 1); }
    Road road(Street street) const { return road_along(street % 2 == 1 ? column(street / 2) : row(street / 2)); }
};

// A part of the grid: from a column and a row on, this many of each.
struct Region {
    uint32_t column, row, width, height;

    bool is_wide() const { return width >= height; }
    uint32_t across() const { return is_wide() ? width : height; }
    uint32_t along() const { return is_wide() ? height : width; }

    std::pair<Region, Region> cut(uint32_t at) const {
        if (is_wide()) return {{column, row, at, height}, {column + at, row, width - at, height}};
        return {{column, row, width, at}, {column, row + at, width, height - at}};
    }
};

// The streets that rivers leave.
class Rivers {
    static constexpr uint64_t SMALLEST = 64;
    const Grid& grid;
    Random random;
    vector<bool> gone;

    // The number nearest to 0.7 times the cube root of a number, but at least 1.
    static uint64_t bridges_for(uint64_t crossings) {
        auto cube = [](uint64_t x) { return x * x * x; };
        uint64_t bridges = 1;
        while (cube(10 * (2 * bridges + 1)) <= cube(2 * 7) * crossings) bridges++;
        return bridges;
    }

    // Where the bridges are, along a river. Of four places the one with the greatest road is taken.
    vector<bool> bridges_over(const Region& region) {
        uint32_t along = region.along(), first = region.is_wide() ? region.row : region.column;
        vector<bool> kept(along);
        uint64_t wanted = std::min<uint64_t>(along, bridges_for(uint64_t(region.width) * region.height));
        while (wanted > 0) {
            auto best = static_cast<uint32_t>(random.below(along));
            for (int more = 0; more < 3; more++) {
                auto other = static_cast<uint32_t>(random.below(along));
                if (road_along(first + other) > road_along(first + best)) best = other;
            }
            if (kept[best]) best = static_cast<uint32_t>(random.below(along));
            wanted -= !kept[best];
            kept[best] = true;
        }
        return kept;
    }

public:
    Rivers(const Grid& grid, uint64_t seed) : grid(grid), random(seed, RIVERS), gone(2 * size_t(grid.crossings())) {
        flow({0, 0, grid.width, grid.height});
    }

    bool leaves(Street street) const { return grid.has(street) && !gone[street]; }

private:
    // Cuts a region, and the two that it becomes.
    void flow(const Region& region) {
        if (uint64_t(region.width) * region.height <= SMALLEST || region.along() < 2) return;
        uint32_t at = 1 + region.across() * static_cast<uint32_t>(40 + random.below(21)) / 100;
        vector<bool> bridges = bridges_over(region);
        for (uint32_t i = 0; i < region.along(); i++) {
            uint32_t column = region.column + (region.is_wide() ? at - 1 : i), row = region.row + (region.is_wide() ? i : at - 1);
            if (!bridges[i]) gone[2 * (row * grid.width + column) + (region.is_wide() ? 0 : 1)] = true;
        }
        auto [one, other] = region.cut(at);
        flow(one);
        flow(other);
    }
};

// The streets of the graph, in random order: all of main roads, a random tree, and further ones up to the number that is wanted.
static vector<Street> chosen_streets(const Grid& grid, uint64_t wanted, uint64_t seed) {
    Rivers rivers(grid, seed);
    vector<Street> possible, chosen, left_over;
    for (Street street = 0; street < 2 * grid.crossings(); street++) {
        if (rivers.leaves(street)) possible.push_back(street);
    }
    Random random(seed, STREETS);
    random.shuffle(possible);
    std::stable_partition(possible.begin(), possible.end(), [&](Street street) { return grid.road(street) != SIDE; });
    Groups groups(grid.crossings());
    for (Street street : possible) {
        bool joins = groups.join(street / 2, grid.end(street));
        (joins || grid.road(street) != SIDE ? chosen : left_over).push_back(street);
    }
    if (chosen.size() > wanted || chosen.size() + left_over.size() < wanted) stop("a graph of this number of vertices has not that many arcs here");
    chosen.insert(chosen.end(), left_over.begin(), left_over.begin() + static_cast<std::ptrdiff_t>(wanted - chosen.size()));
    random.shuffle(chosen);
    return chosen;
}

struct Edge {
    uint32_t from, to;
    uint64_t weight;
};

// Vertices, crossings first, with the crossing that each lies at, and the edges between them.
class Network {
    const Grid& grid;
    vector<uint32_t> crossing_of;
    vector<Edge> edges;

    uint32_t add_vertex(uint32_t crossing) {
        crossing_of.push_back(crossing);
        return static_cast<uint32_t>(crossing_of.size() - 1);
    }

    // The vertices in the order of their numbers, along a Z-curve.
    vector<uint32_t> along_a_curve() const {
        vector<std::pair<uint64_t, uint32_t>> places;
        for (uint32_t v = 0; v < crossing_of.size(); v++) {
            uint64_t x = grid.column(crossing_of[v]), y = grid.row(crossing_of[v]), place = 0;
            for (int bit = 0; bit < 16; bit++) place |= (x >> bit & 1) << (2 * bit) | (y >> bit & 1) << (2 * bit + 1);
            places.push_back({place, v});
        }
        std::sort(places.begin(), places.end());
        vector<uint32_t> order;
        for (const auto& place : places) order.push_back(place.second);
        return order;
    }

    // The vertices in the order of their numbers.
    vector<uint32_t> in_order(const string& kind, uint64_t seed) const {
        Random random(seed, NUMBERS);
        vector<Ends> streets;
        for (const Edge& edge : edges) streets.push_back({edge.from, edge.to});
        if (kind == "ways") return Ways(static_cast<uint32_t>(crossing_of.size()), streets, random).in_order();
        vector<uint32_t> order = along_a_curve();
        if (kind == "shuffled") random.shuffle(order);
        return order;
    }

public:
    explicit Network(const Grid& grid) : grid(grid), crossing_of(grid.crossings()) {
        std::iota(crossing_of.begin(), crossing_of.end(), 0u);
    }

    // Lays streets. The first of them have vertices on them, up to four each, until there are none left.
    void add_streets(const vector<Street>& streets, uint64_t vertices, uint64_t seed) {
        constexpr uint64_t PERCENT[] = {100, 60, 25};
        Random random(seed, LENGTHS);
        for (Street street : streets) {
            uint64_t more = std::min(vertices, 1 + random.below(4)), percent = PERCENT[grid.road(street)] / (more > 1 ? 2 : 1);
            vertices -= more;
            uint32_t at = street / 2;
            for (uint64_t piece = 0; piece <= more; piece++) {
                uint32_t to = piece == more ? grid.end(street) : add_vertex(street / 2);
                edges.push_back({at, to, (300 + random.below(1401)) * percent / 100});
                at = to;
            }
        }
    }

    // Adds dead ends, three of ten at the one before.
    void add_dead_ends(uint64_t vertices, uint64_t seed) {
        Random random(seed, DEAD_ENDS);
        for (uint64_t i = 0; i < vertices; i++) {
            bool goes_on = i > 0 && random.below(10) < 3;
            auto at = static_cast<uint32_t>(goes_on ? crossing_of.size() - 1 : random.below(grid.crossings()));
            uint32_t end = add_vertex(crossing_of[at]);
            edges.push_back({at, end, 200 + random.below(800)});
        }
    }

    // Writes the graph, its arcs by the lesser number of their ends.
    void write(Output& out, const string& made, const string& kind, uint64_t seed) {
        vector<uint32_t> order = in_order(kind, seed), number(order.size());
        for (uint32_t i = 0; i < order.size(); i++) number[order[i]] = i + 1;
        for (Edge& edge : edges) edge.from = number[edge.from], edge.to = number[edge.to];
        auto place = [](const Edge& edge) { return std::minmax({edge.from, edge.to}); };
        std::sort(edges.begin(), edges.end(), [&](const Edge& a, const Edge& b) { return place(a) < place(b); });
        write_head(out, made, number.size(), 2 * edges.size());
        for (const Edge& edge : edges) write_street(out, edge.from, edge.to, edge.weight);
    }
};

int main(int count, char** words) {
    string kind = count == 5 ? words[4] : "";
    if (count != 4 && kind != "shuffled" && kind != "ways") stop("usage: roads_rivers VERTICES ARCS SEED [shuffled | ways]");
    uint64_t vertices = number(words[1], 1 << 25), arcs = number(words[2], 1 << 27), seed = number(words[3], 1 << 30);
    if (vertices < 20 || arcs % 2 == 1) stop("a graph has at least 20 vertices, and an even number of arcs");
    Grid grid(vertices * 4 / 5);
    uint64_t on_streets = vertices / 10, dead_ends = vertices - grid.crossings() - on_streets;
    if (arcs / 2 < on_streets + dead_ends) stop("too few arcs");
    Network network(grid);
    network.add_streets(chosen_streets(grid, arcs / 2 - on_streets - dead_ends, seed), on_streets, seed);
    network.add_dead_ends(dead_ends, seed);
    Output out;
    string made = string("made by benchmarks/roads_rivers.cpp: ") + words[1] + " " + words[2] + " " + words[3];
    network.write(out, made + (kind.empty() ? "" : " " + kind), kind, seed);
    out.write_out();
}
