#include "drawing.hpp"
#include <numeric>

namespace {

// Walks along the roads of a network both ways, from each vertex that has other than two
// neighbours, and then around what is left; each road is on one line.
class Walker {
  public:
    Walker(const Network &roads, std::vector<uint32_t> &first, std::vector<uint32_t> &vertices)
        : roads(roads), first(first), vertices(vertices), is_walked(roads.heads.size()) {}

    void walk_all() {
        for (bool is_crossing : {true, false})
            for (uint32_t v = 0; v < roads.vertices(); v++)
                if (is_crossing == (degree(v) != 2)) walk_from(v);
    }

  private:
    const Network &roads;
    std::vector<uint32_t> &first, &vertices;
    std::vector<bool> is_walked;

    uint32_t degree(uint32_t v) const { return roads.first[v + 1] - roads.first[v]; }
    void walk_from(uint32_t v) {
        for (uint32_t i = roads.first[v]; i < roads.first[v + 1]; i++)
            if (!is_walked[i]) walk(v, i);
    }
    void walk(uint32_t start, uint32_t road) {
        vertices.push_back(start + 1);
        for (uint32_t here = start;;) {
            uint32_t next = step(here, road);
            vertices.push_back(next + 1);
            if (next == start || degree(next) != 2) break;
            // The other of two roads.
            road = roads.first[next] + (roads.heads[roads.first[next]] == here);
            here = next;
        }
        first.push_back(uint32_t(vertices.size()));
    }
    uint32_t step(uint32_t here, uint32_t road) {
        uint32_t next = roads.heads[road];
        auto begin = roads.heads.begin() + roads.first[next],
             end = roads.heads.begin() + roads.first[next + 1];
        is_walked[road] = true;
        is_walked[size_t(std::lower_bound(begin, end, here) - roads.heads.begin())] = true;
        return next;
    }
};

Box around(const Places &places, const uint32_t *begin, const uint32_t *end) {
    Box box{places.at(*begin), places.at(*begin)};
    for (; begin != end; begin++)
        box = {least_of(box.least, places.at(*begin)), most_of(box.most, places.at(*begin))};
    return box;
}

int64_t extent(const Box &box) {
    return std::max(int64_t(box.most.x) - box.least.x, int64_t(box.most.y) - box.least.y);
}

bool meet(const Box &one, const Box &other) {
    return one.least.x <= other.most.x && other.least.x <= one.most.x && one.least.y <= other.most.y
           && other.least.y <= one.most.y;
}

// The vertices of a line that are far enough from the one before, with its two ends.
void thin_out(const Places &places, const uint32_t *begin, const uint32_t *end, double step,
    std::vector<uint32_t> &kept) {
    kept.assign(1, *begin);
    for (auto *it = begin + 1; it != end; it++) {
        Point last = places.at(kept.back()), here = places.at(*it);
        bool is_far =
            std::abs(double(here.x) - last.x) >= step || std::abs(double(here.y) - last.y) >= step;
        if (is_far || it + 1 == end) kept.push_back(*it);
    }
}

}  // namespace

Drawing::Drawing(const Network &network, const Places &places) {
    auto roads = network.both_ways();
    Walker(roads, first, vertices).walk_all();
    sort(places);
}

void Drawing::sort(const Places &places) {
    std::vector<std::pair<int64_t, uint32_t>> order;
    for (uint32_t line = 0; line + 1 < first.size(); line++)
        order.emplace_back(
            -extent(around(places, &vertices[first[line]], &vertices[0] + first[line + 1])), line);
    std::sort(order.begin(), order.end());
    std::vector<uint32_t> sorted_first{0}, sorted;
    sorted.reserve(vertices.size());
    for (auto &[negative, line] : order) {
        sorted.insert(
            sorted.end(), vertices.begin() + first[line], vertices.begin() + first[line + 1]);
        sorted_first.push_back(uint32_t(sorted.size()));
    }
    first = std::move(sorted_first);
    vertices = std::move(sorted);
}

std::string Drawing::in_box(const Places &places, const Box &box, double step) const {
    std::string lines;
    std::vector<uint32_t> kept;
    size_t points = 0;
    bool is_complete = true;
    for (size_t line = 0; line + 1 < first.size() && is_complete; line++) {
        const uint32_t *begin = &vertices[first[line]], *end = &vertices[0] + first[line + 1];
        Box here = around(places, begin, end);
        if (double(extent(here)) < step) break;
        if (!meet(here, box)) continue;
        thin_out(places, begin, end, step, kept);
        is_complete = (points += kept.size()) <= MOST_POINTS;
        if (is_complete)
            lines += (lines.empty() ? "" : ", ") + places.polyline(kept.data(), kept.size());
    }
    Object reply;
    return reply.raw("complete", is_complete ? "true" : "false")
               .raw("lines", "[" + lines + "]")
               .end()
           + "\n";
}
