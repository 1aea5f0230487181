// The convex hull of vertices, by Andrew's monotone chain.
#include "places.hpp"

namespace {

// Whether a path of three points turns to the left.
bool turns_left(Point a, Point b, Point c) {
    return (int64_t(b.x) - a.x) * (int64_t(c.y) - a.y)
           > (int64_t(b.y) - a.y) * (int64_t(c.x) - a.x);
}

// Adds one side of the hull, from the first point to the last.
template <class Each> void add_side(const Each &begin, const Each &end, std::vector<Point> &hull) {
    size_t least = hull.size() + 1;
    for (auto it = begin; it != end; ++it) {
        while (hull.size() > least && !turns_left(hull[hull.size() - 2], hull.back(), *it))
            hull.pop_back();
        hull.push_back(*it);
    }
}

}  // namespace

std::string Places::hull(const uint32_t *vertices, size_t count) const {
    std::vector<Point> sorted, hull;
    for (size_t i = 0; i < count; i++) sorted.push_back(at(vertices[i]));
    std::sort(sorted.begin(), sorted.end(),
        [](Point a, Point b) { return std::make_pair(a.x, a.y) < std::make_pair(b.x, b.y); });
    add_side(sorted.begin(), sorted.end(), hull);
    hull.pop_back();
    add_side(sorted.rbegin(), sorted.rend(), hull);
    return "{\"type\": \"Polygon\", \"coordinates\": [[" + positions(hull) + "]]}";
}
