// Where vertices are: coordinates from a .co file of the 9th DIMACS challenge, the nearest vertex,
// and the shape of a route.
#pragma once
#include "files.hpp"
#include <vector>

// A point in millionths of a degree: x is its longitude, y its latitude.
struct Point {
    int32_t x = 0, y = 0;
};

inline Point least_of(Point a, Point b) { return {std::min(a.x, b.x), std::min(a.y, b.y)}; }
inline Point most_of(Point a, Point b) { return {std::max(a.x, b.x), std::max(a.y, b.y)}; }

struct Nearest {
    uint32_t vertex;
    double metres;
};

std::string positions(const std::vector<Point> &points);

class Places {
  public:
    // Reads a file with a place for each of the vertices; else BadFile.
    Places(const std::string &path, uint32_t vertices);
    // Finds nearest vertices, from now on, among these.
    void find_among(const std::vector<bool> &is_in);
    // The vertex that is nearest to a point of longitude and latitude, the least of several.
    Nearest nearest(double longitude, double latitude) const;
    Point at(uint32_t vertex) const { return points[vertex - 1]; }
    // The shape of a route, as a LineString of GeoJSON or as an encoded polyline of precision 5.
    std::string geojson(const uint32_t *route, size_t length) const;
    std::string polyline(const uint32_t *route, size_t length) const;
    // The hull of some vertices, as a Polygon of GeoJSON.
    std::string hull(const uint32_t *vertices, size_t count) const;
    // A vertex as a Point of GeoJSON.
    std::string point(uint32_t vertex) const;
    // Which file this is, and the least and greatest coordinates, west, south, east and north.
    Object shown() const;

  private:
    Origin origin;
    std::vector<Point> points;
    // The vertices that are found by the cell that they are in: those of cell c from begin[c] to begin[c + 1].
    Point least, most;
    int32_t columns = 1, rows = 1;
    double width = 1, height = 1;
    std::vector<uint32_t> begin, members;

    void parse(const std::string &path, const std::string &text, uint32_t vertices);
    int32_t column_of(double x) const;
    int32_t row_of(double y) const;
    struct Search;
};
