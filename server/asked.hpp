// What the fields of a request ask for; whatever can't be meant is Refused.
#pragma once
#include "fields.hpp"
#include "roads.hpp"

struct Algebra {
    diffuse_algebra number = DIFFUSE_ALGEBRA_SHORTEST;
    uint64_t limit = 0;
};

Algebra algebra_of(const Fields &fields);
// Whether its values are sums of weights.
bool is_sum(const Algebra &algebra);

// The limit of `within`.
uint64_t limit_of(const Value *value);

// A vertex that was asked for: by itself, or as the nearest to a place, so many metres away.
struct End {
    uint32_t vertex = 0;
    double metres = -1;
};

// What fields are read by: the graph, and how far a place may be from its vertex.
struct Asked {
    const Fields &fields;
    const Roads &roads;
    double snap_limit;

    // An end of a route: a vertex, or a place.
    End end_of(const std::string &by_vertex, const std::string &by_place) const;
    // A list of a few vertices and places, or one alone.
    std::vector<End> ends_of(const std::string &by_vertex, const std::string &by_place) const;
    // The vertex that is nearest to a place, given as longitude and latitude.
    Nearest nearest_to(const Value &value, const std::string &name) const;
    // Whether a field is true; without it, it is not.
    bool is_wanted(const char *name) const;

  private:
    End end(const Value &value, const std::string &name, bool is_place) const;
};

std::vector<uint32_t> vertices_of(const std::vector<End> &ends);
// Puts the metres from each place to its vertex into an answer, if there is a place.
void put_snaps(Object &reply, const std::vector<End> &ends);

enum class Geometry { none, geojson, polyline };

Geometry geometry_of(const Fields &fields, const Roads &roads);
