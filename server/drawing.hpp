// The roads as they are drawn: lines from crossing to crossing, the longest first.
#pragma once
#include "network.hpp"
#include "places.hpp"

// West, south, east and north, in millionths of a degree.
struct Box {
    Point least, most;
};

class Drawing {
  public:
    Drawing(const Network &network, const Places &places);
    // The lines that meet a box, in JSON, as encoded polylines: with points a step apart at least,
    // and so many points at most.
    std::string in_box(const Places &places, const Box &box, double step) const;

  private:
    static constexpr size_t MOST_POINTS = 20000;
    // The vertices of line l, counted from 1: from first[l] to first[l + 1].
    std::vector<uint32_t> first{0}, vertices;

    void sort(const Places &places);
};
