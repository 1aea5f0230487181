// The names of streets, a few for all arcs.
#pragma once
#include "files.hpp"
#include <vector>

class Streets {
  public:
    // Reads a file of lines `NUMBER NAME`, each for an arc line of a graph's text, counted from 1;
    // else BadFile.
    Streets(const std::string &path, std::string_view graph, uint32_t vertices);
    // The name of an arc that leaves a vertex, by its place among those, from 0; empty if it has none.
    const std::string &name(uint32_t tail, size_t place) const {
        return names[name_of[first[tail - 1] + place]];
    }

    Origin origin;

  private:
    std::vector<uint32_t> first, name_of;
    std::vector<std::string> names{""};

    std::vector<uint32_t> places_by_line(std::string_view graph, uint32_t vertices);
    void read(const std::string &path, const std::vector<uint32_t> &places);
};
