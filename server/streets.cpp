#include "streets.hpp"
#include "lines.hpp"
#include <unordered_map>

Streets::Streets(const std::string &path, std::string_view graph, uint32_t vertices) {
    read(path, places_by_line(graph, vertices));
}

// For each arc line of a graph the arc's place among all arcs by their tails.
std::vector<uint32_t> Streets::places_by_line(std::string_view graph, uint32_t vertices) {
    std::vector<uint32_t> tails;
    each_line(graph, [&](uint64_t, std::string_view line) {
        uint32_t tail = 0;
        auto fields = fields_of(line);
        if (fields.size() > 1 && fields[0] == "a" && read_number(fields[1], tail))
            tails.push_back(tail);
    });
    first.assign(vertices + 1, 0);
    for (auto tail : tails) first[tail]++;
    for (uint32_t v = 1; v <= vertices; v++) first[v] += first[v - 1];
    auto next = first;
    for (auto &tail : tails) tail = next[tail - 1]++;
    return tails;
}

void Streets::read(const std::string &path, const std::vector<uint32_t> &places) {
    std::string text = read_file(path, origin);
    std::unordered_map<std::string, uint32_t> known;
    name_of.assign(places.size(), 0);
    each_line(text, [&](uint64_t number, std::string_view line) {
        auto blank = line.find(' ');
        uint32_t arc = 0;
        if (line.empty()) return;
        if (blank == line.npos || !read_number(line.substr(0, blank), arc) || arc < 1
            || arc > places.size())
            throw BadFile(path + ": line " + std::to_string(number)
                          + ": not 'NUMBER NAME' of an arc line of the graph");
        auto [found, is_new] = known.emplace(line.substr(blank + 1), uint32_t(names.size()));
        if (is_new) names.push_back(found->first);
        name_of[places[arc - 1]] = found->second;
    });
}
