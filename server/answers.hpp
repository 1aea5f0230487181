// What the graph answers, a function for each path, from the fields of a request.
#pragma once
#include "asked.hpp"

// Room for the lines of a tree.
struct Lines {
    std::vector<uint32_t> vertices, hops, parents;
    std::vector<uint64_t> codes;

    void resize(size_t count) {
        for (auto *list : {&vertices, &hops, &parents}) list->resize(count);
        codes.resize(count);
    }
};

// What a thread that asks keeps: its handle on the graph of the moment, and room for answers.
struct Asker {
    std::shared_ptr<Roads> roads;
    Stop stop;
    Handle handle;
    std::vector<uint32_t> room;
    std::vector<diffuse_arc> arcs;
    Lines lines;
    // Whether the handle may have lists of its searches.
    bool has_searched = false;

    // Takes a new handle on this graph, or std::bad_alloc; the old one, its lists and the room are
    // freed, and the old graph with its last asker.
    void use(const std::shared_ptr<Roads> &others);
    // The best value of a route, its hops, and its vertices in the room; false if there is none.
    bool find(
        const Algebra &algebra, uint32_t source, uint32_t target, uint64_t &code, uint32_t &hops);
};

// Refuses an answer that the library has not given.
void check(diffuse_status status);

// The reply to a question, or Refused; with 503 once the asker's stop is set.
std::string answer(Asker &asker, const std::string &path, const Fields &fields, double snap_limit);
std::string route(Asker &asker, const Asked &asked);
std::string table(Asker &asker, const Asked &asked);
std::string tree(Asker &asker, const Asked &asked);

// The place of the arc of a step among those that leave its tail: of those that are best in the
// graph, the one with the least weight in the second graph.
size_t arc_of_step(Asker &asker, uint32_t tail, uint32_t head);
// The sum of the second graph's weights along a list of vertices.
uint64_t sum_along(Asker &asker, const uint32_t *route, size_t length);

bool is_question(std::string_view path);
// Whether answering may take a search for each of many sources, or one over the whole graph.
bool is_long(std::string_view path);
