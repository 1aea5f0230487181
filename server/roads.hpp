// What is served: a graph with its factors, the places of its vertices, and a second graph over the
// same arcs.
#pragma once
#include "drawing.hpp"
#include "options.hpp"
#include "parts.hpp"
#include "streets.hpp"
#include <chrono>
#include <memory>
#include <mutex>

// The weights of a second graph over the same arcs, in the order of their tails.
struct Also {
    std::string name;
    Origin origin;
    std::vector<size_t> first;
    std::vector<uint32_t> weights;

    // Of an arc that leaves a vertex, by its place among those, from 0.
    uint32_t weight(uint32_t tail, size_t place) const { return weights[first[tail - 1] + place]; }
};

class Roads {
  public:
    // Reads all files that the options name; else BadFile or std::bad_alloc, and nothing is left.
    // If the graph before is factored and has links for all arcs, they are taken over.
    static std::shared_ptr<Roads> read(const Options &options, Roads *before = nullptr);
    // A further handle on the one graph, for a thread that asks; those of all threads are made
    // when the graph is read, so that none is refused for want of memory later.
    Handle take();
    // A handle for the time of a tree: so no more have the lists of one than there were trees at
    // once.
    Handle take_for_tree();
    void give_back(Handle for_tree) noexcept;
    // Frees those that no tree has.
    void free_idle();
    // What /health says.
    std::string health() const;

    std::chrono::steady_clock::time_point since = std::chrono::steady_clock::now();
    uint32_t vertices = 0;
    size_t arcs = 0;
    std::string not_factored;
    bool is_reweighed = false;
    std::unique_ptr<Places> places;
    std::unique_ptr<Drawing> drawing;
    std::unique_ptr<Streets> streets;
    std::unique_ptr<Also> also;
    // What `--parts` says.
    std::string parts_text();

  private:
    Origin origin;
    std::string unit;
    bool is_factored = false;
    uint32_t largest_part = 0;
    std::mutex lock;
    Handle first;
    std::vector<Handle> shares, for_trees;

    Handle share();
    Handle take_from(std::vector<Handle> &handles);
    void factor();
    void read_places(const std::string &path);
    // Whether it is factored over the links of another graph: not if an arc has none there, or if
    // the weights are too great.
    bool reweigh(Roads &before);
    void read_also(const std::string &name, const std::string &path);
};
