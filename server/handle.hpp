// Handles of the library, which are closed with their owners.
#pragma once
#include <diffuse.h>
#include <utility>

class Handle {
  public:
    Handle() = default;
    Handle(Handle &&other) noexcept : graph(std::exchange(other.graph, CLOSED)) {}
    Handle &operator=(Handle &&other) noexcept {
        std::swap(graph, other.graph);
        return *this;
    }
    ~Handle() { diffuse_graph_close(&graph); }
    diffuse_graph *at() { return &graph; }

  private:
    static constexpr diffuse_graph CLOSED = DIFFUSE_CLOSED;
    diffuse_graph graph = DIFFUSE_CLOSED;
};

// A flag by which another thread ends a search.
class Stop {
  public:
    Stop() = default;
    Stop(const Stop &) = delete;
    ~Stop() { diffuse_stop_free(&stop); }
    diffuse_stop *at() { return &stop; }
    bool is_open() const { return stop.is_open; }

  private:
    diffuse_stop stop = DIFFUSE_CLOSED;
};
