#include "parts.hpp"
#include <algorithm>

namespace {

class Finder {
  public:
    explicit Finder(const Network &network)
        : network(network), number(network.vertices()), low(number), next(number), part(number) {}

    Parts all() {
        for (uint32_t root = 0; root < network.vertices(); root++)
            if (!number[root]) walk_from(root);
        Parts parts;
        parts.count = count;
        parts.largest = largest;
        for (auto it : part) parts.is_in.push_back(it == largest_part);
        return parts;
    }

  private:
    const Network &network;
    // When a vertex was first seen, the least number that it is known to reach, its next arc, and
    // its part; 0 is none.
    std::vector<uint32_t> number, low, next, part, open, path;
    uint32_t seen = 0, count = 0, largest = 0, largest_part = 0;

    void walk_from(uint32_t root) {
        enter(root);
        while (!path.empty()) {
            uint32_t v = path.back();
            if (next[v] < network.first[v + 1]) look(v, network.heads[next[v]++]);
            else leave(v);
        }
    }
    void enter(uint32_t v) {
        number[v] = low[v] = ++seen;
        next[v] = network.first[v];
        open.push_back(v);
        path.push_back(v);
    }
    void look(uint32_t v, uint32_t head) {
        if (!number[head]) enter(head);
        else if (!part[head]) low[v] = std::min(low[v], number[head]);
    }
    void leave(uint32_t v) {
        path.pop_back();
        if (!path.empty()) low[path.back()] = std::min(low[path.back()], low[v]);
        if (low[v] == number[v]) close(v);
    }
    void close(uint32_t v) {
        uint32_t size = 0;
        for (count++; !part[v]; open.pop_back(), size++) part[open.back()] = count;
        if (size > largest) largest = size, largest_part = count;
    }
};

}  // namespace

Parts parts_of(const Network &network) { return Finder(network).all(); }
