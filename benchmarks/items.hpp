// Messages and signals that wait at a part of the graph.
#pragma once
#include <algorithm>
#include <cstdint>
#include <queue>
#include <vector>

using std::vector;

constexpr uint64_t NO_VALUE = ~uint64_t(0);

// A message on an arc, or the signal that answers it. Arc 0 leads from the environment to the source.
struct Item {
    uint32_t arc;
    bool is_signal;
    uint64_t value;
};

// The value of a message, and none of a signal.
inline uint64_t value_of(const Item& item) { return item.is_signal ? NO_VALUE : item.value; }

// The best value of some items.
inline uint64_t best_of(const vector<Item>& items) {
    uint64_t best = NO_VALUE;
    for (const Item& item : items) best = std::min(best, value_of(item));
    return best;
}

class Ring {
    vector<Item> room = vector<Item>(64);
    size_t first = 0, count = 0;

    void grow() {
        vector<Item> wider(2 * room.size());
        for (size_t i = 0; i < count; i++) wider[i] = room[(first + i) & (room.size() - 1)];
        room.swap(wider);
        first = 0;
    }

public:
    bool is_empty() const { return count == 0; }

    void push(const Item& item) {
        if (count == room.size()) grow();
        room[(first + count++) & (room.size() - 1)] = item;
    }

    Item pop() {
        Item item = room[first];
        first = (first + 1) & (room.size() - 1);
        count--;
        return item;
    }
};

// A message that waits for its turn by value. Less is worse: a greater value, and of equal values a greater arc.
struct Ranked {
    uint64_t value;
    uint32_t arc;
    bool operator<(const Ranked& other) const {
        return value > other.value || (value == other.value && arc > other.arc);
    }
};

// The items that wait at a part, in one of two orders. First come, first served they are in a ring. Best first, what came
// is looked at from the newest on: a signal, or a message that improves nothing, is taken at once, any other is ranked.
class Queue {
    bool best_first = false;
    Ring ring;
    vector<Item> unranked;
    std::priority_queue<Ranked> ranked;

public:
    void open(bool best) { best_first = best; }

    bool is_empty() const { return ring.is_empty() && unranked.empty() && ranked.empty(); }

    void push(const Item& item) {
        if (best_first) unranked.push_back(item);
        else ring.push(item);
    }

    // The best value that waits, and none first come, first served.
    uint64_t best() const {
        return std::min(ranked.empty() ? NO_VALUE : ranked.top().value, best_of(unranked));
    }

    // Best first, whether all that waits is messages worse than a limit.
    bool is_held(uint64_t limit) const {
        if (!best_first || (!ranked.empty() && ranked.top().value <= limit)) return false;
        return std::all_of(unranked.begin(), unranked.end(), [&](const Item& item) { return !item.is_signal && item.value > limit; });
    }

    template <class Improves> Item pop(Improves improves) {
        if (!best_first) return ring.pop();
        while (!unranked.empty()) {
            Item item = unranked.back();
            unranked.pop_back();
            if (item.is_signal || !improves(item)) return item;
            ranked.push({item.value, item.arc});
        }
        Ranked best = ranked.top();
        ranked.pop();
        return {best.arc, false, best.value};
    }
};
