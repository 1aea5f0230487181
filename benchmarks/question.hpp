// One question that is answered by a diffusing computation: its shards, and what a turn of one does.
//
// The rule: a message that finds its vertex idle engages it, any other is answered by a signal at once. A better value
// becomes the vertex's label, and goes on along every outgoing arc that is not waiting for a signal; the others have
// their turn when their signal comes. A vertex that waits for no signal answers the message that engaged it.
#pragma once
#include "common.hpp"
#include "items.hpp"

#include <algorithm>
#include <atomic>
#include <memory>

constexpr uint32_t NOT_ENGAGED = ~uint32_t(0);

struct Settings {
    uint32_t workers = 4, shards = 4, width = 1, budget = 1024;
    bool best_first = false, by_questions = false;
};

enum Word : uint32_t { EMPTY, FILLING, FULL, READING };

// What a shard shows the others of the best value that waits there or was sent there.
struct Hint {
    alignas(64) std::atomic<uint64_t> word{NO_VALUE};

    void lower(uint64_t best) {
        uint64_t shown = word.load(std::memory_order_relaxed);
        while (best < shown && !word.compare_exchange_weak(shown, best, std::memory_order_relaxed)) {}
    }
};

struct Mailbox {
    alignas(64) std::atomic<uint32_t> word{EMPTY};
    vector<Item> batch;
};

// Arcs by their numbers, 1 to the number of arcs, and the numbers in the order of the rows.
struct Network {
    Graph graph;
    vector<Arc> arcs;
    vector<uint32_t> numbers;
    uint64_t ahead;

    explicit Network(ArcList list) : graph(list), numbers(list.arcs.size()) {
        uint64_t sum = 0;
        for (const Arc& arc : list.arcs) sum += arc.weight;
        ahead = list.arcs.empty() ? 0 : sum / list.arcs.size() / 5;
        vector<uint32_t> next(size_t(list.vertices) + 1);
        for (uint32_t v = 1; v <= list.vertices; v++) next[v] = graph.begin_of(v);
        for (uint32_t i = 0; i < list.arcs.size(); i++) numbers[next[list.arcs[i].tail]++] = i + 1;
        arcs.reserve(list.arcs.size() + 1);
        arcs.push_back({0, 0, 0});
        arcs.insert(arcs.end(), list.arcs.begin(), list.arcs.end());
    }
};

struct Part {
    Queue queue;
    vector<vector<Item>> outboxes;
    uint64_t messages = 0, best_sent = NO_VALUE;
    bool knows_end = false, is_over = false;
};

// One question: its tables, its parts, and what stands between them.
class Question {
    const Network& network;
    const vector<uint8_t>& shard_of;
    const Settings& settings;
    vector<uint64_t> told;
    vector<uint32_t> engager, deficit;
    vector<char> busy;
    std::unique_ptr<Mailbox[]> mailboxes;
    std::unique_ptr<Hint[]> hints;
    std::atomic<uint32_t> done{0};

    uint32_t head_of(uint32_t arc) const { return arc == 0 ? source : network.arcs[arc].head; }
    uint32_t shard_behind(uint32_t arc) const { return shard_of[head_of(arc)]; }
    uint32_t shard_before(uint32_t arc) const { return shard_of[arc == 0 ? source : network.arcs[arc].tail]; }

    static void put(Part& part, uint32_t here, uint32_t to, const Item& item) {
        if (to == here) {
            part.queue.push(item);
            return;
        }
        part.outboxes[to].push_back(item);
        part.best_sent = std::min(part.best_sent, value_of(item));
    }

    void offer(Part& part, uint32_t here, uint32_t arc, uint32_t vertex) {
        if (busy[arc] || told[arc] == labels[vertex]) return;
        busy[arc] = 1;
        deficit[vertex]++;
        told[arc] = labels[vertex];
        put(part, here, shard_behind(arc), {arc, false, labels[vertex] + network.arcs[arc].weight});
    }

    void rest(Part& part, uint32_t here, uint32_t vertex) {
        uint32_t arc = engager[vertex];
        if (arc == NOT_ENGAGED || deficit[vertex] > 0) return;
        engager[vertex] = NOT_ENGAGED;
        put(part, here, shard_before(arc), {arc, true, 0});
    }

    void handle_message(Part& part, uint32_t here, const Item& item) {
        uint32_t vertex = head_of(item.arc);
        part.messages++;
        bool better = item.value < labels[vertex];
        if (better) labels[vertex] = item.value;
        if (engager[vertex] == NOT_ENGAGED) engager[vertex] = item.arc;
        else put(part, here, shard_before(item.arc), {item.arc, true, 0});
        if (better) {
            uint32_t end = network.graph.begin_of(vertex + 1);
            for (uint32_t i = network.graph.begin_of(vertex); i < end; i++) offer(part, here, network.numbers[i], vertex);
        }
        rest(part, here, vertex);
    }

    void handle_signal(Part& part, uint32_t here, uint32_t arc) {
        if (arc == 0) {
            part.knows_end = true;
            return;
        }
        uint32_t vertex = network.arcs[arc].tail;
        busy[arc] = 0;
        deficit[vertex]--;
        offer(part, here, arc, vertex);
        rest(part, here, vertex);
    }

    Mailbox& mailbox(uint32_t from, uint32_t to) { return mailboxes[size_t(from) * settings.shards + to]; }

    bool read_from(Part& part, Mailbox& box) {
        uint32_t full = FULL;
        if (box.word.load(std::memory_order_relaxed) != FULL || !box.word.compare_exchange_strong(full, READING)) return false;
        for (const Item& item : box.batch) part.queue.push(item);
        box.batch.clear();
        box.word.store(EMPTY);
        return true;
    }

    bool publish(vector<Item>& outbox, uint32_t here, uint32_t to) {
        Mailbox& box = mailbox(here, to);
        uint32_t empty = EMPTY;
        if (outbox.empty() || !box.word.compare_exchange_strong(empty, FILLING)) return false;
        uint64_t best = settings.best_first ? best_of(outbox) : NO_VALUE;
        box.batch.swap(outbox);
        box.word.store(FULL);
        hints[to].lower(best);
        return true;
    }

    // A value, extended by the weight by which a shard may run ahead.
    uint64_t extended(uint64_t value) const { return value == NO_VALUE ? NO_VALUE : value + network.ahead; }

    // The worst value that a shard may take now: it is held back if another one shows a value.
    uint64_t limit(uint32_t here) const {
        uint64_t best = NO_VALUE;
        for (uint32_t s = 0; s < settings.shards; s++) {
            if (s != here) best = std::min(best, hints[s].word.load(std::memory_order_relaxed));
        }
        return extended(best);
    }

    // Handles items, as many as the budget, the limit and what it sends to other shards allow; how many.
    uint32_t handle_within(Part& part, uint32_t here, uint64_t limit) {
        part.best_sent = NO_VALUE;
        for (const vector<Item>& outbox : part.outboxes) part.best_sent = std::min(part.best_sent, best_of(outbox));
        for (uint32_t k = 0; k < settings.budget; k++) {
            if (part.queue.is_empty() || part.queue.is_held(std::min(limit, extended(part.best_sent)))) return k;
            Item item = part.queue.pop([&](const Item& waiting) { return waiting.value < labels[head_of(waiting.arc)]; });
            if (item.is_signal) handle_signal(part, here, item.arc);
            else handle_message(part, here, item);
        }
        return settings.budget;
    }

public:
    const uint32_t source;
    vector<uint64_t> labels;
    vector<Part> parts;

    Question(const Network& network, const vector<uint8_t>& shard_of, const Settings& settings, uint32_t source)
        : network(network), shard_of(shard_of), settings(settings), told(network.arcs.size(), UNREACHED),
          engager(shard_of.size(), NOT_ENGAGED), deficit(shard_of.size()), busy(network.arcs.size()),
          mailboxes(new Mailbox[size_t(settings.shards) * settings.shards]), hints(new Hint[settings.shards]), source(source),
          labels(shard_of.size(), UNREACHED), parts(settings.shards) {
        for (Part& part : parts) {
            part.outboxes.resize(settings.shards);
            part.queue.open(settings.best_first);
        }
        parts[shard_of[source]].queue.push({0, false, 0});
    }

    // One turn of a shard; whether it did anything.
    bool turn(uint32_t here) {
        Part& part = parts[here];
        bool did = false;
        for (uint32_t s = 0; s < settings.shards; s++) {
            if (s != here) did |= read_from(part, mailbox(s, here));
        }
        did |= handle_within(part, here, settings.best_first ? limit(here) : NO_VALUE) > 0;
        if (settings.best_first) hints[here].word.store(part.queue.best(), std::memory_order_relaxed);
        for (uint32_t s = 0; s < settings.shards; s++) {
            if (s != here) did |= publish(part.outboxes[s], here, s);
        }
        if (part.knows_end) done.store(1);
        part.is_over = part.knows_end || done.load() == 1;
        return did;
    }
};
