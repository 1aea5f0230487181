// A library that keeps a graph in memory, what it is asked, and what that takes.
#pragma once
#include "common.hpp"

#include <ctime>
#include <malloc.h>

static double now() {
    timespec at;
    clock_gettime(CLOCK_THREAD_CPUTIME_ID, &at);
    return double(at.tv_sec) * 1e6 + double(at.tv_nsec) / 1e3;
}

static size_t bytes_in_use() {
    struct mallinfo2 all = mallinfo2();
    return all.uordblks + all.hblkhd;
}

// What is asked for: all distances from a source, a route, a route to a neighbour, and the distances from many to many.
enum Kind { TREE, ROUTE, NEAR_ROUTES, TABLE, KINDS };

using Vertices = vector<uint32_t>;

// One library with its graph.
struct Peer {
    const char* name;
    size_t bytes = 0, factor_bytes = 0;
    double opening = 0, factoring = 0;
    vector<double> times[KINDS];
    uint64_t checks[KINDS] = {};

    explicit Peer(const char* name) : name(name) {}
    virtual ~Peer() = default;
    virtual void open(const ArcList& list) = 0;
    virtual void factor() {}
    virtual bool finds_routes() const { return true; }
    // The sum of all distances from a source.
    virtual uint64_t tree(uint32_t source) = 0;
    // The distance of a route.
    virtual uint64_t route(uint32_t, uint32_t) { return 0; }
    // The sum of all distances from some vertices to some.
    virtual uint64_t table(const Vertices&, const Vertices&) { return 0; }

    void begin(const ArcList& list) {
        size_t before = bytes_in_use();
        double start = now();
        open(list);
        opening = now() - start;
        bytes = bytes_in_use() - before;
        start = now();
        factor();
        factoring = now() - start;
        factor_bytes = bytes_in_use() - before - bytes;
    }

    template <class Find>
    void ask(Kind kind, Find find) {
        double start = now();
        uint64_t sum = find();
        times[kind].push_back(now() - start);
        checks[kind] = checks[kind] * 31 + sum;
    }

    void print() const {
        std::printf("%s,%zu,%zu,%.0f,%.0f", name, bytes, factor_bytes, opening, factoring);
        for (int kind = 0; kind < KINDS; kind++) {
            std::printf(",%llu,", static_cast<unsigned long long>(checks[kind]));
            for (double time : times[kind]) std::printf("%.2f ", time);
        }
        std::printf("\n");
    }
};

static uint64_t sum_of(const uint64_t* codes, size_t count) {
    uint64_t sum = 0;
    for (size_t i = 0; i < count; i++)
        if (codes[i] != UNREACHED) sum += codes[i];
    return sum;
}
