// Writes graphs of families of the 9th DIMACS Implementation Challenge, as a .gr, to standard output:
//
//     families Random4-n K SEED            2^K vertices, and four arcs for each; lengths up to 2^K
//     families Random4-C K SEED [LOG]      2^20 vertices, or 2^LOG, and four arcs for each; lengths up to 4^K
//     families Long-n K SEED               a grid of 16 by 2^(K - 4) vertices; lengths up to 2^K
//     families Square-n K SEED             a grid of 2^(K / 2) by 2^(K / 2) vertices, K even; lengths up to 2^K
//
// As README.md defines them: a random graph is a cycle through all vertices, in a random order, and arcs with random ends; in a
// grid there is an arc each way between neighbours in a row or a column; the length of each arc is drawn by itself, from 0 to the
// greatest.
// The same words give the same bytes on every machine.
#include "graphs.hpp"
#include "random.hpp"

enum Use { ORDER = 1, ENDS, LENGTHS };

static void write_random(Output& out, const string& made, uint32_t log, uint64_t longest, uint64_t seed) {
    uint64_t n = uint64_t(1) << log;
    vector<uint32_t> order(n);
    std::iota(order.begin(), order.end(), 1u);
    Random(seed, ORDER).shuffle(order);
    Random ends(seed, ENDS), lengths(seed, LENGTHS);
    write_head(out, made, n, 4 * n);
    for (uint64_t i = 0; i < n; i++) out.line("a", {order[i], order[(i + 1) % n], lengths.below(longest + 1)});
    for (uint64_t i = n; i < 4 * n; i++) {
        uint64_t tail = 1 + ends.below(n);
        out.line("a", {tail, 1 + ends.below(n), lengths.below(longest + 1)});
    }
}

static void write_grid(Output& out, const string& made, uint64_t rows, uint64_t columns, uint64_t longest, uint64_t seed) {
    write_head(out, made, rows * columns, 2 * (rows * (columns - 1) + columns * (rows - 1)));
    Random lengths(seed, LENGTHS);
    auto write_both = [&](uint64_t u, uint64_t v) {
        out.line("a", {u, v, lengths.below(longest + 1)});
        out.line("a", {v, u, lengths.below(longest + 1)});
    };
    for (uint64_t column = 0; column < columns; column++) {
        for (uint64_t row = 0; row < rows; row++) {
            uint64_t v = 1 + column * rows + row;
            if (row + 1 < rows) write_both(v, v + 1);
            if (column + 1 < columns) write_both(v, v + rows);
        }
    }
}

int main(int count, char** words) {
    string family = count > 3 ? words[1] : "";
    bool random = family == "Random4-n", by_length = family == "Random4-C", wide = family == "Long-n", square = family == "Square-n";
    if ((count != 4 && !(by_length && count == 5)) || !(random || by_length || wide || square)) {
        stop("usage: families Random4-n|Random4-C|Long-n|Square-n K SEED [LOG, for Random4-C]");
    }
    auto k = static_cast<uint32_t>(number(words[2], by_length ? 15 : 25));
    uint64_t seed = number(words[3], 1 << 30);
    auto log = by_length ? static_cast<uint32_t>(count == 5 ? number(words[4], 25) : 20) : k;
    if ((wide && k < 4) || (square && k % 2 == 1)) stop("K is at least 4 for Long-n, and even for Square-n");
    string made = "made by benchmarks/families.cpp:";
    for (int i = 1; i < count; i++) made += string(" ") + words[i];
    Output out;
    uint64_t longest = uint64_t(1) << (by_length ? 2 * k : k);
    if (wide || square) write_grid(out, made, uint64_t(1) << (wide ? 4 : k / 2), uint64_t(1) << (wide ? k - 4 : k / 2), longest, seed);
    else write_random(out, made, log, longest, seed);
    out.write_out();
}
