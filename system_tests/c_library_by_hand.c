/* Answers about the five vertices that were worked out by hand, from each kind of handle: opened, shared, the last one left, factored, read
   from a text. What c_names.c has is left out. Each wrong answer is printed; nothing is if all are right. */
#include <diffuse.h>
#include <stdio.h>
#include <string.h>

static const struct diffuse_arc FIVE[] = {{1, 2, 4}, {1, 3, 1}, {3, 2, 2}, {2, 4, 5}, {3, 4, 8}, {4, 4, 0}, {5, 1, 3}};
static const char TEXT[] = "c five\np sp 5 7\na 1 2 4\na 1 3 1\na 3 2 2\na 2 4 5\na 3 4 8\na 4 4 0\na 5 1 3\n";
static const uint32_t ONE = 1;
static int wrong;

static void hold(int is_right, const char *kind, size_t row) {
    if (!is_right) printf("%s, row %zu\n", kind, row);
    wrong |= !is_right;
}

/* The walk of a pair: its algebra and limit, its status, code and hops, and its vertices; 7 stands in the places after them. */
struct pair {
    enum diffuse_algebra algebra;
    uint64_t limit;
    uint32_t source, target;
    enum diffuse_status status;
    uint64_t code;
    uint32_t hops, route[5];
};

static const struct pair PAIRS[] = {
    {DIFFUSE_ALGEBRA_SHORTEST, 100, 1, 3, DIFFUSE_STATUS_DONE, 1, 1, {1, 3, 7, 7, 7}},
    {DIFFUSE_ALGEBRA_SHORTEST, 0, 1, 2, DIFFUSE_STATUS_DONE, 3, 2, {1, 3, 2, 7, 7}},
    {DIFFUSE_ALGEBRA_SHORTEST, 0, 1, 4, DIFFUSE_STATUS_DONE, 8, 3, {1, 3, 2, 4, 7}},
    {DIFFUSE_ALGEBRA_SHORTEST, 0, 1, 5, DIFFUSE_STATUS_NO_ROUTE, 7, 7, {7, 7, 7, 7, 7}},
    {DIFFUSE_ALGEBRA_SHORTEST, 0, 5, 4, DIFFUSE_STATUS_DONE, 11, 4, {5, 1, 3, 2, 4}},
    {DIFFUSE_ALGEBRA_WIDEST, 0, 1, 4, DIFFUSE_STATUS_DONE, 4, 2, {1, 2, 4, 7, 7}},
    {DIFFUSE_ALGEBRA_WIDEST, 0, 5, 4, DIFFUSE_STATUS_DONE, 3, 3, {5, 1, 2, 4, 7}},
    {DIFFUSE_ALGEBRA_REACH, 0, 1, 4, DIFFUSE_STATUS_DONE, 0, 2, {1, 2, 4, 7, 7}},
    {DIFFUSE_ALGEBRA_HOPS, 0, 1, 4, DIFFUSE_STATUS_DONE, 2, 2, {1, 2, 4, 7, 7}},
    {DIFFUSE_ALGEBRA_RELIABLE, 0, 1, 4, DIFFUSE_STATUS_DONE, 20, 2, {1, 2, 4, 7, 7}},
    {DIFFUSE_ALGEBRA_WITHIN, 7, 1, 4, DIFFUSE_STATUS_NO_ROUTE, 7, 7, {7, 7, 7, 7, 7}},
    {DIFFUSE_ALGEBRA_WITHIN, 8, 1, 4, DIFFUSE_STATUS_DONE, 8, 3, {1, 3, 2, 4, 7}},
    {DIFFUSE_ALGEBRA_WITHIN, 8, 1, 1, DIFFUSE_STATUS_DONE, 0, 0, {1, 7, 7, 7, 7}},
    {DIFFUSE_ALGEBRA_WITHIN, DIFFUSE_MAX_LIMIT + 1, 1, 4, DIFFUSE_STATUS_NO_ALGEBRA, 7, 7, {7, 7, 7, 7, 7}},
};

static void ask(struct diffuse_graph *graph, const char *kind, size_t row) {
    const struct pair *p = &PAIRS[row];
    uint32_t hops = 7, route[5] = {7, 7, 7, 7, 7};
    uint64_t code = 7;
    enum diffuse_status status = diffuse_graph_route(graph, p->algebra, p->limit, p->source, p->target, &code, &hops, route, 5);
    hold(status == p->status && code == p->code && hops == p->hops && memcmp(route, p->route, sizeof route) == 0, kind, row);
}

/* Each pair after the one before it, there and back: from the same source, from another one, by another algebra and within another limit. */
static void pairs(struct diffuse_graph *graph, const char *kind) {
    size_t count = sizeof PAIRS / sizeof *PAIRS;
    for (size_t row = 0; row < count; row++) ask(graph, kind, row);
    for (size_t row = count; row-- > 0;) ask(graph, kind, row);
}

/* What is reached from vertex 1 within one limit after the other, and within one that is too great; 7 stands in the places after it. */
static void near_by_limits(struct diffuse_graph *graph) {
    static const struct { uint64_t limit; enum diffuse_status status; size_t count; uint32_t vertices[4]; uint64_t codes[4]; } ROWS[] = {
        {8, DIFFUSE_STATUS_DONE, 4, {1, 3, 2, 4}, {0, 1, 3, 8}}, {2, DIFFUSE_STATUS_DONE, 2, {1, 3, 7, 7}, {0, 1, 7, 7}},
        {0, DIFFUSE_STATUS_DONE, 1, {1, 7, 7, 7}, {0, 7, 7, 7}}, {DIFFUSE_MAX_LIMIT + 1, DIFFUSE_STATUS_NO_ALGEBRA, 7, {7, 7, 7, 7}, {7, 7, 7, 7}}};
    for (size_t row = 0; row < sizeof ROWS / sizeof *ROWS; row++) {
        uint32_t vertices[4] = {7, 7, 7, 7};
        uint64_t codes[4] = {7, 7, 7, 7};
        size_t count = 7;
        enum diffuse_status status = diffuse_graph_near(graph, DIFFUSE_ALGEBRA_WITHIN, ROWS[row].limit, &ONE, 1, vertices, 4, codes, 4, NULL, 0, NULL, 0, &count);
        hold(status == ROWS[row].status && count == ROWS[row].count && memcmp(vertices, ROWS[row].vertices, sizeof vertices) == 0
                 && memcmp(codes, ROWS[row].codes, sizeof codes) == 0, "near", row);
    }
}

/* What is reached is counted, with a list that is too short for it and with none. */
static void counts(struct diffuse_graph *graph) {
    static const uint32_t SOURCES[] = {5, 3}, TWO = 2;
    uint32_t vertices[] = {7};
    size_t count = 7;
    enum diffuse_status status = diffuse_graph_near(graph, DIFFUSE_ALGEBRA_SHORTEST, 0, SOURCES, 2, vertices, 1, NULL, 0, NULL, 0, NULL, 0, &count);
    hold(status == DIFFUSE_STATUS_NO_ROOM && count == 5 && vertices[0] == 7, "counts", 0);
    status = diffuse_graph_near(graph, DIFFUSE_ALGEBRA_SHORTEST, 0, &TWO, 1, NULL, 0, NULL, 0, NULL, 0, NULL, 0, &count);
    hold(status == DIFFUSE_STATUS_DONE && count == 2, "counts", 1);
}

struct tree {
    uint64_t codes[5];
    uint32_t hops[5], parents[5];
};
static const struct tree RIGHT = {{0, 3, 1, 8, DIFFUSE_UNREACHED}, {0, 2, 1, 3, 0}, {0, 3, 1, 2, 0}};

static void trees(struct diffuse_graph *graph, const char *kind) {
    struct tree t = {{0}, {0}, {0}};
    enum diffuse_status status = diffuse_graph_tree(graph, DIFFUSE_ALGEBRA_SHORTEST, 0, &ONE, 1, t.codes, 5, t.hops, 5, t.parents, 5);
    hold(status == DIFFUSE_STATUS_DONE && memcmp(&t, &RIGHT, sizeof t) == 0, kind, 0);
}

/* The tree is right, and each change is reported at its vertex. */
static void checks(struct diffuse_graph *graph) {
    static const struct { struct tree tree; enum diffuse_status status; uint32_t vertex, reason; } ROWS[] = {
        {{{0, 3, 1, 8, DIFFUSE_UNREACHED}, {0, 2, 1, 3, 0}, {0, 3, 1, 2, 0}}, DIFFUSE_STATUS_DONE, 7, 7},
        {{{0, 3, 1, 8, DIFFUSE_UNREACHED}, {1, 2, 1, 3, 0}, {0, 3, 1, 2, 0}}, DIFFUSE_STATUS_WRONG, 1, DIFFUSE_REASON_NOT_A_SOURCE_LINE},
        {{{0, 4, 1, 8, DIFFUSE_UNREACHED}, {0, 2, 1, 3, 0}, {0, 3, 1, 2, 0}}, DIFFUSE_STATUS_WRONG, 2, DIFFUSE_REASON_NOT_BEST},
        {{{0, 3, 1, 7, DIFFUSE_UNREACHED}, {0, 2, 1, 3, 0}, {0, 3, 1, 2, 0}}, DIFFUSE_STATUS_WRONG, 4, DIFFUSE_REASON_NO_PARENT},
        {{{0, 3, 1, 8, DIFFUSE_UNREACHED}, {0, 2, 1, 4, 0}, {0, 3, 1, 2, 0}}, DIFFUSE_STATUS_WRONG, 4, DIFFUSE_REASON_OTHER_HOPS},
        {{{0, 3, 1, DIFFUSE_UNREACHED, DIFFUSE_UNREACHED}, {0, 2, 1, 0, 0}, {0, 3, 1, 0, 0}}, DIFFUSE_STATUS_WRONG, 4, DIFFUSE_REASON_HAS_WALK},
        {{{0, 3, 1, 8, DIFFUSE_UNREACHED}, {0, 2, 1, 3, 1}, {0, 3, 1, 2, 0}}, DIFFUSE_STATUS_WRONG, 5, DIFFUSE_REASON_NO_PARENT}};
    for (size_t row = 0; row < sizeof ROWS / sizeof *ROWS; row++) {
        const struct tree *t = &ROWS[row].tree;
        uint32_t vertex = 7, reason = 7;
        enum diffuse_status status = diffuse_graph_check(graph, DIFFUSE_ALGEBRA_SHORTEST, 0, &ONE, 1, t->codes, 5, t->hops, 5, t->parents, 5, &vertex, &reason);
        hold(status == ROWS[row].status && vertex == ROWS[row].vertex && reason == ROWS[row].reason, "check", row);
    }
}

/* A text with a bad arc leaves the handle closed and reports its line; the text of the five vertices opens it. */
static void reads(void) {
    static const char BAD[] = "p sp 2 1\na 1 3 4\n";
    struct diffuse_graph graph = DIFFUSE_CLOSED;
    uint64_t line = 7;
    hold(diffuse_graph_read((const uint8_t *)BAD, sizeof BAD - 1, &graph, &line) == DIFFUSE_STATUS_NO_VERTEX && line == 2, "read", 0);
    line = 7;
    hold(diffuse_graph_read((const uint8_t *)TEXT, sizeof TEXT - 1, &graph, &line) == DIFFUSE_STATUS_DONE && line == 7, "read", 1);
    pairs(&graph, "pairs of a text");
    trees(&graph, "tree of a text");
    diffuse_graph_close(&graph);
}

int main(void) {
    struct diffuse_graph first = DIFFUSE_CLOSED, second = DIFFUSE_CLOSED;
    hold(diffuse_graph_open(5, FIVE, 7, &first) == DIFFUSE_STATUS_DONE, "open", 0);
    pairs(&first, "pairs");
    hold(diffuse_graph_share(&first, &second) == DIFFUSE_STATUS_DONE, "share", 0);
    pairs(&second, "pairs of a second handle");
    diffuse_graph_close(&first);
    pairs(&second, "pairs of the handle that is left");
    near_by_limits(&second);
    counts(&second);
    checks(&second);
    for (int i = 0; i < 2; i++) hold(diffuse_graph_factor(&second, i ? DIFFUSE_ALGEBRA_HOPS : DIFFUSE_ALGEBRA_SHORTEST) == DIFFUSE_STATUS_DONE, "factor", (size_t)i);
    pairs(&second, "pairs by factors");
    trees(&second, "tree by factors");
    near_by_limits(&second);
    diffuse_graph_close(&second);
    reads();
    return wrong;
}
