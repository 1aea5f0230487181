/* Each call over a chain of more than a million vertices, with a stop that nobody sets, by searches and by factors; what a second
   call grows; and the time of a small tree. No clause says that memory suffices, that a stop is clear or that lists are kept.
   Link with -Wl,--wrap=malloc,--wrap=realloc. Each wrong answer is printed; nothing is if all are right. */
#include <diffuse.h>
#include <stdio.h>
#include <stdlib.h>
#include <time.h>

static size_t grown; /* by how many bytes memory has grown */
void *__real_malloc(size_t);
void *__real_realloc(void *, size_t);
void *__wrap_malloc(size_t n) { return grown += n, __real_malloc(n); }
void *__wrap_realloc(void *p, size_t n) { return grown += n, __real_realloc(p, n); }

enum { N = 1100000, FAR = 20, FARTHER = 2000, FULL = 300 };
static struct diffuse_graph graph = DIFFUSE_CLOSED, second = DIFFUSE_CLOSED;
static struct diffuse_stop stop = DIFFUSE_CLOSED;
static struct diffuse_arc arcs[N];
static uint32_t vertices[N], steps[N], hops_of[N], parents[N];
static uint64_t codes[N], sums[N]; /* the code of each vertex from 1 is the sum of the weights before it */
static const uint32_t ONE = 1;
static int wrong;

static void hold(int is_right, const char *what) {
    if (!is_right) printf("wrong: %s\n", what);
    wrong |= !is_right;
}
#define DONE(call) hold((call) == DIFFUSE_STATUS_DONE, #call)

static void open_chain(void) {
    for (uint32_t v = 1; v < N; v++) {
        arcs[v - 1] = (struct diffuse_arc){v, v + 1, v % 7 + 1};
        sums[v] = sums[v - 1] + v % 7 + 1;
    }
    DONE(diffuse_graph_open(N, arcs, N - 1, &graph));
    DONE(diffuse_stop_new(&stop));
    DONE(diffuse_graph_stop_by(&graph, &stop));
    DONE(diffuse_graph_number(&graph, arcs, N - 1));
}

/* Routes from one end to the other, whose arcs are all in their order. */
static void routes(void) {
    uint64_t code = 0;
    uint32_t hops = 0, place = 0;
    DONE(diffuse_graph_route(&graph, DIFFUSE_ALGEBRA_SHORTEST, 0, 1, N, &code, &hops, vertices, N));
    hold(code == sums[N - 1] && hops == N - 1 && vertices[N - 1] == N, "route");
    DONE(diffuse_graph_route_arcs(&graph, DIFFUSE_ALGEBRA_WITHIN, DIFFUSE_MAX_LIMIT, 1, N, &code, &hops, vertices, N, steps, N));
    while (place < N - 1 && steps[place] == place) place++;
    hold(code == sums[N - 1] && hops == N - 1 && place == N - 1, "route_arcs");
}

/* The tree is right, and a change of its last line is found. */
static void trees(void) {
    uint32_t vertex = 0, v = 0;
    DONE(diffuse_graph_tree(&graph, DIFFUSE_ALGEBRA_SHORTEST, 0, &ONE, 1, codes, N, hops_of, N, parents, N));
    while (v < N && codes[v] == sums[v] && hops_of[v] == v && parents[v] == v) v++;
    hold(v == N, "tree");
    DONE(diffuse_graph_check(&graph, DIFFUSE_ALGEBRA_SHORTEST, 0, &ONE, 1, codes, N, hops_of, N, parents, N, NULL, NULL));
    codes[N - 1]--;
    hold(diffuse_graph_check(&graph, DIFFUSE_ALGEBRA_SHORTEST, 0, &ONE, 1, codes, N, hops_of, N, parents, N, &vertex, NULL) == DIFFUSE_STATUS_WRONG
             && vertex == N, "check");
}

/* What is near one vertex, and a tree and what is near with all vertices as sources. */
static void near_all(void) {
    size_t count = 0;
    uint32_t v = 0;
    DONE(diffuse_graph_near(&graph, DIFFUSE_ALGEBRA_SHORTEST, 0, &ONE, 1, vertices, N, codes, N, NULL, 0, NULL, 0, &count));
    hold(count == N && vertices[N - 1] == N && codes[N - 1] == sums[N - 1], "near");
    for (v = 0; v < N; v++) steps[v] = v + 1;
    DONE(diffuse_graph_near(&graph, DIFFUSE_ALGEBRA_HOPS, 0, steps, N, vertices, N, codes, N, NULL, 0, NULL, 0, &count));
    hold(count == N && vertices[N - 1] == N && codes[N - 1] == 0, "near from all");
    DONE(diffuse_graph_tree(&graph, DIFFUSE_ALGEBRA_SHORTEST, 0, steps, N, codes, N, NULL, 0, NULL, 0));
    for (v = 0; v < N && codes[v] == 0;) v++;
    hold(v == N, "tree from all");
}

/* A wide table, and one that is high. */
static void tables(uint32_t wide) {
    uint32_t i = 0, end = FAR;
    for (i = 0; i < wide; i++) steps[i] = i + 1;
    DONE(diffuse_graph_table(&graph, DIFFUSE_ALGEBRA_SHORTEST, 0, &ONE, 1, steps, wide, codes, wide));
    for (i = 0; i < wide && codes[i] == sums[i];) i++;
    hold(i == wide, "a wide table");
    for (i = 0; i < wide; i++) steps[i] = i % FAR + 1;
    DONE(diffuse_graph_table(&graph, DIFFUSE_ALGEBRA_SHORTEST, 0, steps, wide, &end, 1, codes, wide));
    for (i = 0; i < wide && codes[i] == sums[FAR - 1] - sums[i % FAR];) i++;
    hold(i == wide, "a high table");
}

static void answers(uint32_t wide) {
    routes();
    trees();
    near_all();
    tables(wide);
}

/* Factors of the chain, and of other weights over the same links: twice the code, from one end to the other. */
static void factors(void) {
    uint64_t code = 0;
    static const uint32_t LAST = N;
    hold(diffuse_graph_factor(&graph, DIFFUSE_ALGEBRA_WIDEST) == DIFFUSE_STATUS_NO_FACTORS, "no factors");
    DONE(diffuse_graph_factor(&graph, DIFFUSE_ALGEBRA_SHORTEST));
    DONE(diffuse_graph_factor(&graph, DIFFUSE_ALGEBRA_HOPS));
    for (uint32_t i = 0; i < N - 1; i++) arcs[i].weight *= 2;
    DONE(diffuse_graph_reweigh(&graph, arcs, N - 1, &second));
    DONE(diffuse_graph_table(&second, DIFFUSE_ALGEBRA_SHORTEST, 0, &ONE, 1, &LAST, 1, &code, 1));
    hold(code == 2 * sums[N - 1], "reweigh");
    diffuse_graph_close(&second);
}

/* What a route, what is near and a row of a table grow the second time, and the rows of a table after its first: no list of all
   vertices. A table without factors makes its lists once. The route is too far for the search that comes before factors. */
static void kept_lists(int is_factored) {
    static const enum diffuse_algebra EACH[] = {DIFFUSE_ALGEBRA_SHORTEST, DIFFUSE_ALGEBRA_HOPS, DIFFUSE_ALGEBRA_WIDEST, DIFFUSE_ALGEBRA_RELIABLE};
    static const uint32_t ENDS[] = {1, 2, 3, 4, 5, 6, 7, 8, 9, 10}, TARGET = FAR;
    static const char *const NAMES[] = {"kept lists of a route", "kept lists of near", "kept lists of a table", "kept lists of rows"};
    for (int k = 0; k < (is_factored ? 2 : 4); k++) {
        size_t grows[2][4], count;
        uint64_t code;
        uint32_t hops;
        for (int run = 0; run < 2; run++) {
            grown = 0;
            DONE(diffuse_graph_route(&graph, EACH[k], 0, 1, FARTHER, &code, &hops, vertices, N));
            grows[run][0] = grown, grown = 0;
            DONE(diffuse_graph_near(&graph, EACH[k], 0, &ONE, 1, vertices, N, NULL, 0, NULL, 0, NULL, 0, &count));
            grows[run][1] = grown, grown = 0;
            DONE(diffuse_graph_table(&graph, EACH[k], 0, ENDS, 1, &TARGET, 1, codes, 1));
            grows[run][2] = is_factored ? grown : 0, grows[run][3] = grown, grown = 0;
            DONE(diffuse_graph_table(&graph, EACH[k], 0, ENDS, 10, &TARGET, 1, codes, 10));
            grows[run][3] = grown > grows[run][3] ? grown - grows[run][3] : 0;
        }
        for (int i = 0; i < 4; i++) hold(grows[1][i] < N, NAMES[i]);
    }
}

/* The least processor time of ten trees of twenty vertices. */
static clock_t small_tree(void) {
    clock_t least = 0;
    for (int run = 0; run < 10; run++) {
        clock_t before = clock(), took;
        DONE(diffuse_graph_tree(&graph, DIFFUSE_ALGEBRA_WITHIN, sums[FAR - 1], &ONE, 1, NULL, 0, hops_of, N, NULL, 0));
        took = clock() - before;
        if (run == 0 || took < least) least = took;
    }
    hold(hops_of[FAR - 1] == FAR - 1 && hops_of[FAR] == 0, "a small tree");
    return least;
}

/* By which way a tree within a limit is found on a factored graph, told by what it grows the second time: a search for a tenth of
   the vertices uses the kept lists, and sweeps for all of them make their own. */
static void trees_within(void) {
    for (uint32_t reached = N / 10; reached <= N; reached += N - N / 10) {
        for (int run = 0; run < 2; run++) {
            grown = 0;
            DONE(diffuse_graph_tree(&graph, DIFFUSE_ALGEBRA_WITHIN, sums[reached - 1], &ONE, 1, codes, N, hops_of, N, NULL, 0));
        }
        hold(codes[reached - 1] == sums[reached - 1] && hops_of[reached - 1] == reached - 1, "a tree within a limit");
        hold((grown < N) == (reached < N), "the way to a tree within a limit");
    }
}

/* A handle that shares a graph has no arcs by head of its own: over a graph with an arc from each vertex to each, a route grows less. */
static void shared_arcs(void) {
    struct diffuse_arc *all = (struct diffuse_arc *)malloc((size_t)FULL * FULL * sizeof *all);
    uint64_t code;
    uint32_t hops;
    for (uint32_t i = 0; i < FULL * FULL; i++) all[i] = (struct diffuse_arc){1 + i / FULL, 1 + i % FULL, 1};
    for (int is_asked = 0; is_asked < 2; is_asked++) {
        DONE(diffuse_graph_open(FULL, all, (size_t)FULL * FULL, &graph));
        if (is_asked) DONE(diffuse_graph_route(&graph, DIFFUSE_ALGEBRA_SHORTEST, 0, 1, 2, &code, &hops, vertices, N));
        DONE(diffuse_graph_share(&graph, &second));
        grown = 0;
        DONE(diffuse_graph_route(&second, DIFFUSE_ALGEBRA_SHORTEST, 0, 1, 2, &code, &hops, vertices, N));
        DONE(diffuse_graph_route(&graph, DIFFUSE_ALGEBRA_SHORTEST, 0, 1, 2, &code, &hops, vertices, N));
        hold(grown < 4 * FULL * FULL, "arcs by head of a share");
        diffuse_graph_close(&graph);
        diffuse_graph_close(&second);
    }
    free(all);
}

int main(void) {
    clock_t searched;
    open_chain();
    answers(300000);
    kept_lists(0);
    searched = small_tree();
    factors();
    hold(small_tree() <= 5 * searched, "the time of a small tree by factors");
    trees_within();
    diffuse_stop_free(&stop); /* it was never set */
    answers(1100); /* a chain is a hard case: a code by factors takes a millisecond */
    kept_lists(1);
    diffuse_graph_close(&graph);
    shared_arcs();
    return wrong;
}
