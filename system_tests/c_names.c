/* Each status, algebra, reason and limit of the header by its name, held against a call of which the answer was worked out by
   hand; what a call leaves as it was; and what it takes of the stack. Compiles as C and as C++. Link with -Wl,--wrap=malloc,
   --wrap=realloc and -pthread. Each wrong name is printed; nothing is if all are right. */
#include <diffuse.h>
#include <pthread.h>
#include <signal.h>
#include <stdio.h>
#include <stdlib.h>
#include <string.h>
#include <sys/mman.h>

#ifdef __cplusplus
extern "C" {
#endif
static int is_short_of_memory, wrong;
static size_t grown; /* by how many bytes memory has grown */
void *__real_malloc(size_t);
void *__real_realloc(void *, size_t);
void *__wrap_malloc(size_t n) {
    grown += n;
    return is_short_of_memory ? NULL : __real_malloc(n);
}
void *__wrap_realloc(void *p, size_t n) {
    grown += n;
    return is_short_of_memory ? NULL : __real_realloc(p, n);
}
#ifdef __cplusplus
}
#endif

static void compare(const char *name, uint64_t wanted, uint64_t found) {
    if (found == wanted) return;
    printf("%s is %lu, and a call gives %lu\n", name, (unsigned long)wanted, (unsigned long)found);
    wrong = 1;
}
#define IS(wanted, found) compare(#wanted, (uint64_t)(wanted), (uint64_t)(found))

/* The five vertices of the examples, and four on which two parents of vertex 4 are as good. */
static const struct diffuse_arc FIVE[] = {{1, 2, 4}, {1, 3, 1}, {3, 2, 2}, {2, 4, 5}, {3, 4, 8}, {4, 4, 0}, {5, 1, 3}};
static const struct diffuse_arc FOUR[] = {{1, 2, 1}, {1, 3, 1}, {2, 4, 1}, {3, 4, 1}};
static const struct diffuse_arc BAD[] = {{1, 2, 4}, {1, 6, 1}};
static const uint32_t ONE = 1, SIX = 6;

struct tree {
    uint64_t codes[5];
    uint32_t hops[5], parents[5];
};
static const struct tree RIGHT = {{0, 3, 1, 8, DIFFUSE_UNREACHED}, {0, 2, 1, 3, 0}, {0, 3, 1, 2, 0}};

static struct diffuse_graph graph = DIFFUSE_CLOSED, second = DIFFUSE_CLOSED;
static uint64_t code, line;
static uint32_t hops, room[8], vertex, reason;

static void open(const struct diffuse_arc *arcs, uint32_t n, size_t m) {
    diffuse_graph_close(&graph);
    IS(DIFFUSE_STATUS_DONE, diffuse_graph_open(n, arcs, m, &graph));
}

static enum diffuse_status route(int algebra, uint64_t limit, uint32_t source, uint32_t target, size_t n) {
    return diffuse_graph_route(&graph, (enum diffuse_algebra)algebra, limit, source, target, &code, &hops, room, n);
}

static enum diffuse_status read(const char *text) {
    return diffuse_graph_read((const uint8_t *)text, strlen(text), &second, &line);
}

static enum diffuse_status tree(const uint32_t *source, struct tree *t, size_t n) {
    return diffuse_graph_tree(&graph, DIFFUSE_ALGEBRA_SHORTEST, 0, source, 1, t->codes, n, t->hops, 5, t->parents, 5);
}

static enum diffuse_status check(const struct tree *t, size_t n) {
    return diffuse_graph_check(&graph, DIFFUSE_ALGEBRA_SHORTEST, 0, &ONE, 1, t->codes, n, t->hops, n, t->parents, n, &vertex, &reason);
}

static void statuses(void) {
    struct tree t = RIGHT;
    IS(DIFFUSE_STATUS_CLOSED, route(DIFFUSE_ALGEBRA_SHORTEST, 0, 1, 4, 8));
    IS(DIFFUSE_STATUS_CLOSED, tree(&ONE, &t, 5));
    IS(DIFFUSE_STATUS_CLOSED, check(&t, 5));
    IS(DIFFUSE_STATUS_CLOSED, diffuse_graph_share(&graph, &second));
    IS(DIFFUSE_STATUS_CLOSED, diffuse_graph_table(&graph, DIFFUSE_ALGEBRA_SHORTEST, 0, &ONE, 1, &ONE, 1, &code, 1));
    open(FIVE, 5, 7);
    IS(DIFFUSE_STATUS_OPEN, diffuse_graph_open(5, FIVE, 7, &graph));
    IS(DIFFUSE_STATUS_DONE, route(DIFFUSE_ALGEBRA_SHORTEST, 0, 1, 4, 4));
    IS(DIFFUSE_STATUS_NO_ROUTE, route(DIFFUSE_ALGEBRA_SHORTEST, 0, 1, 5, 8));
    IS(DIFFUSE_STATUS_NO_ROOM, route(DIFFUSE_ALGEBRA_SHORTEST, 0, 1, 4, 3));
    IS(DIFFUSE_STATUS_NO_VERTEX, route(DIFFUSE_ALGEBRA_SHORTEST, 0, 0, 4, 8));
    IS(DIFFUSE_STATUS_NO_VERTEX, route(DIFFUSE_ALGEBRA_SHORTEST, 0, 1, 6, 8));
    IS(DIFFUSE_STATUS_NO_ALGEBRA, route(6, 0, 1, 4, 8));
    IS(DIFFUSE_STATUS_DONE, tree(&ONE, &t, 5));
    IS(DIFFUSE_STATUS_NO_ROOM, tree(&ONE, &t, 4));
    IS(DIFFUSE_STATUS_NO_VERTEX, tree(&SIX, &t, 5));
    IS(DIFFUSE_STATUS_DONE, check(&RIGHT, 5));
    IS(DIFFUSE_STATUS_NO_ROOM, check(&RIGHT, 4));
    t.codes[3] = 9;
    IS(DIFFUSE_STATUS_WRONG, check(&t, 5));
}

static enum diffuse_status table(const uint32_t *sources, const uint32_t *targets, uint64_t *codes, size_t n) {
    return diffuse_graph_table(&graph, DIFFUSE_ALGEBRA_SHORTEST, 0, sources, 2, targets, 3, codes, n);
}

/* The table from 1 and 5 to 4, 1 and 5, by searches or by factors. */
static void tables(void) {
    static const uint32_t SOURCES[] = {1, 5}, TARGETS[] = {4, 1, 5}, BEYOND[] = {4, 1, 6};
    static const uint64_t WANTED[] = {8, 0, DIFFUSE_UNREACHED, 11, 3, 0}, NONE[] = {7, 7, 7, 7, 7, 7};
    uint64_t codes[6];
    memcpy(codes, NONE, sizeof codes);
    IS(DIFFUSE_STATUS_NO_VERTEX, table(SOURCES, BEYOND, codes, 6));
    IS(DIFFUSE_STATUS_NO_VERTEX, table(BEYOND + 1, TARGETS, codes, 6));
    IS(DIFFUSE_STATUS_NO_ROOM, table(SOURCES, TARGETS, codes, 5));
    IS(DIFFUSE_STATUS_NO_ALGEBRA, diffuse_graph_table(&graph, (enum diffuse_algebra)6, 0, SOURCES, 2, TARGETS, 3, codes, 6));
    IS(0, memcmp(codes, NONE, sizeof codes));
    IS(DIFFUSE_STATUS_DONE, table(SOURCES, TARGETS, codes, 6));
    IS(0, memcmp(codes, WANTED, sizeof codes));
    IS(DIFFUSE_STATUS_DONE, diffuse_graph_table(&graph, DIFFUSE_ALGEBRA_SHORTEST, 0, SOURCES, 0, TARGETS, 3, codes, 0));
}

/* The arcs of a star, from vertex 1 to all others, or of a chain through all vertices. */
static const struct diffuse_arc *shape(int is_star, uint32_t n, uint32_t weight) {
    static struct diffuse_arc arcs[65536];
    for (uint32_t v = 2; v <= n; v++) {
        arcs[v - 2].tail = is_star ? 1 : v - 1;
        arcs[v - 2].head = v;
        arcs[v - 2].weight = weight;
    }
    return arcs;
}

static void open_shape(int is_star, uint32_t n, uint32_t weight) { open(shape(is_star, n, weight), n, n - 1); }

/* Opens a graph with an arc from each vertex to each, itself included. */
static void open_complete(uint32_t n) {
    static struct diffuse_arc arcs[65536];
    for (uint32_t k = 0; k < n * n; k++) {
        arcs[k].tail = 1 + k / n;
        arcs[k].head = 1 + k % n;
        arcs[k].weight = 1;
    }
    open(arcs, n, n * n);
}

/* Which algebras have factors, and which graphs are refused; answers are the same with them. */
static void factors(void) {
    static const int NONE[] = {DIFFUSE_ALGEBRA_WIDEST, DIFFUSE_ALGEBRA_REACH, DIFFUSE_ALGEBRA_RELIABLE};
    static const int SOME[] = {DIFFUSE_ALGEBRA_SHORTEST, DIFFUSE_ALGEBRA_HOPS, DIFFUSE_ALGEBRA_WITHIN, DIFFUSE_ALGEBRA_SHORTEST};
    struct tree t = RIGHT;
    diffuse_graph_close(&graph);
    IS(DIFFUSE_STATUS_CLOSED, diffuse_graph_factor(&graph, DIFFUSE_ALGEBRA_SHORTEST));
    open(FIVE, 5, 7);
    tables();
    IS(DIFFUSE_STATUS_NO_ALGEBRA, diffuse_graph_factor(&graph, (enum diffuse_algebra)6));
    for (size_t i = 0; i < 3; i++) IS(DIFFUSE_STATUS_NO_FACTORS, diffuse_graph_factor(&graph, (enum diffuse_algebra)NONE[i]));
    for (size_t i = 0; i < 4; i++) IS(DIFFUSE_STATUS_DONE, diffuse_graph_factor(&graph, (enum diffuse_algebra)SOME[i]));
    tables();
    IS(DIFFUSE_STATUS_DONE, route(DIFFUSE_ALGEBRA_SHORTEST, 0, 1, 4, 4));
    IS(8, code);
    IS(3, hops);
    IS(DIFFUSE_STATUS_NO_ROUTE, route(DIFFUSE_ALGEBRA_SHORTEST, 0, 1, 5, 8));
    IS(DIFFUSE_STATUS_NO_ROUTE, route(DIFFUSE_ALGEBRA_WITHIN, 7, 1, 4, 8));
    IS(DIFFUSE_STATUS_NO_ROOM, route(DIFFUSE_ALGEBRA_SHORTEST, 0, 1, 4, 3));
    IS(DIFFUSE_STATUS_DONE, route(DIFFUSE_ALGEBRA_HOPS, 0, 1, 4, 8));
    IS(2, code);
    IS(DIFFUSE_STATUS_DONE, tree(&ONE, &t, 5));
    IS(0, memcmp(&t, &RIGHT, sizeof t));
    open_shape(1, 1000, 1);
    IS(DIFFUSE_STATUS_DONE, diffuse_graph_factor(&graph, DIFFUSE_ALGEBRA_SHORTEST));
    open_complete(256);
    IS(DIFFUSE_STATUS_DENSE, diffuse_graph_factor(&graph, DIFFUSE_ALGEBRA_SHORTEST));
    IS(DIFFUSE_STATUS_DENSE, diffuse_graph_factor(&graph, DIFFUSE_ALGEBRA_SHORTEST));
    IS(DIFFUSE_STATUS_DONE, route(DIFFUSE_ALGEBRA_SHORTEST, 0, 1, 256, 8));
    open_shape(0, 65536, 4294967295u);
    IS(DIFFUSE_STATUS_HEAVY, diffuse_graph_factor(&graph, DIFFUSE_ALGEBRA_SHORTEST));
    IS(DIFFUSE_STATUS_DONE, diffuse_graph_factor(&graph, DIFFUSE_ALGEBRA_HOPS));
    IS(DIFFUSE_STATUS_DONE, route(DIFFUSE_ALGEBRA_HOPS, 0, 1, 3, 8));
    IS(2, code);
}

static enum diffuse_status factor_by(int algebra, const uint32_t *places, size_t n) {
    return diffuse_graph_factor_by(&graph, (enum diffuse_algebra)algebra, places, n);
}

/* Factors by the places of an order: which lists are none, and that answers are the same by any order, also in place of others. */
static void factors_by_an_order(void) {
    static const uint32_t ORDERS[4][5] = {{0, 1, 2, 3, 4}, {4, 3, 2, 1, 0}, {2, 0, 4, 1, 3}, {4, 0, 3, 1, 2}};
    static const uint32_t TWICE[] = {0, 1, 2, 3, 3}, GREAT[] = {0, 1, 2, 3, 5}, FROM_1[] = {1, 2, 3, 4, 5};
    diffuse_graph_close(&graph);
    IS(DIFFUSE_STATUS_CLOSED, factor_by(DIFFUSE_ALGEBRA_SHORTEST, ORDERS[0], 5));
    open(FIVE, 5, 7);
    IS(DIFFUSE_STATUS_NO_ALGEBRA, factor_by(6, TWICE, 4));
    IS(DIFFUSE_STATUS_NO_FACTORS, factor_by(DIFFUSE_ALGEBRA_WIDEST, TWICE, 4));
    IS(DIFFUSE_STATUS_NO_ROOM, factor_by(DIFFUSE_ALGEBRA_SHORTEST, TWICE, 4));
    IS(DIFFUSE_STATUS_NO_ORDER, factor_by(DIFFUSE_ALGEBRA_SHORTEST, TWICE, 5));
    IS(DIFFUSE_STATUS_NO_ORDER, factor_by(DIFFUSE_ALGEBRA_HOPS, GREAT, 5));
    IS(DIFFUSE_STATUS_NO_ORDER, factor_by(DIFFUSE_ALGEBRA_WITHIN, FROM_1, 5));
    is_short_of_memory = 1;
    IS(DIFFUSE_STATUS_MEMORY, factor_by(DIFFUSE_ALGEBRA_SHORTEST, ORDERS[0], 5));
    is_short_of_memory = 0;
    for (size_t i = 0; i < 4; i++) {
        IS(DIFFUSE_STATUS_DONE, factor_by(DIFFUSE_ALGEBRA_SHORTEST, ORDERS[i], 5));
        IS(DIFFUSE_STATUS_DONE, factor_by(DIFFUSE_ALGEBRA_HOPS, ORDERS[i], 5));
        tables();
    }
    open_shape(0, 65536, 4294967295u);
    uint32_t *places = (uint32_t *)__real_malloc(65536 * sizeof *places);
    for (uint32_t v = 0; v < 65536; v++) places[v] = v;
    IS(DIFFUSE_STATUS_HEAVY, factor_by(DIFFUSE_ALGEBRA_SHORTEST, places, 65536));
    IS(DIFFUSE_STATUS_DONE, factor_by(DIFFUSE_ALGEBRA_HOPS, places, 65536));
    free(places);
    IS(DIFFUSE_STATUS_DONE, route(DIFFUSE_ALGEBRA_HOPS, 0, 1, 3, 8));
    IS(2, code);
}

static enum diffuse_status reweigh(const struct diffuse_arc *arcs, size_t n) { return diffuse_graph_reweigh(&graph, arcs, n, &second); }

/* Whether the shortest walk from 1 to 4 has this code, by a handle. */
static int is_far(struct diffuse_graph *handle, uint64_t wanted) {
    return diffuse_graph_route(handle, DIFFUSE_ALGEBRA_SHORTEST, 0, 1, 4, &code, &hops, room, 8) == DIFFUSE_STATUS_DONE && code == wanted;
}

/* Other weights over the links of a graph, and why it is refused. The first handle answers as before. */
static void reweighs(void) {
    static const struct diffuse_arc OTHERS[] = {{4, 2, 0}, {1, 2, 9}, {1, 2, 1}, {2, 4, 30}, {3, 4, 3}, {1, 3, 40}}, FAR[] = {{4, 5, 1}};
    diffuse_graph_close(&graph);
    IS(DIFFUSE_STATUS_CLOSED, reweigh(OTHERS, 6));
    open(FIVE, 5, 7);
    IS(DIFFUSE_STATUS_DONE, reweigh(FAR, 1)); /* there are no factors */
    IS(DIFFUSE_STATUS_OPEN, reweigh(OTHERS, 6));
    diffuse_graph_close(&second);
    for (int i = 0; i < 2; i++) {
        IS(DIFFUSE_STATUS_DONE, diffuse_graph_factor(&graph, i ? DIFFUSE_ALGEBRA_SHORTEST : DIFFUSE_ALGEBRA_HOPS));
        IS(DIFFUSE_STATUS_NO_VERTEX, reweigh(BAD, 2));
        IS(DIFFUSE_STATUS_NO_LINK, reweigh(FAR, 1));
        IS(DIFFUSE_STATUS_DONE, reweigh(OTHERS, 6));
        IS(1, is_far(&second, 31) && is_far(&graph, 8) && diffuse_graph_arcs(&second) == 6);
        diffuse_graph_close(&second);
    }
    IS(DIFFUSE_STATUS_DONE, reweigh(NULL, 0));
    IS(0, is_far(&second, 31));
    diffuse_graph_close(&second);
    open_shape(0, 65536, 1);
    IS(DIFFUSE_STATUS_DONE, diffuse_graph_factor(&graph, DIFFUSE_ALGEBRA_HOPS));
    IS(DIFFUSE_STATUS_DONE, reweigh(shape(0, 65536, 4294967295u), 65535)); /* hops need no sums of weights */
    IS(1, is_far(&second, UINT64_C(12884901885)));
    diffuse_graph_close(&second);
    IS(DIFFUSE_STATUS_DONE, diffuse_graph_factor(&graph, DIFFUSE_ALGEBRA_SHORTEST));
    IS(DIFFUSE_STATUS_HEAVY, reweigh(shape(0, 65536, 4294967295u), 65535));
    IS(DIFFUSE_STATUS_DONE, reweigh(shape(0, 65536, 2), 65535));
    IS(1, is_far(&second, 6) && is_far(&graph, 3));
    diffuse_graph_close(&second);
}

/* What a share of a factored handle and each call of factor take: a share makes neither rows nor factors, and a call only
   the factors that are not there. */
static void factors_once(void) {
    static const int CALLS[] = {DIFFUSE_ALGEBRA_SHORTEST, DIFFUSE_ALGEBRA_SHORTEST, DIFFUSE_ALGEBRA_WITHIN, DIFFUSE_ALGEBRA_HOPS, DIFFUSE_ALGEBRA_HOPS,
                                DIFFUSE_ALGEBRA_SHORTEST};
    static const int GROWS[] = {1, 0, 0, 1, 0, 0};
    uint32_t n = 50000;
    open_shape(0, n, 1);
    for (size_t i = 0; i < 6; i++) {
        grown = 0;
        IS(DIFFUSE_STATUS_DONE, diffuse_graph_factor(&graph, (enum diffuse_algebra)CALLS[i]));
        IS(GROWS[i], grown > n);
    }
    grown = 0;
    IS(DIFFUSE_STATUS_DONE, diffuse_graph_share(&graph, &second));
    IS(0, grown > n);
    grown = 0;
    IS(DIFFUSE_STATUS_DONE, diffuse_graph_factor(&second, DIFFUSE_ALGEBRA_HOPS));
    IS(DIFFUSE_STATUS_DONE, diffuse_graph_factor(&second, DIFFUSE_ALGEBRA_SHORTEST));
    IS(0, grown > n);
    diffuse_graph_close(&second);
}

static void faults(void) {
    IS(DIFFUSE_STATUS_NO_PROBLEM, read("c nothing\na 1 2 3\n"));
    IS(2, line);
    IS(DIFFUSE_STATUS_SECOND_PROBLEM, read("p sp 2 0\np sp 2 0\n"));
    IS(DIFFUSE_STATUS_BAD_PROBLEM, read("p max 2 0\n"));
    IS(DIFFUSE_STATUS_UNKNOWN_LINE, read("p sp 2 0\nx\n"));
    IS(DIFFUSE_STATUS_FIELDS, read("p sp 2 1\na 1 2\n"));
    IS(DIFFUSE_STATUS_NOT_A_NUMBER, read("p sp 2 1\na 1 2 -3\n"));
    IS(DIFFUSE_STATUS_LIMIT, read("p sp 2 1\na 1 2 4294967296\n"));
    IS(DIFFUSE_STATUS_NO_VERTEX, read("p sp 2 1\na 1 3 3\n"));
    IS(DIFFUSE_STATUS_TOO_MANY, read("p sp 2 0\na 1 2 3\n"));
    IS(DIFFUSE_STATUS_TOO_FEW, read("p sp 2 1\n"));
    IS(2, line);
    IS(DIFFUSE_STATUS_DONE, read("p sp 2 1\na 1 2 3\n"));
    IS(DIFFUSE_STATUS_OPEN, read("p sp 2 1\na 1 2 3\n"));
    diffuse_graph_close(&second);
}

/* The code of the best walk from 1 to 4 on the five vertices. */
static void algebras(void) {
    static const struct { int algebra; uint64_t limit, code; uint32_t hops; } ROWS[] = {
        {DIFFUSE_ALGEBRA_SHORTEST, 7, 8, 3}, {DIFFUSE_ALGEBRA_WIDEST, 7, 4, 2}, {DIFFUSE_ALGEBRA_REACH, 7, 0, 2},
        {DIFFUSE_ALGEBRA_HOPS, 7, 2, 2}, {DIFFUSE_ALGEBRA_RELIABLE, 7, 20, 2}, {DIFFUSE_ALGEBRA_WITHIN, 8, 8, 3}};
    open(FIVE, 5, 7);
    for (size_t i = 0; i < sizeof ROWS / sizeof *ROWS; i++) {
        code = hops = 77;
        IS(DIFFUSE_STATUS_DONE, route(ROWS[i].algebra, ROWS[i].limit, 1, 4, 8));
        IS(ROWS[i].code, code);
        IS(ROWS[i].hops, hops);
    }
    IS(DIFFUSE_STATUS_NO_ROUTE, route(DIFFUSE_ALGEBRA_WITHIN, 7, 1, 4, 8));
}

static void is_refuted(const char *name, enum diffuse_reason wanted, struct tree t, uint32_t at) {
    vertex = reason = 0;
    IS(DIFFUSE_STATUS_WRONG, check(&t, 5));
    IS(at, vertex);
    compare(name, wanted, reason);
}
#define REFUTED(reason, at) is_refuted(#reason, reason, t, at)

static void reasons(void) {
    static const struct tree TIES = {{0, 1, 1, 2, 0}, {0, 1, 1, 2, 0}, {0, 1, 1, 3, 0}};
    struct tree t;
    open(FIVE, 5, 7);
    t = RIGHT, t.hops[0] = 1;
    REFUTED(DIFFUSE_REASON_NOT_A_SOURCE_LINE, 1);
    t = RIGHT, t.codes[1] = 4;
    REFUTED(DIFFUSE_REASON_NOT_BEST, 2);
    t = RIGHT, t.codes[3] = 7;
    REFUTED(DIFFUSE_REASON_NO_PARENT, 4);
    t = RIGHT, t.hops[3] = 4;
    REFUTED(DIFFUSE_REASON_OTHER_HOPS, 4);
    t = RIGHT, t.codes[3] = DIFFUSE_UNREACHED, t.hops[3] = 0, t.parents[3] = 0;
    REFUTED(DIFFUSE_REASON_HAS_WALK, 4);
    open(FOUR, 4, 4);
    IS(DIFFUSE_STATUS_WRONG, check(&TIES, 4));
    IS(DIFFUSE_REASON_LESSER_PARENT, reason);
}

/* Memory that is there only when it is read. */
static void *area(size_t bytes) {
    void *at = mmap(NULL, bytes, PROT_READ, MAP_PRIVATE | MAP_ANONYMOUS | MAP_NORESERVE, -1, 0);
    if (at == MAP_FAILED) exit(2);
    return at;
}

/* One more than a limit is refused, and that, a bad arc and a long text even without memory. */
static void limits(void) {
    size_t arcs = (DIFFUSE_MAX_ARCS + 1) * sizeof(struct diffuse_arc), bytes = DIFFUSE_MAX_TEXT + 1;
    struct diffuse_arc *many = (struct diffuse_arc *)area(arcs);
    uint8_t *text = (uint8_t *)area(bytes);
    open(FIVE, DIFFUSE_MAX_VERTICES, 7);
    IS(DIFFUSE_STATUS_DONE, route(DIFFUSE_ALGEBRA_WITHIN, DIFFUSE_MAX_LIMIT, 1, 4, 8));
    IS(DIFFUSE_STATUS_NO_ALGEBRA, route(DIFFUSE_ALGEBRA_WITHIN, DIFFUSE_MAX_LIMIT + 1, 1, 4, 8));
    is_short_of_memory = 1;
    IS(DIFFUSE_STATUS_LIMIT, reweigh(many, DIFFUSE_MAX_ARCS + 1));
    IS(DIFFUSE_STATUS_NO_VERTEX, reweigh(many, 1));
    IS(DIFFUSE_STATUS_MEMORY, reweigh(FIVE, 7));
    diffuse_graph_close(&graph);
    IS(DIFFUSE_STATUS_MEMORY, diffuse_graph_open(5, FIVE, 7, &graph));
    IS(DIFFUSE_STATUS_MEMORY, read("p sp 2 1\na 1 2 3\n"));
    IS(DIFFUSE_STATUS_LIMIT, diffuse_graph_open(DIFFUSE_MAX_VERTICES + 1, FIVE, 7, &graph));
    IS(DIFFUSE_STATUS_LIMIT, diffuse_graph_open(5, many, DIFFUSE_MAX_ARCS + 1, &graph));
    IS(DIFFUSE_STATUS_NO_VERTEX, diffuse_graph_open(5, BAD, 2, &graph));
    line = 7;
    IS(DIFFUSE_STATUS_NO_ROOM, diffuse_graph_read(text, DIFFUSE_MAX_TEXT + 1, &second, &line));
    IS(0, line);
    is_short_of_memory = 0;
    munmap(many, arcs);
    munmap(text, bytes);
}

/* The room behind a route is left as it is, and all of it if there is no route or not the room. */
static void rooms(void) {
    static const struct { uint32_t target, n; int status; uint32_t room[8]; } ROWS[] = {
        {4, 8, DIFFUSE_STATUS_DONE, {1, 3, 2, 4, 7, 7, 7, 7}}, {4, 4, DIFFUSE_STATUS_DONE, {1, 3, 2, 4, 7, 7, 7, 7}},
        {1, 8, DIFFUSE_STATUS_DONE, {1, 7, 7, 7, 7, 7, 7, 7}}, {4, 3, DIFFUSE_STATUS_NO_ROOM, {7, 7, 7, 7, 7, 7, 7, 7}},
        {5, 8, DIFFUSE_STATUS_NO_ROUTE, {7, 7, 7, 7, 7, 7, 7, 7}}, {6, 8, DIFFUSE_STATUS_NO_VERTEX, {7, 7, 7, 7, 7, 7, 7, 7}}};
    open(FIVE, 5, 7);
    for (size_t i = 0; i < sizeof ROWS / sizeof *ROWS; i++) {
        for (int k = 0; k < 8; k++) room[k] = 7;
        IS(ROWS[i].status, route(DIFFUSE_ALGEBRA_SHORTEST, 0, 1, ROWS[i].target, ROWS[i].n));
        IS(0, memcmp(room, ROWS[i].room, sizeof room));
    }
}

/* The arcs that leave a vertex, and the places after them. */
static void arcs_from(void) {
    static const struct diffuse_arc WANTED[] = {{3, 2, 2}, {3, 4, 8}, {7, 7, 7}}, NONE[] = {{7, 7, 7}, {7, 7, 7}, {7, 7, 7}};
    struct diffuse_arc arcs[3];
    size_t count = 7;
    memcpy(arcs, NONE, sizeof arcs);
    diffuse_graph_close(&graph);
    IS(DIFFUSE_STATUS_CLOSED, diffuse_graph_arcs_from(&graph, 3, arcs, 3, &count));
    open(FIVE, 5, 7);
    IS(DIFFUSE_STATUS_NO_VERTEX, diffuse_graph_arcs_from(&graph, 6, arcs, 3, &count));
    IS(7, count);
    IS(DIFFUSE_STATUS_NO_ROOM, diffuse_graph_arcs_from(&graph, 3, arcs, 1, &count));
    IS(2, count);
    IS(0, memcmp(arcs, NONE, sizeof arcs));
    IS(DIFFUSE_STATUS_DONE, diffuse_graph_arcs_from(&graph, 3, arcs, 3, &count));
    IS(2, count);
    IS(0, memcmp(arcs, WANTED, sizeof arcs));
    IS(5, diffuse_graph_vertices(&graph));
    IS(7, diffuse_graph_arcs(&graph));
}

/* What is reached from vertex 1 within a limit, the best first, the places after it, and lists that are too short. */
struct near_places {
    uint64_t codes[5];
    size_t count;
    uint32_t vertices[6], hops[6], parents[6];
};

static enum diffuse_status ask_near(enum diffuse_algebra algebra, uint32_t from, size_t n, struct near_places *p) {
    return diffuse_graph_near(&graph, algebra, 3, &from, 1, p->vertices, n, p->codes, 5, p->hops, 3, p->parents, 5, &p->count);
}

static void near_lists(void) {
    static const struct near_places NONE = {{7, 7, 7, 7, 7}, 7, {7, 7, 7, 7, 7, 7}, {7, 7, 7, 7, 7, 7}, {7, 7, 7, 7, 7, 7}};
    static const struct near_places WANTED = {{0, 1, 3, 7, 7}, 3, {1, 3, 2, 7, 7, 7}, {0, 1, 2, 7, 7, 7}, {0, 1, 3, 7, 7, 7}};
    struct near_places p = NONE;
    diffuse_graph_close(&graph);
    IS(DIFFUSE_STATUS_CLOSED, ask_near(DIFFUSE_ALGEBRA_WITHIN, 1, 5, &p));
    open(FIVE, 5, 7);
    IS(DIFFUSE_STATUS_NO_VERTEX, ask_near((enum diffuse_algebra)6, 6, 5, &p));
    IS(DIFFUSE_STATUS_NO_ALGEBRA, ask_near((enum diffuse_algebra)6, 1, 5, &p));
    IS(7, p.count);
    IS(DIFFUSE_STATUS_NO_ROOM, ask_near(DIFFUSE_ALGEBRA_WITHIN, 1, 2, &p));
    IS(3, p.count);
    p.count = 7;
    IS(0, memcmp(&p, &NONE, sizeof p));
    IS(DIFFUSE_STATUS_DONE, ask_near(DIFFUSE_ALGEBRA_WITHIN, 1, 3, &p));
    IS(0, memcmp(&p, &WANTED, sizeof p));
    p = NONE;
    IS(DIFFUSE_STATUS_DONE, diffuse_graph_near(&graph, DIFFUSE_ALGEBRA_WITHIN, 3, &ONE, 1, NULL, 0, p.codes, 5, NULL, 0, NULL, 0, NULL));
    IS(0, memcmp(p.codes, WANTED.codes, sizeof p.codes));
    IS(DIFFUSE_STATUS_DONE, diffuse_graph_near(&graph, DIFFUSE_ALGEBRA_SHORTEST, 0, NULL, 0, NULL, 0, NULL, 0, NULL, 0, NULL, 0, &p.count));
    IS(0, p.count);
}

/* Parallel arcs of different and of equal weight, a loop, and a vertex that only its own arc joins. */
static const struct diffuse_arc PARALLEL[] = {{1, 2, 5}, {1, 2, 3}, {2, 3, 4}, {1, 2, 3}, {2, 3, 4}, {3, 3, 0}, {2, 3, 2}, {1, 3, 9}, {4, 1, 3}};
static uint32_t numbers[4];

static enum diffuse_status route_arcs(struct diffuse_graph *of, int algebra, uint64_t limit, uint32_t source, uint32_t target, size_t n, size_t m) {
    return diffuse_graph_route_arcs(of, (enum diffuse_algebra)algebra, limit, source, target, &code, &hops, room, n, numbers, m);
}

/* The arcs of routes by a handle that is numbered; 7 stands in the places after them, and in all if none is written. */
static void ask_arcs(struct diffuse_graph *of) {
    static const struct { int algebra; uint32_t source, target, n, m; int status; uint64_t code; uint32_t room[4], numbers[4]; } ROWS[] = {
        {DIFFUSE_ALGEBRA_SHORTEST, 1, 3, 4, 4, DIFFUSE_STATUS_DONE, 5, {1, 2, 3, 7}, {1, 6, 7, 7}},
        {DIFFUSE_ALGEBRA_SHORTEST, 1, 3, 3, 2, DIFFUSE_STATUS_DONE, 5, {1, 2, 3, 7}, {1, 6, 7, 7}},
        {DIFFUSE_ALGEBRA_SHORTEST, 1, 3, 2, 4, DIFFUSE_STATUS_NO_ROOM, 5, {7, 7, 7, 7}, {7, 7, 7, 7}},
        {DIFFUSE_ALGEBRA_SHORTEST, 1, 3, 4, 1, DIFFUSE_STATUS_NO_ROOM, 5, {7, 7, 7, 7}, {7, 7, 7, 7}},
        {DIFFUSE_ALGEBRA_WIDEST, 1, 3, 4, 4, DIFFUSE_STATUS_DONE, 9, {1, 3, 7, 7}, {7, 7, 7, 7}},
        {DIFFUSE_ALGEBRA_WIDEST, 4, 2, 4, 4, DIFFUSE_STATUS_DONE, 3, {4, 1, 2, 7}, {8, 0, 7, 7}},
        {DIFFUSE_ALGEBRA_REACH, 1, 2, 4, 4, DIFFUSE_STATUS_DONE, 0, {1, 2, 7, 7}, {0, 7, 7, 7}},
        {DIFFUSE_ALGEBRA_HOPS, 2, 3, 4, 4, DIFFUSE_STATUS_DONE, 1, {2, 3, 7, 7}, {2, 7, 7, 7}},
        {DIFFUSE_ALGEBRA_RELIABLE, 1, 2, 4, 4, DIFFUSE_STATUS_DONE, 5000000, {1, 2, 7, 7}, {0, 7, 7, 7}},
        {DIFFUSE_ALGEBRA_WITHIN, 1, 2, 4, 4, DIFFUSE_STATUS_DONE, 3, {1, 2, 7, 7}, {1, 7, 7, 7}},
        {DIFFUSE_ALGEBRA_WITHIN, 1, 3, 4, 4, DIFFUSE_STATUS_NO_ROUTE, 77, {7, 7, 7, 7}, {7, 7, 7, 7}},
        {DIFFUSE_ALGEBRA_SHORTEST, 3, 3, 1, 0, DIFFUSE_STATUS_DONE, 0, {3, 7, 7, 7}, {7, 7, 7, 7}},
        {DIFFUSE_ALGEBRA_SHORTEST, 1, 4, 4, 4, DIFFUSE_STATUS_NO_ROUTE, 77, {7, 7, 7, 7}, {7, 7, 7, 7}},
        {DIFFUSE_ALGEBRA_SHORTEST, 1, 5, 4, 4, DIFFUSE_STATUS_NO_VERTEX, 77, {7, 7, 7, 7}, {7, 7, 7, 7}},
        {6, 1, 3, 4, 4, DIFFUSE_STATUS_NO_ALGEBRA, 77, {7, 7, 7, 7}, {7, 7, 7, 7}}};
    for (size_t i = 0; i < sizeof ROWS / sizeof *ROWS; i++) {
        for (int k = 0; k < 4; k++) room[k] = numbers[k] = 7;
        code = 77;
        IS(ROWS[i].status, route_arcs(of, ROWS[i].algebra, 4, ROWS[i].source, ROWS[i].target, ROWS[i].n, ROWS[i].m));
        IS(ROWS[i].code, code);
        IS(0, memcmp(room, ROWS[i].room, sizeof ROWS[i].room));
        IS(0, memcmp(numbers, ROWS[i].numbers, sizeof numbers));
    }
}

/* A graph that is not numbered, or by other arcs, or by its own in another order; and handles of the same graph and of another. */
static void arcs_of_routes(void) {
    static const struct diffuse_arc BY_TAIL[] = {{4, 1, 3}, {3, 3, 0}, {2, 3, 4}, {2, 3, 4}, {2, 3, 2}, {1, 2, 5}, {1, 2, 3}, {1, 2, 3}, {1, 3, 9}};
    static const struct diffuse_arc SWAPPED[] = {{1, 2, 3}, {1, 2, 5}, {2, 3, 4}, {1, 2, 3}, {2, 3, 4}, {3, 3, 0}, {2, 3, 2}, {1, 3, 9}, {4, 1, 3}};
    diffuse_graph_close(&graph);
    IS(DIFFUSE_STATUS_CLOSED, diffuse_graph_number(&graph, PARALLEL, 9));
    IS(DIFFUSE_STATUS_CLOSED, route_arcs(&graph, DIFFUSE_ALGEBRA_SHORTEST, 0, 1, 3, 4, 4));
    open(PARALLEL, 4, 9);
    IS(DIFFUSE_STATUS_NO_NUMBERS, route_arcs(&graph, DIFFUSE_ALGEBRA_SHORTEST, 0, 1, 9, 4, 4));
    is_short_of_memory = 1;
    IS(DIFFUSE_STATUS_MEMORY, diffuse_graph_number(&graph, PARALLEL, 9));
    is_short_of_memory = 0;
    IS(DIFFUSE_STATUS_NO_NUMBERS, route_arcs(&graph, DIFFUSE_ALGEBRA_SHORTEST, 0, 1, 3, 4, 4));
    IS(DIFFUSE_STATUS_DONE, diffuse_graph_number(&graph, PARALLEL, 9));
    for (int i = 0; i < 2; i++) { /* by searches, and then by factors */
        ask_arcs(&graph);
        IS(DIFFUSE_STATUS_DONE, diffuse_graph_share(&graph, &second));
        ask_arcs(&second);
        diffuse_graph_close(&second);
        IS(DIFFUSE_STATUS_DONE, diffuse_graph_factor(&graph, DIFFUSE_ALGEBRA_SHORTEST));
    }
    IS(DIFFUSE_STATUS_DONE, diffuse_graph_reweigh(&graph, PARALLEL, 9, &second));
    IS(DIFFUSE_STATUS_NO_NUMBERS, route_arcs(&second, DIFFUSE_ALGEBRA_SHORTEST, 0, 1, 3, 4, 4));
    diffuse_graph_close(&second);
    IS(DIFFUSE_STATUS_OTHER_ARCS, diffuse_graph_number(&graph, SWAPPED, 9));
    IS(DIFFUSE_STATUS_OTHER_ARCS, diffuse_graph_number(&graph, PARALLEL, 8));
    IS(DIFFUSE_STATUS_OTHER_ARCS, diffuse_graph_number(&graph, BAD, 2));
    IS(DIFFUSE_STATUS_OTHER_ARCS, diffuse_graph_number(&graph, NULL, 0));
    ask_arcs(&graph);
    IS(DIFFUSE_STATUS_DONE, diffuse_graph_number(&graph, BY_TAIL, 9));
    IS(DIFFUSE_STATUS_DONE, diffuse_graph_route_arcs(&graph, DIFFUSE_ALGEBRA_SHORTEST, 0, 1, 3, NULL, NULL, room, 4, numbers, 4));
    IS(6, numbers[0]);
    IS(4, numbers[1]);
}

/* NULL for each single number that is not wanted: the others are written, and the statuses are the same. */
static void unwanted_numbers(void) {
    static const uint8_t BAD_TEXT[] = "p sp 2 1\na 1 3 3\n";
    struct diffuse_arc arcs[2];
    struct tree t = RIGHT;
    open(FIVE, 5, 7);
    code = hops = 77;
    IS(DIFFUSE_STATUS_DONE, diffuse_graph_route(&graph, DIFFUSE_ALGEBRA_SHORTEST, 0, 1, 4, &code, NULL, room, 8));
    IS(8, code);
    IS(DIFFUSE_STATUS_DONE, diffuse_graph_route(&graph, DIFFUSE_ALGEBRA_SHORTEST, 0, 1, 4, NULL, &hops, room, 8));
    IS(3, hops);
    IS(DIFFUSE_STATUS_NO_ROUTE, diffuse_graph_route(&graph, DIFFUSE_ALGEBRA_SHORTEST, 0, 1, 5, NULL, NULL, room, 8));
    IS(DIFFUSE_STATUS_NO_ROOM, diffuse_graph_arcs_from(&graph, 3, arcs, 1, NULL));
    IS(DIFFUSE_STATUS_DONE, diffuse_graph_arcs_from(&graph, 3, arcs, 2, NULL));
    IS(8, arcs[1].weight);
    t.codes[3] = 9;
    vertex = reason = 0;
    for (int i = 0; i < 2; i++)
        IS(DIFFUSE_STATUS_WRONG, diffuse_graph_check(&graph, DIFFUSE_ALGEBRA_SHORTEST, 0, &ONE, 1, t.codes, 5, t.hops, 5, t.parents, 5,
                                                     i ? NULL : &vertex, i ? &reason : NULL));
    IS(4, vertex);
    IS(DIFFUSE_REASON_NOT_BEST, reason);
    IS(DIFFUSE_STATUS_NO_VERTEX, diffuse_graph_read(BAD_TEXT, sizeof BAD_TEXT - 1, &second, NULL));
}

/* NULL for each list of no elements. */
static void empty_lists(void) {
    struct diffuse_graph empty = DIFFUSE_CLOSED;
    struct tree t;
    size_t count = 7;
    IS(DIFFUSE_STATUS_NO_PROBLEM, diffuse_graph_read(NULL, 0, &empty, NULL));
    IS(DIFFUSE_STATUS_DONE, diffuse_graph_open(0, NULL, 0, &empty));
    IS(DIFFUSE_STATUS_DONE, diffuse_graph_tree(&empty, DIFFUSE_ALGEBRA_SHORTEST, 0, NULL, 0, NULL, 0, NULL, 0, NULL, 0));
    IS(DIFFUSE_STATUS_DONE, diffuse_graph_check(&empty, DIFFUSE_ALGEBRA_SHORTEST, 0, NULL, 0, NULL, 0, NULL, 0, NULL, 0, NULL, NULL));
    IS(DIFFUSE_STATUS_DONE, diffuse_graph_table(&empty, DIFFUSE_ALGEBRA_SHORTEST, 0, NULL, 0, NULL, 0, NULL, 0));
    diffuse_graph_close(&empty);
    open(FIVE, 5, 7);
    code = hops = 77;
    IS(DIFFUSE_STATUS_NO_ROOM, diffuse_graph_route(&graph, DIFFUSE_ALGEBRA_SHORTEST, 0, 1, 4, &code, &hops, NULL, 0));
    IS(8, code);
    IS(3, hops);
    IS(DIFFUSE_STATUS_NO_ROOM, diffuse_graph_arcs_from(&graph, 3, NULL, 0, &count));
    IS(2, count);
    IS(DIFFUSE_STATUS_DONE, diffuse_graph_tree(&graph, DIFFUSE_ALGEBRA_SHORTEST, 0, NULL, 0, t.codes, 5, t.hops, 5, t.parents, 5));
    IS(DIFFUSE_UNREACHED, t.codes[0]);
    IS(DIFFUSE_STATUS_DONE, diffuse_graph_table(&graph, DIFFUSE_ALGEBRA_SHORTEST, 0, NULL, 0, &ONE, 1, NULL, 0));
    IS(DIFFUSE_STATUS_DONE, diffuse_graph_table(&graph, DIFFUSE_ALGEBRA_SHORTEST, 0, &ONE, 1, NULL, 0, NULL, 0));
    IS(DIFFUSE_STATUS_NO_ROOM, diffuse_graph_check(&graph, DIFFUSE_ALGEBRA_SHORTEST, 0, &ONE, 1, NULL, 0, NULL, 0, NULL, 0, NULL, NULL));
}

/* The lists of a tree that are wanted are as ever: each alone, and each two. */
static void unwanted_lists(void) {
    open(FIVE, 5, 7);
    for (int wanted = 0; wanted < 8; wanted++) {
        struct tree t;
        memset(&t, 7, sizeof t);
        IS(DIFFUSE_STATUS_DONE, diffuse_graph_tree(&graph, DIFFUSE_ALGEBRA_SHORTEST, 0, &ONE, 1,
                                                   wanted & 1 ? t.codes : NULL, wanted & 1 ? 5 : 0,
                                                   wanted & 2 ? t.hops : NULL, wanted & 2 ? 5 : 0,
                                                   wanted & 4 ? t.parents : NULL, wanted & 4 ? 5 : 0));
        IS((wanted & 1) != 0, memcmp(t.codes, RIGHT.codes, sizeof t.codes) == 0);
        IS((wanted & 2) != 0, memcmp(t.hops, RIGHT.hops, sizeof t.hops) == 0);
        IS((wanted & 4) != 0, memcmp(t.parents, RIGHT.parents, sizeof t.parents) == 0);
    }
}

/* A chain of LONG vertices, whose searches take more steps than lie between two looks at a stop. */
enum { LONG = 200000 };
static struct diffuse_arc *chain;
static uint64_t *codes_of;
static uint32_t *room_of;

static void open_chain(void) {
    chain = (struct diffuse_arc *)malloc((LONG - 1) * sizeof *chain);
    codes_of = (uint64_t *)malloc(LONG * sizeof *codes_of);
    room_of = (uint32_t *)malloc(LONG * sizeof *room_of);
    for (uint32_t v = 1; v < LONG; v++) chain[v - 1].tail = v, chain[v - 1].head = v + 1, chain[v - 1].weight = 1;
    open(chain, LONG, LONG - 1);
}

/* What a route, a tree, what is near and a table of the chain return, by an algebra; nothing is written unless they are done. */
static void ask_chain(struct diffuse_graph *of, enum diffuse_algebra by, enum diffuse_status wanted) {
    static const uint32_t LAST = LONG;
    size_t count = 7;
    codes_of[LONG - 1] = code = hops = room_of[0] = 77;
    /* from another vertex, since a search that has come past its target goes on to answer */
    IS(wanted, diffuse_graph_route(of, by, 0, wanted == DIFFUSE_STATUS_DONE ? 1 : 2, LONG, &code, &hops, room_of, LONG));
    IS(wanted == DIFFUSE_STATUS_DONE ? LONG - 1 : 77, hops);
    IS(wanted == DIFFUSE_STATUS_DONE ? 1 : 77, room_of[0]);
    IS(wanted == DIFFUSE_STATUS_DONE, code != 77);
    IS(wanted, diffuse_graph_tree(of, by, 0, &ONE, 1, codes_of, LONG, NULL, 0, NULL, 0));
    IS(wanted == DIFFUSE_STATUS_DONE, codes_of[LONG - 1] != 77);
    codes_of[LONG - 1] = 77;
    IS(wanted, diffuse_graph_near(of, by, 0, &ONE, 1, NULL, 0, codes_of, LONG, NULL, 0, NULL, 0, &count));
    IS(wanted == DIFFUSE_STATUS_DONE ? LONG : 7, count);
    IS(wanted == DIFFUSE_STATUS_DONE, codes_of[LONG - 1] != 77);
    code = 77;
    IS(wanted, diffuse_graph_table(of, by, 0, &ONE, 1, &LAST, 1, &code, 1));
    IS(wanted == DIFFUSE_STATUS_DONE, code != 77);
}

static struct diffuse_stop stop = DIFFUSE_CLOSED;

/* Of two stops the one that a handle was given last stops it, and the other does not. */
static void two_stops(void) {
    struct diffuse_stop other = DIFFUSE_CLOSED;
    IS(DIFFUSE_STATUS_DONE, diffuse_stop_new(&other));
    IS(DIFFUSE_STATUS_DONE, diffuse_graph_stop_by(&graph, &stop));
    IS(DIFFUSE_STATUS_DONE, diffuse_graph_stop_by(&graph, &other));
    IS(DIFFUSE_STATUS_DONE, diffuse_stop_set(&stop));
    ask_chain(&graph, DIFFUSE_ALGEBRA_SHORTEST, DIFFUSE_STATUS_DONE);
    IS(DIFFUSE_STATUS_DONE, diffuse_stop_set(&other));
    IS(DIFFUSE_STATUS_DONE, diffuse_stop_clear(&stop));
    ask_chain(&graph, DIFFUSE_ALGEBRA_SHORTEST, DIFFUSE_STATUS_STOPPED);
    IS(DIFFUSE_STATUS_DONE, diffuse_graph_stop_by(&graph, &stop));
    ask_chain(&graph, DIFFUSE_ALGEBRA_SHORTEST, DIFFUSE_STATUS_DONE);
    diffuse_stop_free(&other);
}

/* Asks for trees until one is stopped, on a thread of its own. */
static void *ask_until_stopped(void *found) {
    enum diffuse_status status = DIFFUSE_STATUS_DONE;
    for (int i = 0; i < 100000 && status == DIFFUSE_STATUS_DONE; i++)
        status = diffuse_graph_tree(&graph, DIFFUSE_ALGEBRA_SHORTEST, 0, &ONE, 1, codes_of, LONG, NULL, 0, NULL, 0);
    *(enum diffuse_status *)found = status;
    return NULL;
}

static void set_by_signal(int number) {
    (void)number;
    diffuse_stop_set(&stop);
}

/* A call that runs ends once the stop is set: by this thread, or by the handler of a signal in the thread that asks. */
static void stop_a_call(int by_signal) {
    enum diffuse_status found = DIFFUSE_STATUS_DONE;
    pthread_t thread;
    IS(DIFFUSE_STATUS_DONE, diffuse_stop_clear(&stop));
    IS(0, pthread_create(&thread, NULL, ask_until_stopped, &found));
    if (by_signal) IS(0, pthread_kill(thread, SIGUSR1));
    else IS(DIFFUSE_STATUS_DONE, diffuse_stop_set(&stop));
    pthread_join(thread, NULL);
    IS(DIFFUSE_STATUS_STOPPED, found);
}

/* What the calls return that check, number, factor and reweigh. */
static void work_on_five(enum diffuse_status wanted) {
    static const uint32_t PLACES[] = {2, 0, 4, 1, 3};
    vertex = reason = 77;
    IS(wanted, check(&RIGHT, 5));
    IS(77, vertex + reason - 77);
    IS(wanted, diffuse_graph_number(&graph, FIVE, 7));
    IS(wanted, diffuse_graph_factor(&graph, DIFFUSE_ALGEBRA_SHORTEST));
    IS(wanted, factor_by(DIFFUSE_ALGEBRA_HOPS, PLACES, 5));
    IS(wanted, factor_by(DIFFUSE_ALGEBRA_SHORTEST, PLACES, 5));
    diffuse_graph_close(&second);
    IS(wanted, reweigh(FIVE, 7));
    IS(wanted == DIFFUSE_STATUS_DONE, second.is_open);
}

/* A set stop ends each of these, which leaves the handle as it was: it has no numbers, and then those that it had; and answers. */
static void stopped_works(void) {
    uint32_t arcs[4] = {77, 77, 77, 77};
    enum diffuse_status numbered = DIFFUSE_STATUS_NO_NUMBERS;
    open(FIVE, 5, 7);
    for (int turn = 0; turn < 2; turn++) {
        IS(DIFFUSE_STATUS_DONE, diffuse_graph_stop_by(&graph, &stop));
        IS(DIFFUSE_STATUS_DONE, diffuse_stop_set(&stop));
        work_on_five(DIFFUSE_STATUS_STOPPED);
        IS(DIFFUSE_STATUS_NO_ALGEBRA, diffuse_graph_factor(&graph, (enum diffuse_algebra)6));
        IS(DIFFUSE_STATUS_NO_FACTORS, diffuse_graph_factor(&graph, DIFFUSE_ALGEBRA_WIDEST));
        IS(DIFFUSE_STATUS_NO_ROOM, check(&RIGHT, 4));
        IS(DIFFUSE_STATUS_NO_VERTEX, reweigh(BAD, 2));
        IS(DIFFUSE_STATUS_DONE, diffuse_stop_clear(&stop));
        IS(numbered, diffuse_graph_route_arcs(&graph, DIFFUSE_ALGEBRA_SHORTEST, 0, 1, 4, &code, &hops, room, 8, arcs, 4));
        tables();
        work_on_five(DIFFUSE_STATUS_DONE);
        tables();
        numbered = DIFFUSE_STATUS_DONE;
        open(FIVE, 5, 7);
        IS(DIFFUSE_STATUS_DONE, diffuse_graph_number(&graph, FIVE, 7));
    }
    diffuse_graph_close(&graph);
}

static void stops(void) {
    struct diffuse_stop none = DIFFUSE_CLOSED;
    diffuse_graph_close(&graph);
    IS(DIFFUSE_STATUS_CLOSED, diffuse_stop_set(&stop));
    IS(DIFFUSE_STATUS_CLOSED, diffuse_stop_clear(&stop));
    is_short_of_memory = 1;
    IS(DIFFUSE_STATUS_MEMORY, diffuse_stop_new(&stop));
    is_short_of_memory = 0;
    IS(DIFFUSE_STATUS_DONE, diffuse_stop_new(&stop));
    IS(DIFFUSE_STATUS_OPEN, diffuse_stop_new(&stop));
    IS(DIFFUSE_STATUS_CLOSED, diffuse_graph_stop_by(&graph, &stop));
    stopped_works();
    open_chain();
    IS(DIFFUSE_STATUS_DONE, diffuse_graph_stop_by(&graph, &stop));
    for (int by = 0; by < 4; by++) {
        ask_chain(&graph, (enum diffuse_algebra)by, DIFFUSE_STATUS_DONE);
        IS(DIFFUSE_STATUS_DONE, diffuse_stop_set(&stop));
        ask_chain(&graph, (enum diffuse_algebra)by, DIFFUSE_STATUS_STOPPED);
        IS(DIFFUSE_STATUS_DONE, diffuse_stop_clear(&stop));
    }
    IS(DIFFUSE_STATUS_DONE, diffuse_stop_set(&stop));
    code = 77; /* a near route is found before the stop is looked at */
    IS(DIFFUSE_STATUS_DONE, diffuse_graph_route(&graph, DIFFUSE_ALGEBRA_SHORTEST, 0, 1, 4, &code, &hops, room, 8));
    IS(3, code);
    IS(DIFFUSE_STATUS_NO_VERTEX, diffuse_graph_route(&graph, DIFFUSE_ALGEBRA_SHORTEST, 0, 0, 4, &code, &hops, room, 8));
    diffuse_graph_close(&second);
    IS(DIFFUSE_STATUS_DONE, diffuse_graph_share(&graph, &second));
    ask_chain(&second, DIFFUSE_ALGEBRA_SHORTEST, DIFFUSE_STATUS_DONE);
    IS(DIFFUSE_STATUS_DONE, diffuse_graph_stop_by(&graph, &none));
    ask_chain(&graph, DIFFUSE_ALGEBRA_SHORTEST, DIFFUSE_STATUS_DONE);
    two_stops();
    IS(DIFFUSE_STATUS_DONE, diffuse_graph_stop_by(&graph, &stop));
    stop_a_call(0);
    signal(SIGUSR1, set_by_signal);
    stop_a_call(1);
    IS(DIFFUSE_STATUS_STOPPED, diffuse_graph_factor(&graph, DIFFUSE_ALGEBRA_SHORTEST));
    IS(DIFFUSE_STATUS_DONE, diffuse_stop_clear(&stop));
    IS(DIFFUSE_STATUS_DONE, diffuse_graph_factor(&graph, DIFFUSE_ALGEBRA_SHORTEST));
    IS(DIFFUSE_STATUS_DONE, diffuse_stop_set(&stop));
    IS(DIFFUSE_STATUS_STOPPED, diffuse_graph_tree(&graph, DIFFUSE_ALGEBRA_SHORTEST, 0, &ONE, 1, codes_of, LONG, NULL, 0, NULL, 0));
    IS(DIFFUSE_STATUS_DONE, diffuse_graph_tree(&graph, DIFFUSE_ALGEBRA_WITHIN, 9, &ONE, 1, codes_of, LONG, NULL, 0, NULL, 0));
    IS(9, codes_of[9]);
    IS(DIFFUSE_UNREACHED, codes_of[10]);
    diffuse_stop_free(&stop);
    diffuse_stop_free(&stop);
    IS(DIFFUSE_STATUS_STOPPED, diffuse_graph_tree(&graph, DIFFUSE_ALGEBRA_SHORTEST, 0, &ONE, 1, codes_of, LONG, NULL, 0, NULL, 0));
    diffuse_graph_close(&second);
    diffuse_graph_close(&graph);
    free(chain), free(codes_of), free(room_of);
}

/* Each status and each reason has a text of its own. */
static void texts(void) {
    int statuses = 0, reasons = 0;
    for (int i = 0; i < 256; i++) {
        statuses += strcmp(diffuse_status_text(i), diffuse_status_text(-1)) != 0;
        reasons += strcmp(diffuse_reason_text((uint32_t)i), diffuse_reason_text(0)) != 0;
        for (int k = 0; k < i; k++) {
            if (strcmp(diffuse_status_text(i), diffuse_status_text(k)) == 0) IS(0, strcmp(diffuse_status_text(i), diffuse_status_text(-1)));
            if (strcmp(diffuse_reason_text((uint32_t)i), diffuse_reason_text((uint32_t)k)) == 0)
                IS(0, strcmp(diffuse_reason_text((uint32_t)i), diffuse_reason_text(0)));
        }
    }
    IS(26, statuses);
    IS(6, reasons);
}

static void *all(void *nothing) {
    statuses();
    faults();
    algebras();
    reasons();
    rooms();
    arcs_from();
    near_lists();
    arcs_of_routes();
    unwanted_numbers();
    empty_lists();
    unwanted_lists();
    factors();
    factors_by_an_order();
    factors_once();
    reweighs();
    stops();
    texts();
    IS(DIFFUSE_VERSION, diffuse_version());
    diffuse_graph_close(&graph);
    graph = diffuse_graph_closed();
    return nothing;
}

/* All calls on a thread whose whole stack is what the header says. */
static void stack(void) {
    pthread_attr_t attributes;
    pthread_t thread;
    pthread_attr_init(&attributes);
    IS(0, pthread_attr_setstacksize(&attributes, DIFFUSE_STACK));
    IS(0, pthread_create(&thread, &attributes, all, NULL));
    pthread_join(thread, NULL);
}

int main(int count, char **words) {
    if (count == 2 && strcmp(words[1], "stack") == 0) stack();
    else all(NULL), limits();
    return wrong;
}
