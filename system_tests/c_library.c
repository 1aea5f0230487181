/* What other languages' callers cannot show: threads on one graph, refused memory, and graphs that are opened and closed.

   Link with -Wl,--wrap=malloc,--wrap=realloc and -pthread. c_library beside this file says what each must print. */
#include <diffuse.h>
#include <malloc.h>
#include <pthread.h>
#include <stdio.h>
#include <stdlib.h>
#include <string.h>
#include <time.h>

static const struct diffuse_arc ARCS[] = {{1, 2, 4}, {1, 3, 1}, {3, 2, 2}, {2, 4, 5}, {3, 4, 8}, {4, 4, 0}, {5, 1, 3}};
static const char TEXT[] = "p sp 5 7\na 1 2 4\na 1 3 1\na 3 2 2\na 2 4 5\na 3 4 8\na 4 4 0\na 5 1 3\n";

/* Growths of memory until one is refused; below 0 none is. */
static long growths_left = -1;
static int was_refused;

void *__real_malloc(size_t);
void *__real_realloc(void *, size_t);

static int refused(void) {
    if (growths_left < 0 || growths_left-- > 0) return 0;
    return was_refused = 1;
}

void *__wrap_malloc(size_t n) { return refused() ? NULL : __real_malloc(n); }
void *__wrap_realloc(void *p, size_t n) { return refused() ? NULL : __real_realloc(p, n); }

/* All that calls write to. */
struct places {
    struct diffuse_graph graph, second;
    uint64_t line, code, codes[5], table[4];
    size_t count;
    uint32_t length, route[5], steps[5], hops[5], parents[5], vertex, reason;
};

static const uint32_t SOURCE = 1, SOURCES[] = {1, 5}, TARGETS[] = {4, 1};

/* A ROUTE_AFTER or NEAR_AFTER is asked of a handle that keeps the searcher of another algebra, and a ROUTE_ON of one that keeps a searcher
   by its own, from another source. From BY_FACTORS on the calls are made after the graph was factored. */
enum call { OPEN, READ, SHARE, ROUTE, ROUTE_AFTER, ROUTE_ON, TREE, NEAR, NEAR_AFTER, CHECK, TABLE, NUMBER, SHARE_NUMBERS, ROUTE_ARCS, FACTOR, BY_FACTORS,
            SHARE_FACTORS = BY_FACTORS, ROUTE_BY, TREE_BY, TABLE_BY, REWEIGH, CALLS };
static const char *const NAMES[] = {"open", "read", "share", "route", "route after another algebra", "route from another source",
                                    "tree", "near", "near after another algebra", "check", "table", "number", "share of numbers", "route of arcs", "factor", "share of factors", "route by factors", "tree by factors",
                                    "table by factors", "reweigh"};

/* A route before that of a call, to places of its own. */
static int32_t route_before(enum diffuse_algebra algebra, uint32_t source, struct places *p) {
    uint64_t code;
    uint32_t hops, room[5];
    return diffuse_graph_route(&p->graph, algebra, 0, source, 4, &code, &hops, room, 5);
}

/* What is reached from 1, or what is near by another algebra before that. */
static int32_t near_by(enum diffuse_algebra algebra, struct places *p) {
    return diffuse_graph_near(&p->graph, algebra, 0, &SOURCE, 1, p->route, 5, p->codes, 5, p->hops, 5, p->parents, 5, &p->count);
}

static int is_route(enum call call) { return call == ROUTE || call == ROUTE_AFTER || call == ROUTE_ON || call == ROUTE_ARCS || call == ROUTE_BY; }

/* Whether a route that was asked is that from 1 to 4, and what is near its vertices. */
static int is_right(enum call call, const struct places *p) {
    static const uint32_t WANTED[] = {1, 3, 2, 4}, STEPS[] = {1, 2, 3};
    if (call == ROUTE_ARCS && memcmp(p->steps, STEPS, sizeof STEPS) != 0) return 0;
    if (call == NEAR || call == NEAR_AFTER) return p->count == 4 && p->codes[3] == 8 && memcmp(p->route, WANTED, sizeof WANTED) == 0;
    return !is_route(call) || (p->code == 8 && p->length == 3 && memcmp(p->route, WANTED, sizeof WANTED) == 0);
}

static int32_t make(enum call call, struct places *p) {
    switch (call) {
    case OPEN: return diffuse_graph_open(5, ARCS, 7, &p->graph);
    case READ: return diffuse_graph_read((const uint8_t *)TEXT, sizeof TEXT - 1, &p->graph, &p->line);
    case SHARE: case SHARE_NUMBERS: case SHARE_FACTORS: return diffuse_graph_share(&p->graph, &p->second);
    case ROUTE: case ROUTE_AFTER: case ROUTE_ON: case ROUTE_BY:
        return diffuse_graph_route(&p->graph, DIFFUSE_ALGEBRA_SHORTEST, 0, 1, 4, &p->code, &p->length, p->route, 5);
    case TREE: case TREE_BY: return diffuse_graph_tree(&p->graph, DIFFUSE_ALGEBRA_SHORTEST, 0, &SOURCE, 1, p->codes, 5, p->hops, 5,
                                         p->parents, 5);
    case NEAR: case NEAR_AFTER: return near_by(DIFFUSE_ALGEBRA_SHORTEST, p);
    case TABLE: case TABLE_BY: return diffuse_graph_table(&p->graph, DIFFUSE_ALGEBRA_SHORTEST, 0, SOURCES, 2, TARGETS, 2, p->table, 4);
    case NUMBER: return diffuse_graph_number(&p->graph, ARCS, 7);
    case ROUTE_ARCS:
        return diffuse_graph_route_arcs(&p->graph, DIFFUSE_ALGEBRA_SHORTEST, 0, 1, 4, &p->code, &p->length, p->route, 5, p->steps, 5);
    case FACTOR: return diffuse_graph_factor(&p->graph, DIFFUSE_ALGEBRA_SHORTEST);
    case REWEIGH: return diffuse_graph_reweigh(&p->graph, ARCS, 6, &p->second);
    default: return diffuse_graph_check(&p->graph, DIFFUSE_ALGEBRA_SHORTEST, 0, &SOURCE, 1, p->codes, 5, p->hops, 5,
                                        p->parents, 5, &p->vertex, &p->reason);
    }
}

/* Places as they are before a call: with an open graph unless the call opens it, factored if the call is by factors, and with a
   tree if one is checked. */
static int begin(enum call call, struct places *p) {
    *p = (struct places){.graph = DIFFUSE_CLOSED, .second = DIFFUSE_CLOSED, .line = 7, .code = 7, .count = 7, .length = 7, .vertex = 7};
    if (call > READ && make(OPEN, p) != DIFFUSE_STATUS_DONE) return 0;
    if (call == ROUTE_AFTER && route_before(DIFFUSE_ALGEBRA_WIDEST, 1, p) != DIFFUSE_STATUS_DONE) return 0;
    if (call == ROUTE_ON && route_before(DIFFUSE_ALGEBRA_SHORTEST, 5, p) != DIFFUSE_STATUS_DONE) return 0;
    if (call == NEAR_AFTER && near_by(DIFFUSE_ALGEBRA_WIDEST, p) != DIFFUSE_STATUS_DONE) return 0;
    if ((call == SHARE_NUMBERS || call == ROUTE_ARCS) && make(NUMBER, p) != DIFFUSE_STATUS_DONE) return 0;
    if (call >= BY_FACTORS && make(FACTOR, p) != DIFFUSE_STATUS_DONE) return 0;
    return call != CHECK || make(TREE, p) == DIFFUSE_STATUS_DONE;
}

static void end(struct places *p) {
    diffuse_graph_close(&p->graph);
    diffuse_graph_close(&p->second);
}

/* Whether a call left handles and places as they were. */
static int is_same(const struct places *p, const struct places *before) {
    return p->graph.at == before->graph.at && p->graph.is_open == before->graph.is_open
        && p->second.at == before->second.at && p->second.is_open == before->second.is_open
        && memcmp(&p->line, &before->line, sizeof *p - offsetof(struct places, line)) == 0;
}

/* Refuses the first growth of memory of a call, then the second and so on, until a call meets no refusal. A refused call must
   leave all as it was, and the same call must succeed afterwards, a route be right. The result is how many growths there are, or -1. */
static long refuse(enum call call) {
    for (long n = 0;; n++) {
        struct places p, before;
        if (!begin(call, &p)) return -1;
        before = p;
        was_refused = 0;
        growths_left = n;
        int32_t status = make(call, &p);
        growths_left = -1;
        if (status == DIFFUSE_STATUS_MEMORY) {
            if (!was_refused || !is_same(&p, &before)) return -1;
            status = make(call, &p);
        }
        if (status != DIFFUSE_STATUS_DONE || !is_right(call, &p)) return -1;
        end(&p);
        if (!was_refused) return n;
    }
}

static int refusals(void) {
    int wrong = 0;
    for (int call = OPEN; call < CALLS; call++) {
        long growths = refuse(call);
        printf("%s %s\n", NAMES[call], growths > 0 ? "refused" : "wrong");
        wrong |= growths <= 0;
    }
    return wrong;
}

/* Each answer of a thread that has a graph of its own handle. */
static void *ask(void *at) {
    struct places p = {.graph = *(struct diffuse_graph *)at, .second = DIFFUSE_CLOSED};
    long right = 0;
    for (int i = 0; i < 1000; i++) {
        int done = make(ROUTE, &p) == DIFFUSE_STATUS_DONE && make(ROUTE_ARCS, &p) == DIFFUSE_STATUS_DONE && is_right(ROUTE_ARCS, &p) && make(NEAR, &p) == DIFFUSE_STATUS_DONE && make(TREE, &p) == DIFFUSE_STATUS_DONE
            && make(CHECK, &p) == DIFFUSE_STATUS_DONE && make(TABLE, &p) == DIFFUSE_STATUS_DONE && (i % 100 || make(REWEIGH, &p) == DIFFUSE_STATUS_DONE);
        diffuse_graph_close(&p.second);
        right += done && p.code == 8 && p.length == 3 && p.codes[1] == 3 && p.parents[3] == 2 && p.table[2] == 11;
    }
    end(&p);
    return (void *)right;
}

/* Four threads, of which two have a handle that was opened before the graph was factored, and two one that was opened after. */
static int threads(void) {
    struct diffuse_graph graph = DIFFUSE_CLOSED, each[4] = {DIFFUSE_CLOSED, DIFFUSE_CLOSED, DIFFUSE_CLOSED, DIFFUSE_CLOSED};
    pthread_t started[4];
    void *right;
    if (diffuse_graph_open(5, ARCS, 7, &graph) != DIFFUSE_STATUS_DONE || diffuse_graph_number(&graph, ARCS, 7) != DIFFUSE_STATUS_DONE) return 1;
    for (int i = 0; i < 4; i++) {
        if (i == 2 && diffuse_graph_factor(&graph, DIFFUSE_ALGEBRA_SHORTEST) != DIFFUSE_STATUS_DONE) return 1;
        if (diffuse_graph_share(&graph, &each[i]) != DIFFUSE_STATUS_DONE) return 1;
        if (pthread_create(&started[i], NULL, ask, &each[i]) != 0) return 1;
    }
    diffuse_graph_close(&graph); /* the threads keep the graph */
    for (int i = 0; i < 4; i++) {
        pthread_join(started[i], &right);
        printf("%ld\n", (long)right);
    }
    return 0;
}

/* Opens and closes so many graphs, and reports how many bytes more are in use at the end than after the first hundred. */
static int opens(long count) {
    size_t first = 0, in_use = 0;
    for (long i = 0; i < count; i++) {
        struct places p;
        if (!begin(i % 2 ? READ : CHECK, &p)) return 1;
        if (i % 2 && make(READ, &p) != DIFFUSE_STATUS_DONE) return 1;
        if (i % 3 == 0 && make(FACTOR, &p) != DIFFUSE_STATUS_DONE) return 1;
        if (i % 3 == 0 && make(REWEIGH, &p) != DIFFUSE_STATUS_DONE) return 1;
        if (i % 5 == 0 && (make(NUMBER, &p) != DIFFUSE_STATUS_DONE || make(ROUTE_ARCS, &p) != DIFFUSE_STATUS_DONE)) return 1;
        diffuse_graph_close(&p.second);
        if (make(SHARE, &p) != DIFFUSE_STATUS_DONE || route_before(DIFFUSE_ALGEBRA_WIDEST, 1, &p) != DIFFUSE_STATUS_DONE) return 1;
        if (make(ROUTE, &p) != DIFFUSE_STATUS_DONE || !is_right(ROUTE, &p)) return 1;
        end(&p);
        in_use = mallinfo2().uordblks;
        if (i == 99) first = in_use;
    }
    printf("%zu bytes more\n", in_use - first);
    return 0;
}

enum { SIDE = 150, PLACES = SIDE * SIDE };
static struct diffuse_arc square[4 * PLACES];
static size_t n_square;

/* A square of streets that lead both ways, with weights from 1 to 1000. */
static int open_square(struct diffuse_graph *graph) {
    uint32_t weight = 1;
    n_square = 0;
    for (uint32_t v = 1; v <= PLACES; v++) {
        uint32_t next[] = {v % SIDE ? v + 1 : v, v + SIDE <= PLACES ? v + SIDE : v};
        for (int i = 0; i < 2; i++) {
            if (next[i] == v) continue;
            weight = weight * 31 % 997 + 1;
            square[n_square++] = (struct diffuse_arc){v, next[i], weight};
            square[n_square++] = (struct diffuse_arc){next[i], v, weight};
        }
    }
    return diffuse_graph_open(PLACES, square, n_square, graph);
}

/* The sum of the codes and of the vertices of routes from the middle of each row to a place so many further on; 0 if a call fails. */
static uint64_t routes_on(struct diffuse_graph *graph, uint32_t further) {
    static uint32_t room[PLACES];
    uint64_t sum = 0, code;
    for (uint32_t row = 0; row < SIDE; row++) {
        uint32_t source = row * SIDE + SIDE / 2, target = (source + further) % PLACES + 1, hops;
        if (diffuse_graph_route(graph, DIFFUSE_ALGEBRA_SHORTEST, 0, source, target, &code, &hops, room, PLACES) != DIFFUSE_STATUS_DONE) return 0;
        sum += code;
        for (uint32_t i = 0; i <= hops; i++) sum = sum * 31 + room[i];
    }
    return sum;
}

/* The processor time that work on a graph takes. */
typedef void work_on(struct diffuse_graph *);
static clock_t time_of(work_on *work, struct diffuse_graph *graph) {
    clock_t before = clock();
    work(graph);
    return clock() - before;
}

/* How much of the time by searches work by factors may take, in hundredths. What is near took 190 times as long for routes, and 8
   for trees, without a search first. By factors that are used a far route takes a seventh, a tree 0.55 and a table a twentieth. */
enum { NEARLY_AS_LONG = 500, ROUTE_BY_FACTORS = 50, TREE_BY_FACTORS = 80, TABLE_BY_FACTORS = 30 };

/* Reports work that takes too long by factors, by the least times of 30 runs. The two take turns, so that what else the machine
   does slows both alike; the first run makes lists. */
static void compare_times(const char *name, work_on *work, struct diffuse_graph *searched, struct diffuse_graph *factored, clock_t most) {
    clock_t by_search = 0, by_factors = 0;
    for (int run = 0; run <= 30; run++) {
        clock_t search = time_of(work, searched), substitution = time_of(work, factored);
        if (run <= 1 || search < by_search) by_search = search;
        if (run <= 1 || substitution < by_factors) by_factors = substitution;
    }
    if (100 * by_factors > most * by_search) printf("slower %s: %ld clocks, and %ld by searches\n", name, (long)by_factors, (long)by_search);
}

static void near_routes(struct diffuse_graph *graph) { routes_on(graph, 2); }

/* A tree within a limit. */
struct lists {
    uint64_t codes[PLACES];
    uint32_t hops[PLACES], parents[PLACES];
};
static struct lists by_search_lists, by_factors_lists;

static void tree_within(struct diffuse_graph *graph, uint64_t limit, struct lists *l) {
    static const uint32_t MIDDLE = PLACES / 2;
    memset(l, 7, sizeof *l);
    if (diffuse_graph_tree(graph, DIFFUSE_ALGEBRA_WITHIN, limit, &MIDDLE, 1, l->codes, PLACES, l->hops, PLACES, l->parents, PLACES) != DIFFUSE_STATUS_DONE)
        printf("no tree within %lu\n", (unsigned long)limit);
}

static void ten_small_trees(struct diffuse_graph *graph) {
    for (int i = 0; i < 10; i++) tree_within(graph, 2000, &by_search_lists);
}

/* Trees by factors are those by searches, small and large, and small ones take hardly longer. */
static void small_trees(struct diffuse_graph *searched, struct diffuse_graph *factored) {
    static const uint64_t LIMITS[] = {0, 1, 100, 500, 1000, 2000, 4000, 8000, 16000, 1000000000};
    for (size_t i = 0; i < sizeof LIMITS / sizeof *LIMITS; i++) {
        tree_within(searched, LIMITS[i], &by_search_lists);
        tree_within(factored, LIMITS[i], &by_factors_lists);
        if (memcmp(&by_search_lists, &by_factors_lists, sizeof by_search_lists) != 0) printf("another tree within %lu\n", (unsigned long)LIMITS[i]);
    }
    compare_times("trees", ten_small_trees, searched, factored, NEARLY_AS_LONG);
}

static enum diffuse_algebra far_by;

/* From another source each time, since a search goes on from the last one. */
static void far_route(struct diffuse_graph *graph) {
    static uint32_t room[PLACES], source;
    uint64_t code;
    uint32_t hops;
    source = source % SIDE + 1;
    if (diffuse_graph_route(graph, far_by, 0, source, PLACES, &code, &hops, room, PLACES) != DIFFUSE_STATUS_DONE) printf("no far route\n");
}

static void whole_tree(struct diffuse_graph *graph) {
    struct lists *l = &by_search_lists;
    if (diffuse_graph_tree(graph, far_by, 0, &SOURCE, 1, l->codes, PLACES, l->hops, PLACES, l->parents, PLACES) != DIFFUSE_STATUS_DONE) printf("no tree\n");
}

static void far_table(struct diffuse_graph *graph) {
    static const uint32_t FROM[] = {1, PLACES}, TO[] = {PLACES, PLACES / 2 + 7};
    uint64_t codes[4];
    if (diffuse_graph_table(graph, far_by, 0, FROM, 2, TO, 2, codes, 4) != DIFFUSE_STATUS_DONE) printf("no table\n");
}

/* Factors are used for far routes, whole trees and tables, by each factoring, and after a graph was reweighed. */
static enum diffuse_status far_answers(struct diffuse_graph *searched, struct diffuse_graph *factored) {
    struct diffuse_graph other = DIFFUSE_CLOSED;
    enum diffuse_status status = diffuse_graph_factor(factored, DIFFUSE_ALGEBRA_HOPS);
    if (status == DIFFUSE_STATUS_DONE) status = diffuse_graph_reweigh(factored, square, n_square, &other);
    for (int i = 0; i < 4 && status == DIFFUSE_STATUS_DONE; i++) {
        struct diffuse_graph *graph = i < 2 ? factored : &other;
        far_by = i % 2 ? DIFFUSE_ALGEBRA_HOPS : DIFFUSE_ALGEBRA_SHORTEST;
        compare_times(i < 2 ? "far routes" : "far routes of a reweighed graph", far_route, searched, graph, ROUTE_BY_FACTORS);
        compare_times(i < 2 ? "whole trees" : "whole trees of a reweighed graph", whole_tree, searched, graph, TREE_BY_FACTORS);
        compare_times(i < 2 ? "tables" : "tables of a reweighed graph", far_table, searched, graph, TABLE_BY_FACTORS);
    }
    diffuse_graph_close(&other);
    return status;
}

/* Routes by factors are those by searches, near and far, and near ones take hardly longer. */
static int near(void) {
    struct diffuse_graph searched = DIFFUSE_CLOSED, factored = DIFFUSE_CLOSED;
    if (open_square(&searched) != DIFFUSE_STATUS_DONE || open_square(&factored) != DIFFUSE_STATUS_DONE) return 1;
    if (diffuse_graph_factor(&factored, DIFFUSE_ALGEBRA_SHORTEST) != DIFFUSE_STATUS_DONE) return 1;
    for (uint32_t further = 1; further < PLACES; further = further * 5 + 1) {
        uint64_t sum = routes_on(&searched, further);
        if (sum == 0 || sum != routes_on(&factored, further)) printf("other routes, %u places on\n", further);
    }
    compare_times("routes", near_routes, &searched, &factored, NEARLY_AS_LONG);
    small_trees(&searched, &factored);
    if (far_answers(&searched, &factored) != DIFFUSE_STATUS_DONE) return 1;
    printf("near\n");
    diffuse_graph_close(&searched);
    diffuse_graph_close(&factored);
    return 0;
}

int main(int count, char **words) {
    if (count == 2 && strcmp(words[1], "refusals") == 0) return refusals();
    if (count == 2 && strcmp(words[1], "threads") == 0) return threads();
    if (count == 3 && strcmp(words[1], "opens") == 0) return opens(atol(words[2]));
    if (count == 2 && strcmp(words[1], "near") == 0) return near();
    fprintf(stderr, "usage: c_library refusals | threads | opens COUNT | near\n");
    return 2;
}
