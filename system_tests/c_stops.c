/* A stop that is set while one call runs, which would take about a second: the call ends within 0.2 s of processor time; a widest
   tree, of which many vertices wait, and what takes less, a tree by factors and the factoring of a square, within 0.05 s. Link with
   -pthread.
   c_library beside this file says what it must print. */
#define _GNU_SOURCE
#include <diffuse.h>
#include <pthread.h>
#include <stdio.h>
#include <stdlib.h>
#include <time.h>

/* A graph whose search takes its time, since its arcs lead anywhere; all but the last vertex are nearer than the last. */
enum { MANY = 1200000, ROWS = 3000000, SIDE = 200, PLACES = SIDE * SIDE, EACH = 1500, TRIES = 5 };
static const double BEGUN = 0.1, LATE = 0.2, SWEPT = 0.02, SOON = 0.05, BUILT = 0.6;
static struct diffuse_graph wide = DIFFUSE_CLOSED, grid = DIFFUSE_CLOSED, reweighed = DIFFUSE_CLOSED, chain = DIFFUSE_CLOSED;
static struct diffuse_stop stop = DIFFUSE_CLOSED;
static uint32_t *numbers, *sources, few[EACH];
static uint64_t *codes;
static struct diffuse_arc *street;
static size_t street_arcs;

static void expect(enum diffuse_status status, const char *what) {
    if (status == DIFFUSE_STATUS_DONE) return;
    printf("%s: %s\n", what, diffuse_status_text(status));
    exit(1);
}

static void *list_of(size_t n, size_t size) {
    void *list = calloc(n, size);
    if (list == NULL) exit(2);
    return list;
}

/* Opens a graph for all threads, with its arcs by head made already. */
static void open_graph(struct diffuse_graph *graph, uint32_t n, const struct diffuse_arc *arcs, size_t m) {
    struct diffuse_graph second = DIFFUSE_CLOSED;
    expect(diffuse_graph_open(n, arcs, m, graph), "open");
    expect(diffuse_graph_share(graph, &second), "share");
    diffuse_graph_close(&second);
    expect(diffuse_graph_stop_by(graph, &stop), "stop_by");
}

static void open_wide(void) {
    struct diffuse_arc *arcs = (struct diffuse_arc *)list_of((size_t)4 * MANY, sizeof *arcs);
    size_t m = 0;
    uint64_t any = 1;
    for (uint32_t v = 1; v < MANY; v++) {
        for (int i = 0; i < 3; i++) {
            any = any * UINT64_C(6364136223846793005) + UINT64_C(1442695040888963407);
            arcs[m++] = (struct diffuse_arc){v, (uint32_t)(1 + (any >> 33) % (MANY - 1)), (uint32_t)(1 + (any >> 20) % 1000)};
        }
        arcs[m++] = (struct diffuse_arc){v, v + 1, v + 1 == MANY ? UINT32_MAX : 1000};
    }
    open_graph(&wide, MANY, arcs, m);
    free(arcs);
}

/* A square of streets that lead both ways, factored; and with one weight for all. */
static void open_grid(void) {
    static struct diffuse_arc arcs[4 * PLACES];
    size_t m = 0;
    for (uint32_t v = 1; v <= PLACES; v++) {
        uint32_t next[] = {v % SIDE ? v + 1 : v, v + SIDE <= PLACES ? v + SIDE : v};
        for (int i = 0; i < 2; i++) {
            if (next[i] == v) continue;
            arcs[m++] = (struct diffuse_arc){v, next[i], v * 31 % 997 + 1};
            arcs[m++] = (struct diffuse_arc){next[i], v, v * 37 % 997 + 1};
        }
    }
    open_graph(&grid, PLACES, arcs, m);
    expect(diffuse_graph_factor(&grid, DIFFUSE_ALGEBRA_SHORTEST), "factor");
    for (size_t i = 0; i < m; i++) arcs[i].weight = 7;
    expect(diffuse_graph_reweigh(&grid, arcs, m, &reweighed), "reweigh");
    expect(diffuse_graph_stop_by(&reweighed, &stop), "stop_by");
}

/* One street that leads both ways, factored: it has few links, but a tree of it is swept over all places. */
static void open_chain(void) {
    street = (struct diffuse_arc *)list_of((size_t)2 * ROWS, sizeof *street);
    for (uint32_t v = 1; v < ROWS; v++) {
        street[street_arcs++] = (struct diffuse_arc){v, v + 1, 7};
        street[street_arcs++] = (struct diffuse_arc){v + 1, v, 7};
    }
    open_graph(&chain, ROWS, street, street_arcs);
    expect(diffuse_graph_factor(&chain, DIFFUSE_ALGEBRA_SHORTEST), "factor");
}

static const uint32_t ONE = 1, LAST = MANY, NEXT = 2;

static enum diffuse_status route(enum diffuse_algebra by) {
    uint64_t code;
    uint32_t hops;
    return diffuse_graph_route(&wide, by, DIFFUSE_MAX_LIMIT, 1, MANY, &code, &hops, numbers, MANY);
}
static enum diffuse_status tree(enum diffuse_algebra by) {
    return diffuse_graph_tree(&wide, by, DIFFUSE_MAX_LIMIT, &ONE, 1, codes, MANY, numbers, MANY, NULL, 0);
}
static enum diffuse_status near(enum diffuse_algebra by) {
    size_t count;
    return diffuse_graph_near(&wide, by, DIFFUSE_MAX_LIMIT, &ONE, 1, numbers, MANY, codes, MANY, NULL, 0, NULL, 0, &count);
}
/* A row takes a search of all vertices, or of a few. */
static enum diffuse_status far_table(enum diffuse_algebra by) {
    return diffuse_graph_table(&wide, by, DIFFUSE_MAX_LIMIT, sources, 3, &LAST, 1, codes, 3);
}
static enum diffuse_status near_table(enum diffuse_algebra by) {
    return diffuse_graph_table(&wide, by, DIFFUSE_MAX_LIMIT, sources, ROWS, &NEXT, 1, codes, ROWS);
}
static enum diffuse_status factored_table(enum diffuse_algebra by) {
    return diffuse_graph_table(&grid, by, DIFFUSE_MAX_LIMIT, few, EACH, few, EACH, codes, (size_t)EACH * EACH);
}
static enum diffuse_status reweighed_table(enum diffuse_algebra by) {
    return diffuse_graph_table(&reweighed, by, DIFFUSE_MAX_LIMIT, few, EACH, few, EACH, codes, (size_t)EACH * EACH);
}

static enum diffuse_status factored_tree(enum diffuse_algebra by) {
    return diffuse_graph_tree(&chain, by, DIFFUSE_MAX_LIMIT, &ONE, 1, codes, ROWS, NULL, 0, NULL, 0);
}

static enum diffuse_status factor_chain(enum diffuse_algebra by) { return diffuse_graph_factor(&chain, by); }
static enum diffuse_status factor_grid(enum diffuse_algebra by) { return diffuse_graph_factor(&grid, by); }
static enum diffuse_status reweigh(enum diffuse_algebra by) {
    struct diffuse_graph second = DIFFUSE_CLOSED;
    enum diffuse_status status = diffuse_graph_reweigh(&chain, street, street_arcs, &second);
    (void)by;
    diffuse_graph_close(&second);
    return status;
}

/* A call, how long it has run when the stop is set, and how long it may run on; then when it ended and how. */
struct asked {
    const char *name;
    enum diffuse_status (*call)(enum diffuse_algebra);
    enum diffuse_algebra by;
    double begun, late;
    double ended;
    enum diffuse_status status;
};

static double seconds_of(clockid_t clock) {
    struct timespec at = {0, 0};
    return clock_gettime(clock, &at) == 0 ? (double)at.tv_sec + (double)at.tv_nsec * 1e-9 : -1;
}

static void *ask(void *at) {
    struct asked *it = (struct asked *)at;
    it->status = it->call(it->by);
    it->ended = seconds_of(CLOCK_THREAD_CPUTIME_ID);
    return NULL;
}

/* How long the call runs on after the stop is set, when it has run for a while. */
static double run_on(struct asked *it) {
    static const struct timespec TURN = {0, 1000000};
    pthread_t thread;
    clockid_t clock;
    double before = 0, after;
    expect(diffuse_stop_clear(&stop), "clear");
    if (pthread_create(&thread, NULL, ask, it) != 0 || pthread_getcpuclockid(thread, &clock) != 0) exit(2);
    while (before >= 0 && before < it->begun) {
        nanosleep(&TURN, NULL);
        before = seconds_of(clock);
    }
    expect(diffuse_stop_set(&stop), "set");
    after = seconds_of(clock);
    pthread_join(thread, NULL);
    return it->ended - (after > before ? after : before);
}

/* Whether some try ends with STOPPED, and soon: on a busy machine a call may run on, or be done, before its stop is set. */
static int is_stopped(struct asked *it) {
    double late = 0;
    for (int left = TRIES; left > 0; left--) {
        late = run_on(it);
        if (it->status != DIFFUSE_STATUS_STOPPED && it->status != DIFFUSE_STATUS_DONE) break;
        if (it->status == DIFFUSE_STATUS_STOPPED && late <= it->late) return 1;
    }
    printf("%s: %s after %.3f s, %.3f s after the stop was set\n", it->name, diffuse_status_text(it->status), it->ended, late);
    return 0;
}

int main(void) {
    struct asked each[] = {{"route", route, DIFFUSE_ALGEBRA_SHORTEST, BEGUN, LATE, 0, DIFFUSE_STATUS_NONE},
                           {"route within", route, DIFFUSE_ALGEBRA_WITHIN, BEGUN, LATE, 0, DIFFUSE_STATUS_NONE},
                           {"tree", tree, DIFFUSE_ALGEBRA_SHORTEST, BEGUN, LATE, 0, DIFFUSE_STATUS_NONE},
                           {"widest tree", tree, DIFFUSE_ALGEBRA_WIDEST, BEGUN, SOON, 0, DIFFUSE_STATUS_NONE},
                           {"near", near, DIFFUSE_ALGEBRA_SHORTEST, BEGUN, LATE, 0, DIFFUSE_STATUS_NONE},
                           {"table by searches", far_table, DIFFUSE_ALGEBRA_SHORTEST, BEGUN, LATE, 0, DIFFUSE_STATUS_NONE},
                           {"table of near targets", near_table, DIFFUSE_ALGEBRA_SHORTEST, BEGUN, LATE, 0, DIFFUSE_STATUS_NONE},
                           {"table of near targets by hops", near_table, DIFFUSE_ALGEBRA_HOPS, BEGUN, LATE, 0, DIFFUSE_STATUS_NONE},
                           {"table by factors", factored_table, DIFFUSE_ALGEBRA_SHORTEST, BEGUN, LATE, 0, DIFFUSE_STATUS_NONE},
                           {"table by factors of a reweighed graph", reweighed_table, DIFFUSE_ALGEBRA_WITHIN, BEGUN, LATE, 0, DIFFUSE_STATUS_NONE},
                           {"tree by factors", factored_tree, DIFFUSE_ALGEBRA_SHORTEST, SWEPT, SOON, 0, DIFFUSE_STATUS_NONE},
                           {"factor", factor_chain, DIFFUSE_ALGEBRA_HOPS, BEGUN, LATE, 0, DIFFUSE_STATUS_NONE},
                           {"factor a square", factor_grid, DIFFUSE_ALGEBRA_HOPS, SWEPT, SOON, 0, DIFFUSE_STATUS_NONE},
                           {"reweigh", reweigh, DIFFUSE_ALGEBRA_SHORTEST, BUILT, LATE, 0, DIFFUSE_STATUS_NONE}};
    numbers = (uint32_t *)list_of(MANY, sizeof *numbers);
    sources = (uint32_t *)list_of(ROWS, sizeof *sources);
    codes = (uint64_t *)list_of(ROWS, sizeof *codes);
    for (uint32_t i = 0; i < ROWS; i++) sources[i] = i % 2 ? 1 : 2;
    for (uint32_t i = 0; i < EACH; i++) few[i] = 1 + i * 26;
    expect(diffuse_stop_new(&stop), "new");
    open_wide();
    open_grid();
    open_chain();
    for (size_t i = 0; i < sizeof each / sizeof *each; i++) printf("%s: %s\n", each[i].name, is_stopped(&each[i]) ? "stopped" : "wrong");
    diffuse_graph_close(&wide);
    diffuse_graph_close(&grid);
    diffuse_graph_close(&reweighed);
    diffuse_graph_close(&chain);
    diffuse_stop_free(&stop);
    free(numbers), free(sources), free(codes), free(street);
    return 0;
}
