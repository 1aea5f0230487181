/* The five vertices: a route, a tree, a check of it, and a table by factors. */
#include <diffuse.h>
#include <inttypes.h>
#include <stdio.h>

static void print_route(struct diffuse_graph *graph, uint32_t source, uint32_t target) {
    uint64_t code;
    uint32_t hops, route[5];
    int32_t status = diffuse_graph_route(graph, DIFFUSE_ALGEBRA_SHORTEST, 0, source, target, &code, &hops, route, 5);
    printf("from %" PRIu32 " to %" PRIu32 ": ", source, target);
    if (status == DIFFUSE_STATUS_DONE) {
        printf("%" PRIu64 " by", code);
        for (uint32_t i = 0; i <= hops; i++) printf(" %" PRIu32, route[i]);
        printf("\n");
    } else printf("%s\n", diffuse_status_text(status));
}

static void print_check(struct diffuse_graph *graph, uint32_t source, uint64_t *codes, uint32_t *hops, uint32_t *parents) {
    uint32_t v, why;
    int32_t status = diffuse_graph_check(graph, DIFFUSE_ALGEBRA_SHORTEST, 0, &source, 1, codes, 5, hops, 5, parents, 5, &v, &why);
    if (status == DIFFUSE_STATUS_WRONG) printf("wrong at %" PRIu32 " by reason %" PRIu32 "\n", v, why);
    else printf("%s\n", status == DIFFUSE_STATUS_DONE ? "right" : diffuse_status_text(status));
}

static void print_table(struct diffuse_graph *graph) {
    const uint32_t sources[] = {1, 5}, targets[] = {2, 4};
    uint64_t codes[4];
    int32_t status = diffuse_graph_factor(graph, DIFFUSE_ALGEBRA_SHORTEST);
    if (status == DIFFUSE_STATUS_DONE)
        status = diffuse_graph_table(graph, DIFFUSE_ALGEBRA_SHORTEST, 0, sources, 2, targets, 2, codes, 4);
    if (status != DIFFUSE_STATUS_DONE) printf("%s\n", diffuse_status_text(status));
    else for (int i = 0; i < 2; i++)
        printf("from %" PRIu32 " to 2 and 4: %" PRIu64 " %" PRIu64 "\n", sources[i], codes[2 * i], codes[2 * i + 1]);
}

int main(void) {
    const struct diffuse_arc arcs[] = {{1, 2, 4}, {1, 3, 1}, {3, 2, 2}, {2, 4, 5}, {3, 4, 8}, {4, 4, 0}, {5, 1, 3}};
    const uint32_t source = 1;
    uint64_t codes[5];
    uint32_t hops[5], parents[5];
    struct diffuse_graph graph = DIFFUSE_CLOSED;
    if (diffuse_graph_open(5, arcs, 7, &graph) != DIFFUSE_STATUS_DONE) return 1;
    print_route(&graph, 1, 4);
    print_route(&graph, 1, 5);
    if (diffuse_graph_tree(&graph, DIFFUSE_ALGEBRA_SHORTEST, 0, &source, 1, codes, 5, hops, 5, parents, 5) != DIFFUSE_STATUS_DONE) return 1;
    for (int i = 0; i < 5; i++) {
        if (codes[i] == DIFFUSE_UNREACHED) printf("%d: unreached\n", i + 1);
        else printf("%d: %" PRIu64 " %" PRIu32 " %" PRIu32 "\n", i + 1, codes[i], hops[i], parents[i]);
    }
    print_check(&graph, source, codes, hops, parents);
    codes[3] = 9;
    print_check(&graph, source, codes, hops, parents);
    print_table(&graph);
    diffuse_graph_close(&graph);
    return 0;
}
