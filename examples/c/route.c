/* The shortest route from 1 to 4 over five vertices, from a graph that is factored first. */
#include <diffuse.h>
#include <inttypes.h>
#include <stdio.h>

static int fail(const char *call, enum diffuse_status status) {
    fprintf(stderr, "%s: %s\n", call, diffuse_status_text(status));
    return 1;
}

int main(void) {
    const struct diffuse_arc arcs[] = {{1, 2, 4}, {1, 3, 1}, {3, 2, 2}, {2, 4, 5}, {3, 4, 8}, {4, 4, 0}, {5, 1, 3}};
    struct diffuse_graph graph = DIFFUSE_CLOSED;
    uint64_t length;
    uint32_t hops, route[5]; /* a route has at most as many vertices as the graph */
    enum diffuse_status status = diffuse_graph_open(5, arcs, 7, &graph);
    if (status != DIFFUSE_STATUS_DONE) return fail("open", status);
    status = diffuse_graph_factor(&graph, DIFFUSE_ALGEBRA_SHORTEST);
    if (status != DIFFUSE_STATUS_DONE) fail("factor", status); /* then calls search */
    status = diffuse_graph_route(&graph, DIFFUSE_ALGEBRA_SHORTEST, 0, 1, 4, &length, &hops, route, 5);
    if (status == DIFFUSE_STATUS_DONE) {
        printf("%" PRIu64 " by", length);
        for (uint32_t i = 0; i <= hops; i++) printf(" %" PRIu32, route[i]);
        printf("\n");
    } else fail("route", status);
    diffuse_graph_close(&graph);
    return status != DIFFUSE_STATUS_DONE;
}
