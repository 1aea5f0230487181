"""The five vertices: a route, a tree, a check of it, and a table by factors."""
from diffuse import Graph, NoRoute, WrongTree

ARCS = [(1, 2, 4), (1, 3, 1), (3, 2, 2), (2, 4, 5), (3, 4, 8), (4, 4, 0), (5, 1, 3)]


def print_route(graph, source, target):
    try:
        route = graph.route(source, target)
        print(f"from {source} to {target}: {route.value} by", *route.vertices)
    except NoRoute:
        print(f"from {source} to {target}: no route")


def print_check(graph, tree):
    try:
        graph.check(tree)
        print("right")
    except WrongTree as wrong:
        print(f"wrong at {wrong.vertex} by reason {int(wrong.reason)}")


with Graph(5, ARCS) as graph:
    print_route(graph, 1, 4)
    print_route(graph, 1, 5)
    tree = graph.tree(1)
    for vertex, row in enumerate(zip(tree.values, tree.hops, tree.parents), 1):
        print(f"{vertex}:", *(row if tree.reaches(vertex) else ["unreached"]))
    print_check(graph, tree)
    tree.values[3] = 9
    print_check(graph, tree)
    graph.factor()
    for source, row in zip([1, 5], graph.table([1, 5], [2, 4])):
        print(f"from {source} to 2 and 4:", *row)
