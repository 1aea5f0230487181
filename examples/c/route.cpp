// The shortest route from 1 to 4 over five vertices, and what is within 5 of 1, from a graph that is factored first.
#include <diffuse.hpp>
#include <iostream>

int main() try {
    diffuse::graph graph(5, {{1, 2, 4}, {1, 3, 1}, {3, 2, 2}, {2, 4, 5}, {3, 4, 8}, {4, 4, 0}, {5, 1, 3}});
    graph.factor();  // a graph that can't be factored is searched
    const auto route = graph.route(1, 4);
    std::cout << route.code << " by";
    for (auto vertex : route.vertices) std::cout << ' ' << vertex;
    std::cout << '\n';
    const auto near = graph.near({1}, diffuse::within(5));
    for (std::size_t i = 0; i < near.vertices.size(); i++)
        std::cout << near.vertices[i] << " at " << near.codes[i] << '\n';
} catch (const diffuse::error &refused) {
    std::cerr << refused.what() << '\n';
    return 1;
}
