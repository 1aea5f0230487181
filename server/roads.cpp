#include "roads.hpp"
#include "refused.hpp"

namespace {

Handle graph_of(const std::string &text, const std::string &path) {
    Handle graph;
    uint64_t line = 0;
    auto status = diffuse_graph_read(
        reinterpret_cast<const uint8_t *>(text.data()), text.size(), graph.at(), &line);
    if (status == DIFFUSE_STATUS_MEMORY) throw BadFile(path + ": out of memory");
    if (status != DIFFUSE_STATUS_DONE)
        throw BadFile(path + ": line " + std::to_string(line) + ": " + diffuse_status_text(status));
    return graph;
}

// All arcs, by their tails.
std::vector<diffuse_arc> all_arcs(Handle &graph) {
    std::vector<diffuse_arc> all, some;
    all.reserve(diffuse_graph_arcs(graph.at()));
    for (uint32_t tail = 1; tail <= diffuse_graph_vertices(graph.at()); tail++) {
        size_t count = arcs_from(graph, tail, some);
        all.insert(all.end(), some.begin(), some.begin() + ptrdiff_t(count));
    }
    return all;
}

}  // namespace

std::shared_ptr<Roads> Roads::read(const Options &options, Roads *before) {
    auto roads = std::make_shared<Roads>();
    std::string text = read_file(options.graph, roads->origin);
    roads->first = graph_of(text, options.graph);
    roads->unit = options.unit;
    roads->vertices = diffuse_graph_vertices(roads->first.at());
    if (!roads->vertices) throw BadFile(options.graph + ": the graph has no vertex");
    roads->arcs = diffuse_graph_arcs(roads->first.at());
    if (!options.names.empty())
        roads->streets = std::make_unique<Streets>(options.names, text, roads->vertices);
    text = {};
    if (!options.also.empty()) roads->read_also(options.also_name, options.also);
    if (!options.places.empty()) roads->read_places(options.places);
    roads->is_reweighed = before && roads->reweigh(*before);
    if (options.factors && !roads->is_reweighed) roads->factor();
    for (unsigned i = 0; i < options.handles; i++) roads->shares.push_back(roads->share());
    return roads;
}

void Roads::read_places(const std::string &path) {
    places = std::make_unique<Places>(path, vertices);
    auto network = network_of(first);
    auto found = parts_of(network);
    largest_part = found.largest;
    // If no part is large, no place is worse than another.
    if (!found.has_large()) found.is_in.assign(vertices, true);
    places->find_among(found.is_in);
    drawing = std::make_unique<Drawing>(network, *places);
}

bool Roads::reweigh(Roads &before) {
    if (!before.is_factored || before.vertices != vertices) return false;
    auto list = all_arcs(first);
    Handle factored = before.take(), second;
    auto status = diffuse_graph_reweigh(factored.at(), list.data(), list.size(), second.at());
    if (status == DIFFUSE_STATUS_MEMORY) throw std::bad_alloc();
    if (status != DIFFUSE_STATUS_DONE) return false;
    first = std::move(second);
    return is_factored = true;
}

void Roads::factor() {
    auto status = diffuse_graph_factor(first.at(), DIFFUSE_ALGEBRA_SHORTEST);
    if (status == DIFFUSE_STATUS_MEMORY) throw BadFile(origin.file + ": out of memory for factors");
    is_factored = status == DIFFUSE_STATUS_DONE;
    if (!is_factored) not_factored = diffuse_status_text(status);
}

void Roads::read_also(const std::string &name, const std::string &path) {
    also = std::make_unique<Also>();
    also->name = name;
    Handle second = graph_of(read_file(path, also->origin), path);
    if (diffuse_graph_vertices(second.at()) != vertices || diffuse_graph_arcs(second.at()) != arcs)
        throw BadFile(path + ": another number of vertices or arcs than " + origin.file);
    also->weights.reserve(arcs);
    std::vector<diffuse_arc> ours, theirs;
    for (uint32_t tail = 1; tail <= vertices; tail++) {
        size_t count = arcs_from(first, tail, ours);
        bool same = arcs_from(second, tail, theirs) == count;
        for (size_t i = 0; same && i < count; i++) same = ours[i].head == theirs[i].head;
        if (!same)
            throw BadFile(path + ": other arcs, or in another order, than " + origin.file
                          + " from vertex " + std::to_string(tail));
        also->first.push_back(also->weights.size());
        for (size_t i = 0; i < count; i++) also->weights.push_back(theirs[i].weight);
    }
}

Handle Roads::take_from(std::vector<Handle> &handles) {
    std::lock_guard<std::mutex> held(lock);
    if (handles.empty()) return share();
    auto taken = std::move(handles.back());
    handles.pop_back();
    return taken;
}

Handle Roads::take() { return take_from(shares); }

Handle Roads::take_for_tree() { return take_from(for_trees); }

void Roads::give_back(Handle for_tree) noexcept try {
    std::lock_guard<std::mutex> held(lock);
    for_trees.push_back(std::move(for_tree));
} catch (const std::bad_alloc &) {
}

void Roads::free_idle() {
    std::lock_guard<std::mutex> held(lock);
    for_trees.clear();
}

Handle Roads::share() {
    Handle second;
    if (diffuse_graph_share(first.at(), second.at()) != DIFFUSE_STATUS_DONE) throw std::bad_alloc();
    return second;
}

std::string Roads::parts_text() {
    auto found = parts_of(network_of(first));
    return std::to_string(vertices) + " vertices, " + std::to_string(found.count)
        + " parts in which each reaches each; the largest has " + std::to_string(found.largest)
        + "\n";
}

std::string Roads::health() const {
    Object object, graph = origin.shown();
    graph.raw("factors", is_factored ? "true" : "false");
    object.text("status", "ok")
        .number("vertices", vertices)
        .number("arcs", arcs)
        .raw("graph", graph.end());
    if (places) object.raw("places", places->shown().end()).number("largest_part", largest_part);
    if (streets) object.raw("names", streets->origin.shown().end());
    if (also) object.text("also", also->name).raw(also->name, also->origin.shown().end());
    if (!unit.empty()) object.text("unit", unit);
    return object.end() + "\n";
}
