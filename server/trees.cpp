// What is within a limit: as lines of a tree, as points, or as the hull of them.
#include "answers.hpp"
#include <numeric>

namespace {

constexpr size_t LONGEST_TREE = 100000;

enum class Format { lines, geojson, hull };

Format format_of(const Asked &asked) {
    auto *value = asked.fields.find("format");
    if (!value) return Format::lines;
    if (!asked.roads.places) throw refusal(400, "format: this server has no coordinates");
    if (value->text == "geojson") return Format::geojson;
    if (value->text == "hull") return Format::hull;
    throw refusal(400, "format: " + value->shown() + " is not 'geojson' or 'hull'");
}

// A handle for the time of a tree, with the asker's stop.
struct Lent {
    Roads &roads;
    Handle handle;

    explicit Lent(Asker &asker) : roads(*asker.roads), handle(roads.take_for_tree()) {
        check(diffuse_graph_stop_by(handle.at(), asker.stop.at()));
    }
    ~Lent() { roads.give_back(std::move(handle)); }
};

// Finds what is within a limit; gives how many lines there are.
size_t find(Asker &asker, uint64_t limit, const std::vector<uint32_t> &sources) {
    Lent lent(asker);
    Lines &lines = asker.lines;
    size_t n = std::min<size_t>(LONGEST_TREE, asker.roads->vertices), count = 0;
    lines.resize(n);
    auto status = diffuse_graph_near(lent.handle.at(), DIFFUSE_ALGEBRA_WITHIN, limit,
        sources.data(), sources.size(), lines.vertices.data(), n, lines.codes.data(), n,
        lines.hops.data(), n, lines.parents.data(), n, &count);
    if (status == DIFFUSE_STATUS_NO_ROOM)
        throw refusal(400, std::to_string(count) + " vertices are within this limit, more than "
                               + std::to_string(LONGEST_TREE));
    check(status);
    return count;
}

std::string line_of(const Lines &lines, size_t i) {
    std::string out = "[";
    put(out, lines.vertices[i]);
    put(out += ", ", lines.codes[i]);
    put(out += ", ", lines.hops[i]);
    put(out += ", ", lines.parents[i]);
    return out + "]";
}

std::string feature_of(const std::string &geometry, Object &properties) {
    return "{\"type\": \"Feature\", \"geometry\": " + geometry
           + ", \"properties\": " + properties.end() + "}";
}

std::string point_of(const Lines &lines, size_t i, const Places &places) {
    Object properties;
    properties.number("vertex", lines.vertices[i]).number("value", lines.codes[i]);
    properties.number("hops", lines.hops[i]).number("parent", lines.parents[i]);
    return feature_of(places.point(lines.vertices[i]), properties);
}

// What was found, in the order of its vertices.
template <class Show> std::string in_order(const Lines &lines, size_t count, const Show &show) {
    std::vector<size_t> order(count);
    std::iota(order.begin(), order.end(), 0);
    std::sort(order.begin(), order.end(),
        [&](size_t a, size_t b) { return lines.vertices[a] < lines.vertices[b]; });
    std::string out;
    for (auto i : order) (out += out.empty() ? "" : ", ") += show(i);
    return "[" + out + "]";
}

}  // namespace

std::string tree(Asker &asker, const Asked &asked) {
    asked.fields.allow({"sources", "from", "limit", "format"});
    auto format = format_of(asked);
    auto ends = asked.ends_of("sources", "from");
    auto sources = vertices_of(ends);
    uint64_t limit = limit_of(&asked.fields.need("limit"));
    const Lines &lines = asker.lines;
    size_t count = find(asker, limit, sources);
    const Places *places = asked.roads.places.get();
    if (format == Format::geojson)
        return "{\"type\": \"FeatureCollection\", \"features\": "
               + in_order(lines, count, [&](size_t i) { return point_of(lines, i, *places); })
               + "}\n";
    Object reply;
    if (format == Format::hull) {
        reply.number("limit", limit).number("vertices", count);
        return feature_of(places->hull(lines.vertices.data(), count), reply) + "\n";
    }
    std::string list;
    put(list, sources);
    reply.raw("sources", list).number("limit", limit);
    reply.raw("vertices", in_order(lines, count, [&](size_t i) { return line_of(lines, i); }));
    put_snaps(reply, ends);
    return reply.end() + "\n";
}
