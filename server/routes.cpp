// Routes, through places between if there are any.
#include "answers.hpp"

namespace {

// A route as it is found, leg by leg.
struct Found {
    uint64_t value = 0, hops = 0;
    std::vector<uint32_t> vertices;
    std::string legs;

    void add(uint64_t leg_value, uint32_t leg_hops, const std::vector<uint32_t> &room) {
        value += leg_value, hops += leg_hops;
        auto begin = room.begin() + !vertices.empty();
        vertices.insert(vertices.end(), begin, room.begin() + leg_hops + 1);
        Object leg;
        legs += (legs.empty() ? "" : ", ")
                + leg.number("value", leg_value).number("hops", leg_hops).end();
    }
};

// The ends of a route, and what lies between them, in their order.
std::vector<End> stops_of(const Asked &asked, const Algebra &algebra) {
    std::vector<End> stops{asked.end_of("source", "from")};
    if (asked.fields.find("via") || asked.fields.find("stops")) {
        if (!is_sum(algebra) && algebra.number != DIFFUSE_ALGEBRA_HOPS)
            throw refusal(400, "via: only for shortest, within and hops");
        auto between = asked.ends_of("stops", "via");
        stops.insert(stops.end(), between.begin(), between.end());
    }
    stops.push_back(asked.end_of("target", "to"));
    return stops;
}

// False if there is no route: between two stops, or within the limit in all.
bool find(Asker &asker, Algebra algebra, const std::vector<End> &stops, Found &found) {
    for (size_t i = 1; i < stops.size(); i++) {
        uint64_t value = 0;
        uint32_t hops = 0;
        if (!asker.find(algebra, stops[i - 1].vertex, stops[i].vertex, value, hops)) return false;
        found.add(value, hops, asker.room);
        // Only `within` has a limit.
        algebra.limit -= std::min(algebra.limit, value);
    }
    return true;
}

// A street that a route follows, with the values of all its arcs.
struct Street {
    std::string name;
    uint64_t value = 0, sum = 0, hops = 0;

    std::string shown(const Roads &roads) const {
        Object object;
        object.text("street", name).number("value", value).number("hops", hops);
        if (roads.also) object.number(roads.also->name, sum);
        return object.end();
    }
};

// The steps of a route, by street.
std::string steps(Asker &asker, const std::vector<uint32_t> &route) {
    const Roads &roads = *asker.roads;
    std::vector<Street> streets;
    for (size_t i = 1; i < route.size(); i++) {
        uint32_t tail = route[i - 1];
        size_t arc = arc_of_step(asker, tail, route[i]);
        auto &name = roads.streets->name(tail, arc);
        if (streets.empty() || streets.back().name != name) streets.push_back({name});
        auto &street = streets.back();
        street.value += asker.arcs[arc].weight;
        street.hops++;
        if (roads.also) street.sum += roads.also->weight(tail, arc);
    }
    std::string out;
    for (auto &street : streets) out += (out.empty() ? "" : ", ") + street.shown(roads);
    return "[" + out + "]";
}

bool has_steps(const Asked &asked, const Algebra &algebra) {
    if (!asked.is_wanted("steps")) return false;
    if (!asked.roads.streets) throw refusal(400, "steps: this server has no names of streets");
    if (!is_sum(algebra)) throw refusal(400, "steps: only for shortest and within");
    return true;
}

// A route that was found, with what else is known of it.
void put_found(Object &reply, Asker &asker, const Found &found, Geometry geometry) {
    auto &route = found.vertices;
    std::string list;
    put(list, route);
    reply.raw("route", list);
    if (geometry == Geometry::geojson)
        reply.raw("geometry", asker.roads->places->geojson(route.data(), route.size()));
    if (geometry == Geometry::polyline)
        reply.raw("geometry", asker.roads->places->polyline(route.data(), route.size()));
}

}  // namespace

std::string route(Asker &asker, const Asked &asked) {
    asked.fields.allow({"source", "target", "from", "to", "stops", "via", "algebra", "limit",
        "geometry", "steps"});
    auto algebra = algebra_of(asked.fields);
    auto geometry = geometry_of(asked.fields, asked.roads);
    bool with_steps = has_steps(asked, algebra);
    auto stops = stops_of(asked, algebra);
    Found found;
    Object reply;
    bool is_found = find(asker, algebra, stops, found);
    reply.number("source", stops.front().vertex).number("target", stops.back().vertex);
    if (is_found) {
        reply.number("value", found.value).number("hops", found.hops);
        put_found(reply, asker, found, geometry);
        auto &route = found.vertices;
        if (asked.roads.also && is_sum(algebra))
            reply.number(asked.roads.also->name, sum_along(asker, route.data(), route.size()));
        if (stops.size() > 2) reply.raw("legs", "[" + found.legs + "]");
        if (with_steps) reply.raw("steps", steps(asker, route));
    } else reply.raw("value", "null").raw("hops", "null").raw("route", "null");
    put_snaps(reply, stops);
    return reply.end() + "\n";
}
