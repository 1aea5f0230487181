#include "asked.hpp"
#include "refused.hpp"
#include <cmath>

namespace {

using Kind = Value::Kind;
constexpr size_t LONGEST_LIST = 100;
const char *const ALGEBRAS[] = {"shortest", "widest", "reach", "hops", "reliable", "within"};

uint32_t vertex_of(const Value &value, const std::string &place, const Roads &roads) {
    if (value.kind != Kind::whole && value.kind != Kind::beyond)
        throw Refused{400, "NotANumber", place + ": " + value.shown() + " is not a whole number",
            DIFFUSE_STATUS_NOT_A_NUMBER};
    if (value.kind == Kind::beyond || value.whole < 1 || value.whole > roads.vertices)
        throw Refused{404, "NoVertex",
            place + ": " + value.shown() + " is not from 1 to " + std::to_string(roads.vertices),
            DIFFUSE_STATUS_NO_VERTEX};
    return uint32_t(value.whole);
}

}  // namespace

uint64_t limit_of(const Value *value) {
    if (!value || value->kind != Kind::whole || value->whole > DIFFUSE_MAX_LIMIT)
        throw Refused{400, "NoAlgebra", "within needs a limit, a whole number from 0 to 2^63",
            DIFFUSE_STATUS_NO_ALGEBRA};
    return value->whole;
}

Algebra algebra_of(const Fields &fields) {
    const Value *name = fields.find("algebra"), *limit = fields.find("limit");
    Algebra found;
    if (name) {
        int place = 0;
        while (place < 6 && (name->kind != Kind::text || name->text != ALGEBRAS[place])) place++;
        if (place == 6)
            throw Refused{400, "NoAlgebra", "there is no algebra " + name->shown(),
                DIFFUSE_STATUS_NO_ALGEBRA};
        found.number = diffuse_algebra(place);
    }
    if (found.number == DIFFUSE_ALGEBRA_WITHIN) found.limit = limit_of(limit);
    else if (limit && limit->kind != Kind::null)
        throw Refused{400, "NoAlgebra", "only within has a limit", DIFFUSE_STATUS_NO_ALGEBRA};
    return found;
}

bool is_sum(const Algebra &algebra) {
    return algebra.number == DIFFUSE_ALGEBRA_SHORTEST || algebra.number == DIFFUSE_ALGEBRA_WITHIN;
}

End Asked::end(const Value &value, const std::string &name, bool is_place) const {
    if (!is_place) return {vertex_of(value, name, roads)};
    auto near = nearest_to(value, name);
    if (near.metres > snap_limit)
        throw Refused{404, "TooFar",
            name + ": the nearest vertex is " + shown(near.metres, 0) + " metres away, more than "
                + shown(snap_limit, 0)};
    return {near.vertex, near.metres};
}

End Asked::end_of(const std::string &by_vertex, const std::string &by_place) const {
    const Value *vertex = fields.find(by_vertex), *place = fields.find(by_place);
    if (vertex && place)
        throw refusal(400, "there must not be both '" + by_vertex + "' and '" + by_place + "'");
    return place ? end(*place, by_place, true) : end(fields.need(by_vertex), by_vertex, false);
}

std::vector<End> Asked::ends_of(const std::string &by_vertex, const std::string &by_place) const {
    const Value *place = fields.find(by_place);
    auto &name = place ? by_place : by_vertex;
    bool is_list = place ? !place->items.empty() && place->items[0].kind == Kind::list
                         : fields.need(name).kind == Kind::list;
    if (!is_list) return {end_of(by_vertex, by_place)};
    if (place && fields.find(by_vertex)) return {end_of(by_vertex, by_place)};
    const Value &value = fields.need(name);
    if (value.items.empty() || value.items.size() > LONGEST_LIST)
        throw refusal(
            400, name + ": a list must have 1 to " + std::to_string(LONGEST_LIST) + " vertices");
    std::vector<End> ends;
    for (auto &item : value.items)
        ends.push_back(end(item, name + "[" + std::to_string(ends.size()) + "]",
            place || item.kind == Kind::list));
    return ends;
}

Nearest Asked::nearest_to(const Value &value, const std::string &name) const {
    if (!roads.places) throw refusal(400, name + ": this server has no coordinates");
    bool good = value.kind == Kind::list && value.items.size() == 2;
    for (size_t i = 0; good && i < 2; i++)
        good = value.items[i].is_number() && std::abs(value.items[i].real) <= (i ? 90 : 180);
    if (!good)
        throw refusal(
            400, name + ": " + value.shown()
                     + " is not a longitude from -180 to 180 and a latitude from -90 to 90");
    return roads.places->nearest(value.items[0].real, value.items[1].real);
}

bool Asked::is_wanted(const char *name) const {
    auto *value = fields.find(name);
    bool is_word = value && (value->kind == Kind::text || value->kind == Kind::other);
    if (value && !(is_word && (value->text == "true" || value->text == "false")))
        throw refusal(400, std::string(name) + ": " + value->shown() + " is not true or false");
    return value && value->text == "true";
}

std::vector<uint32_t> vertices_of(const std::vector<End> &ends) {
    std::vector<uint32_t> vertices;
    for (auto &end : ends) vertices.push_back(end.vertex);
    return vertices;
}

void put_snaps(Object &reply, const std::vector<End> &ends) {
    std::string list;
    bool has_place = false;
    for (auto &end : ends) {
        has_place = has_place || end.metres >= 0;
        list += (list.empty() ? "" : ", ") + (end.metres >= 0 ? shown(end.metres, 1) : "null");
    }
    if (has_place) reply.raw("snap", "[" + list + "]");
}

Geometry geometry_of(const Fields &fields, const Roads &roads) {
    auto *value = fields.find("geometry");
    if (!value) return Geometry::none;
    if (!roads.places) throw refusal(400, "geometry: this server has no coordinates");
    if (value->kind == Kind::text && value->text == "geojson") return Geometry::geojson;
    if (value->kind == Kind::text && value->text == "polyline") return Geometry::polyline;
    throw refusal(400, "geometry: " + value->shown() + " is not 'geojson' or 'polyline'");
}
