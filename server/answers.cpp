#include "answers.hpp"
#include <algorithm>
#include <cmath>

namespace {

std::string nearest(const Asked &asked) {
    asked.fields.allow({"at"});
    auto near = asked.nearest_to(asked.fields.need("at"), "at");
    Object reply;
    reply.number("vertex", near.vertex).raw("metres", shown(near.metres, 1));
    return reply.raw("geometry", asked.roads.places->point(near.vertex)).end() + "\n";
}

// The lines of the roads in a box, as wide as so many pixels.
std::string drawn(const Asked &asked) {
    asked.fields.allow({"box", "pixels"});
    if (!asked.roads.drawing) throw refusal(400, "box: this server has no coordinates");
    auto &box = asked.fields.need("box");
    auto *pixels = asked.fields.find("pixels");
    bool good = box.items.size() == 4;
    for (auto &side : box.items) good = good && side.is_number() && std::abs(side.real) <= 180;
    if (!good) throw refusal(400, "box: " + box.shown() + " is not west, south, east and north");
    if (pixels && (pixels->kind != Value::Kind::whole || !pixels->whole))
        throw refusal(400, "pixels: " + pixels->shown() + " is not a number from 1 on");
    auto side = [&](size_t i) { return int32_t(std::lround(box.items[i].real * 1e6)); };
    double step = (box.items[2].real - box.items[0].real) * 1e6 / (pixels ? pixels->real : 1000);
    return asked.roads.drawing->in_box(
        *asked.roads.places, {{side(0), side(1)}, {side(2), side(3)}}, step);
}

}  // namespace

void check(diffuse_status status) {
    if (status == DIFFUSE_STATUS_MEMORY)
        throw Refused{503, "OutOfMemory", "out of memory", int(status)};
    if (status == DIFFUSE_STATUS_STOPPED)
        throw Refused{503, "Stopped", "stopped before there was an answer", int(status)};
    if (status != DIFFUSE_STATUS_DONE)
        throw Refused{500, "DiffuseError", diffuse_status_text(status), int(status)};
}

void Asker::use(const std::shared_ptr<Roads> &others) {
    handle = Handle();
    has_searched = false;
    roads = nullptr;
    room = {};
    lines = {};
    if (!stop.is_open() && diffuse_stop_new(stop.at()) != DIFFUSE_STATUS_DONE)
        throw std::bad_alloc();
    handle = others->take();
    if (diffuse_graph_stop_by(handle.at(), stop.at()) != DIFFUSE_STATUS_DONE)
        throw std::bad_alloc();
    roads = others;
}

bool Asker::find(
    const Algebra &algebra, uint32_t source, uint32_t target, uint64_t &code, uint32_t &hops) {
    auto ask = [&] {
        return diffuse_graph_route(handle.at(), algebra.number, algebra.limit, source, target,
            &code, &hops, room.data(), room.size());
    };
    auto status = ask();
    if (status == DIFFUSE_STATUS_NO_ROOM) {
        room.resize(2 * (size_t(hops) + 1));
        status = ask();
    }
    if (status != DIFFUSE_STATUS_NO_ROUTE) check(status);
    return status == DIFFUSE_STATUS_DONE;
}

size_t arc_of_step(Asker &asker, uint32_t tail, uint32_t head) {
    const Also *also = asker.roads->also.get();
    size_t count = arcs_from(asker.handle, tail, asker.arcs), found = count;
    auto weights = [&](size_t i) {
        return std::make_pair(asker.arcs[i].weight, also ? also->weight(tail, i) : 0);
    };
    for (size_t i = 0; i < count; i++)
        if (asker.arcs[i].head == head && (found == count || weights(i) < weights(found)))
            found = i;
    return found;
}

uint64_t sum_along(Asker &asker, const uint32_t *route, size_t length) {
    const Also &also = *asker.roads->also;
    uint64_t sum = 0;
    for (size_t i = 1; i < length; i++)
        sum += also.weight(route[i - 1], arc_of_step(asker, route[i - 1], route[i]));
    return sum;
}

bool is_question(std::string_view path) {
    return path == "/route" || path == "/nearest" || is_long(path);
}
bool is_long(std::string_view path) {
    return path == "/table" || path == "/tree" || path == "/roads";
}

std::string answer(Asker &asker, const std::string &path, const Fields &fields, double snap_limit) {
    Asked asked{fields, *asker.roads, snap_limit};
    if (path == "/route") return route(asker, asked);
    if (path == "/table") return table(asker, asked);
    if (path == "/roads") return drawn(asked);
    return path == "/tree" ? tree(asker, asked) : nearest(asked);
}
