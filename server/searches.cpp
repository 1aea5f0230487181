#include "searches.hpp"
#include "connections.hpp"
#include <algorithm>
#include <thread>

namespace {

using State = Request::State;

// A route through others is a search for each of them.
bool takes_long(const Request &request) {
    return is_long(request.path) || request.fields.find("via") || request.fields.find("stops");
}

}  // namespace

Searches::Searches(const Options &options, std::shared_ptr<Roads> roads, Step hold, Step resume)
    : options(options), hold(std::move(hold)), resume(std::move(resume)), roads(std::move(roads)) {
    searched.reserve(options.handles);
    idle.reserve(options.handles);
}

void Searches::start() {
    for (unsigned i = 0; i < options.handles; i++) std::thread([this] { work(); }).detach();
}

void Searches::add(const std::shared_ptr<Request> &request) {
    std::lock_guard<std::mutex> held(lock);
    bool is_slow = takes_long(*request);
    auto &queue = is_slow ? slow : quick;
    size_t free = is_slow ? most_long() - long_ones : options.handles - searched.size();
    if (queue.size() >= options.queue + free) throw refusal(503, "the queue is full");
    queue.push_back(request);
    hold(*request);
    request->state = State::waiting;
    wake_one();
}

void Searches::wake_one() {
    if (idle.empty()) return;
    idle.back()->notify_one();
    idle.pop_back();
}

// False if there was none for so long that the asker is to give back the lists of its searches.
bool Searches::wait_for_work(
    const Asker &asker, std::condition_variable &woken, std::unique_lock<std::mutex> &held) {
    auto end = Clock::now() + std::chrono::microseconds(int64_t(options.idle * 1e6));
    while (roads == asker.roads && quick.empty() && !may_take_long()) {
        if (asker.has_searched && Clock::now() >= end) return false;
        idle.push_back(&woken);
        if (asker.has_searched) woken.wait_until(held, end);
        else woken.wait(held);
        // It may have woken by itself.
        idle.erase(std::remove(idle.begin(), idle.end(), &woken), idle.end());
    }
    return true;
}

// The next request, of which an older long one goes first: but all threads but one may have long
// questions at a time, so that a route never waits for a table.
std::shared_ptr<Request> Searches::take(Asker &asker) {
    bool is_slow =
        quick.empty() || (may_take_long() && slow.front()->came < quick.front()->came);
    auto &from = is_slow ? slow : quick;
    auto request = std::move(from.front());
    from.pop_front();
    request->state = State::searching;
    long_ones += is_slow;
    if (asker.stop.is_open()) diffuse_stop_clear(asker.stop.at());
    searched.push_back({request, asker.stop.at()});
    return request;
}

void Searches::work() {
    Asker asker;
    std::condition_variable woken;
    for (;;) {
        std::shared_ptr<Roads> now;
        std::shared_ptr<Request> request;
        bool is_rested = false;
        {
            std::unique_lock<std::mutex> held(lock);
            is_rested = !wait_for_work(asker, woken, held);
            now = roads;
            if (!quick.empty() || may_take_long()) request = take(asker);
        }
        if (is_rested) now->free_idle();
        if (is_rested || now != asker.roads) change_graph(asker, now);
        now = nullptr;
        if (!request) continue;
        end(request, answer_to(asker, *request));
    }
}

// Or to a new handle on the same one. Without memory for it the asker has no graph, and tries again
// soon.
void Searches::change_graph(Asker &asker, const std::shared_ptr<Roads> &now) try {
    asker.use(now);
} catch (const std::bad_alloc &) {
    std::this_thread::sleep_for(std::chrono::milliseconds(100));
}

Reply Searches::answer_to(Asker &asker, const Request &request) {
    Reply reply;
    if (!asker.roads) return reply.refuse_briefly(), reply;
    asker.has_searched = true;
    try {
        reply.text = answer(asker, request.path, request.fields, options.snap_limit);
        reply.text.shrink_to_fit();
    } catch (const Refused &why) {
        reply.refuse(why);
    } catch (const std::bad_alloc &) {
        reply.refuse(503, "out of memory");
    } catch (const std::exception &why) {
        reply.refuse(500, why.what());
    }
    return reply;
}

// The reply to a request, unless that has been refused meanwhile.
void Searches::end(const std::shared_ptr<Request> &request, Reply reply) {
    bool is_first = false;
    {
        std::lock_guard<std::mutex> held(lock);
        searched.erase(std::find_if(searched.begin(), searched.end(),
            [&](const Running &running) { return running.request == request; }));
        long_ones -= takes_long(*request);
        is_first = request->state != State::answered;
        if (is_first && !request->share.take(reply_bytes, reply.text.capacity()))
            reply.refuse(503, "too many long replies are still being read");
        if (is_first) request->reply = std::move(reply);
        if (is_first) request->state = State::answered;
        if (may_take_long()) wake_one();
    }
    if (is_first) resume(*request);
}

// A client that closes its end may still wait for a route, but not for what may take long.
bool Searches::is_late(const Request &request, bool all) const {
    if (request.state == State::answered) return false;
    return all || seconds_since(request.came) >= options.timeout
           || (takes_long(request) && request.connection->has_left);
}

// A request of a queue that is late, taken out of it; or none.
std::shared_ptr<Request> Searches::next_late_of(Queue &queue, bool all) {
    auto place = std::find_if(
        queue.begin(), queue.end(), [&](const auto &request) { return is_late(*request, all); });
    if (place == queue.end()) return nullptr;
    auto request = std::move(*place);
    queue.erase(place);
    return request;
}

// A request that is late, refused now; or none. The search for it is stopped.
std::shared_ptr<Request> Searches::next_late(bool all) {
    std::lock_guard<std::mutex> held(lock);
    auto request = next_late_of(quick, all);
    if (!request) request = next_late_of(slow, all);
    for (auto place = searched.begin(); !request && place != searched.end(); ++place) {
        if (!is_late(*place->request, all)) continue;
        request = place->request;
        if (place->stop->is_open) diffuse_stop_set(place->stop);
    }
    if (!request) return nullptr;
    request->reply.refuse(503, request->connection->has_left ? "the client has left" : "timed out");
    request->state = State::answered;
    return request;
}

// One at a time, since a list of them would need memory.
void Searches::expire(bool all) {
    while (auto request = next_late(all)) resume(*request);
}

void Searches::use(std::shared_ptr<Roads> others) {
    std::lock_guard<std::mutex> held(lock);
    roads.swap(others);
    while (!idle.empty()) wake_one();
}

std::shared_ptr<Roads> Searches::now() const {
    std::lock_guard<std::mutex> held(lock);
    return roads;
}

size_t Searches::waiting() const {
    std::lock_guard<std::mutex> held(lock);
    return quick.size() + slow.size();
}

size_t Searches::running() const {
    std::lock_guard<std::mutex> held(lock);
    return searched.size();
}
