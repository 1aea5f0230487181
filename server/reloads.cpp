#include "reloads.hpp"
#include "manager.hpp"
#include <thread>

void Reloads::start() {
    std::thread([this] {
        for (;;) {
            {
                std::unique_lock<std::mutex> held(lock);
                changed.wait(held, [this] { return is_asked; });
                is_asked = false;
            }
            notify_reload();
            reload();
            notify_manager("READY=1");
        }
    }).detach();
}

void Reloads::ask() {
    std::lock_guard<std::mutex> held(lock);
    is_asked = true;
    changed.notify_one();
}

void Reloads::reload() {
    try {
        auto roads = Roads::read(options, searches.now().get());
        searches.use(roads);
        metrics.reloads++;
        metrics.reweighed_reloads += roads->is_reweighed;
        return log.note([&] {
            Object line = event("reloaded");
            line.number("vertices", roads->vertices).number("arcs", roads->arcs);
            line.raw("reweighed", roads->is_reweighed ? "true" : "false");
            if (!roads->not_factored.empty()) line.text("not factored", roads->not_factored);
            return line;
        });
    } catch (const std::bad_alloc &) {
    } catch (const std::exception &why) {
        note_failure(why.what());
        return;
    }
    note_failure("out of memory");
}

void Reloads::note_failure(const char *error) {
    metrics.failed_reloads++;
    log.note([&] { return event("not reloaded").text("error", error); });
}
