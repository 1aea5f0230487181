// The threads that search, and the requests that wait for them: few at most, and none longer than
// its time. Long questions, tables and trees, have a queue of their own.
#pragma once
#include "answers.hpp"
#include "request.hpp"
#include <condition_variable>
#include <deque>
#include <functional>

class Searches {
  public:
    using Step = std::function<void(Request &)>;

    // `hold` is called for a request that must wait, and `resume` once it has its reply.
    Searches(const Options &options, std::shared_ptr<Roads> roads, Step hold, Step resume);
    // Starts the threads, which are never joined.
    void start();
    // Takes a request, or throws Refused if its queue is full.
    void add(const std::shared_ptr<Request> &request);
    // Refuses what has waited, or been searched for, longer than its time or than its client; or
    // all of it.
    void expire(bool all);
    void use(std::shared_ptr<Roads> roads);
    std::shared_ptr<Roads> now() const;
    size_t waiting() const;
    size_t running() const;

  private:
    // A request that is searched for, and what stops this.
    struct Running {
        std::shared_ptr<Request> request;
        diffuse_stop *stop;
    };
    using Queue = std::deque<std::shared_ptr<Request>>;

    const Options &options;
    Step hold, resume;
    mutable std::mutex lock;
    // The threads that wait. The last one to wait is the first to be woken, so that no more have
    // the lists of a search than there were searches at once.
    std::vector<std::condition_variable *> idle;
    std::shared_ptr<Roads> roads;
    Queue quick, slow;
    std::vector<Running> searched;
    size_t long_ones = 0;
    std::atomic<size_t> reply_bytes{0};

    size_t most_long() const { return std::max(1u, options.handles - 1); }
    bool may_take_long() const { return !slow.empty() && long_ones < most_long(); }
    void work();
    bool wait_for_work(const Asker &asker, std::condition_variable &woken,
        std::unique_lock<std::mutex> &held);
    void wake_one();
    std::shared_ptr<Request> take(Asker &asker);
    void change_graph(Asker &asker, const std::shared_ptr<Roads> &now);
    Reply answer_to(Asker &asker, const Request &request);
    void end(const std::shared_ptr<Request> &request, Reply reply);
    bool is_late(const Request &request, bool all) const;
    std::shared_ptr<Request> next_late(bool all);
    std::shared_ptr<Request> next_late_of(Queue &queue, bool all);
};
