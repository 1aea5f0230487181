// Answers every question of a .ss by diffusing computations on threads, with the bytes of `diffuse solve`:
//
//     diffusing GRAPH QUESTIONS [WORKERS SHARDS WIDTH BUDGET [best-first] [questions]]
//
// It is the engine's own rule in plain C++, to measure the engine against: the same parts, items in the same order,
// batches through mailboxes of one word, a done word, workers that yield after a round in which nothing was done. Best
// first, each shard shows the best value that waits there or was sent there, and takes no message that is worse than the
// best that another shows or that it has sent to one, extended by a fifth of the mean weight of the arcs. With `questions`,
// the shards of each question are dealt from one worker further on. On standard error it reports how many messages were
// handled.
#include "question.hpp"

#include <thread>

using Group = vector<std::unique_ptr<Question>>;

// The first shard of a question that a worker has: by questions, those of each are dealt from one worker further on.
static uint32_t first_shard(const Settings& settings, uint32_t worker, uint32_t question) {
    uint32_t first = settings.by_questions ? question % settings.workers : 0;
    return (worker + settings.workers - first) % settings.workers;
}

// One worker: turns its shards of all questions round and round until all are over.
static void drive(Group& group, const Settings& settings, uint32_t worker) {
    for (bool any = true; any;) {
        any = false;
        bool did = false;
        for (uint32_t q = 0; q < group.size(); q++) {
            for (uint32_t s = first_shard(settings, worker, q); s < settings.shards; s += settings.workers) {
                if (group[q]->parts[s].is_over) continue;
                any = true;
                did |= group[q]->turn(s);
            }
        }
        if (!did) std::this_thread::yield();
    }
}

static void run(Group& group, const Settings& settings) {
    vector<std::thread> threads;
    for (uint32_t k = 1; k < settings.workers; k++) threads.emplace_back([&, k] { drive(group, settings, k); });
    drive(group, settings, 0);
    for (std::thread& thread : threads) thread.join();
}

static Settings settings_of(int count, char** words) {
    const char* usage = "usage: diffusing GRAPH QUESTIONS [WORKERS SHARDS WIDTH BUDGET [best-first] [questions]]";
    Settings settings;
    if (count != 3 && count < 7) stop(usage);
    if (count >= 7) {
        auto at = [&](int i) { return static_cast<uint32_t>(number(words[i], 65536)); };
        settings = {at(3), at(4), at(5), at(6)};
    }
    for (int i = 7; i < count; i++) {
        if (std::string(words[i]) == "best-first") settings.best_first = true;
        else if (std::string(words[i]) == "questions") settings.by_questions = true;
        else stop(usage);
    }
    if (settings.workers == 0 || settings.width == 0 || settings.budget == 0 || settings.shards == 0 || settings.shards > 64) {
        stop("a setting out of its range");
    }
    return settings;
}

int main(int count, char** words) {
    Settings settings = settings_of(count, words);
    Network network(read_graph(words[1]));
    uint32_t vertices = network.graph.vertices();
    vector<uint32_t> sources = read_sources(words[2], vertices);
    vector<uint8_t> shard_of(size_t(vertices) + 1);
    for (uint64_t v = 1; v <= vertices; v++) shard_of[v] = static_cast<uint8_t>((v - 1) * settings.shards / vertices);
    Output out;
    out.line("p ans ss", {sources.size()}, " shortest");
    uint64_t messages = 0;
    vector<uint32_t> order;
    for (size_t first = 0; first < sources.size(); first += settings.width) {
        Group group;
        for (size_t i = first; i < std::min(sources.size(), first + settings.width); i++) {
            group.emplace_back(new Question(network, shard_of, settings, sources[i]));
        }
        run(group, settings);
        for (auto& question : group) {
            for (const Part& part : question->parts) messages += part.messages;
            Answer answer(vertices);
            answer.distance.swap(question->labels);
            find_parents(network.graph, question->source, NO_TARGET, order, answer);
            write_answer(out, question->source, answer);
            question.reset();
        }
    }
    out.write_out();
    std::fprintf(stderr, "%llu\n", static_cast<unsigned long long>(messages));
}
