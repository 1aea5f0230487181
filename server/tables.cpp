// Tables of best values, and of the second graph's sums along best routes.
#include "answers.hpp"

namespace {

std::string row_of(const std::vector<uint64_t> &codes) {
    std::string out = "[";
    for (size_t j = 0; j < codes.size(); j++) {
        if (j) out += ", ";
        if (codes[j] == DIFFUSE_UNREACHED) out += "null";
        else put(out, codes[j]);
    }
    return out + "]";
}

// The second graph's sums along the best routes from a source.
std::vector<uint64_t> sums_from(
    Asker &asker, const Algebra &algebra, uint32_t source, const std::vector<uint32_t> &targets) {
    std::vector<uint64_t> sums;
    for (auto target : targets) {
        uint64_t code = 0;
        uint32_t hops = 0;
        bool is_found = asker.find(algebra, source, target, code, hops);
        sums.push_back(
            is_found ? sum_along(asker, asker.room.data(), hops + 1) : DIFFUSE_UNREACHED);
    }
    return sums;
}

bool has_sums(const Asked &asked, const Algebra &algebra) {
    if (!asked.is_wanted("sums")) return false;
    if (!asked.roads.also) throw refusal(400, "sums: this server has no second graph");
    if (!is_sum(algebra)) throw refusal(400, "sums: only for shortest and within");
    return true;
}

}  // namespace

std::string table(Asker &asker, const Asked &asked) {
    asked.fields.allow({"sources", "targets", "from", "to", "algebra", "limit", "sums"});
    auto ends = asked.ends_of("sources", "from"), others = asked.ends_of("targets", "to");
    auto sources = vertices_of(ends), targets = vertices_of(others);
    auto algebra = algebra_of(asked.fields);
    bool with_sums = has_sums(asked, algebra);
    std::vector<uint64_t> codes(targets.size());
    std::string from, to, rows, sums;
    for (auto &source : sources) {
        const char *between = rows.empty() ? "" : ", ";
        check(diffuse_graph_table(asker.handle.at(), algebra.number, algebra.limit, &source, 1,
            targets.data(), targets.size(), codes.data(), codes.size()));
        rows += between + row_of(codes);
        if (with_sums) sums += between + row_of(sums_from(asker, algebra, source, targets));
    }
    put(from, sources);
    put(to, targets);
    Object reply;
    reply.raw("sources", from).raw("targets", to).raw("values", "[" + rows + "]");
    if (with_sums) reply.raw(asked.roads.also->name, "[" + sums + "]");
    ends.insert(ends.end(), others.begin(), others.end());
    put_snaps(reply, ends);
    return reply.end() + "\n";
}
