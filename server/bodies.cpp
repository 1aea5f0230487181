// The fields of a body, read as it is parsed, without a tree of all of it.
#include "fields.hpp"
#include <nlohmann/json.hpp>

namespace {

using nlohmann::json;
using Kind = Value::Kind;

// What the parser reports becomes fields, lists, and lists of lists. What is an object, or lies
// deeper, is kept as something that no field can mean.
class Reader : public nlohmann::json_sax<json> {
  public:
    explicit Reader(Fields &fields) : fields(fields) {}

    bool null() override { return put({}); }
    bool boolean(bool value) override { return put({Kind::other, 0, 0, value ? "true" : "false"}); }
    bool number_integer(int64_t value) override {
        return put({Kind::beyond, 0, double(value), std::to_string(value)});
    }
    bool number_unsigned(uint64_t value) override {
        return put({Kind::whole, value, double(value)});
    }
    bool number_float(double value, const std::string &text) override {
        return put({Kind::real, 0, value, text});
    }
    bool string(std::string &value) override { return put({Kind::text, 0, 0, value}); }
    bool binary(json::binary_t &) override { return false; }
    bool key(std::string &name) override {
        if (!skipped) field = name;
        return true;
    }
    bool start_object(size_t) override {
        if (!is_open) return is_open = true;
        return skip("{..}");
    }
    bool start_array(size_t) override {
        if (!is_open || skipped || lists.size() == 2) return skip("[..]");
        lists.push_back({Kind::list});
        return true;
    }
    bool end_object() override { return end(); }
    bool end_array() override { return end(); }
    bool parse_error(size_t, const std::string &, const json::exception &) override {
        return false;
    }

  private:
    Fields &fields;
    std::string field;
    // The lists that are open, the outer one first, and how many containers are that are skipped.
    std::vector<Value> lists;
    size_t skipped = 0;
    bool is_open = false;

    // False outside of the object.
    bool put(Value value) {
        if (!is_open || skipped) return is_open;
        if (lists.empty()) fields.add(field, std::move(value));
        else lists.back().items.push_back(std::move(value));
        return true;
    }
    bool skip(const char *shown) {
        bool is_good = put({Kind::other, 0, 0, shown});
        skipped++;
        return is_good;
    }
    bool end() {
        if (skipped) return skipped--, true;
        if (lists.empty()) return true;
        auto list = std::move(lists.back());
        lists.pop_back();
        return put(std::move(list));
    }
};

}  // namespace

void Fields::add_body(const std::string &body) {
    Reader reader(*this);
    if (!json::sax_parse(body, &reader)) throw refusal(400, "the body is not a JSON object");
}
