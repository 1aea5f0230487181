// The fields of a request: those of its query, and those of its body, a JSON object.
#pragma once
#include "refused.hpp"
#include <initializer_list>
#include <string>
#include <string_view>
#include <vector>

// What a field says. A number keeps its text only if it is no whole number below 2^64.
struct Value {
    enum class Kind { null, whole, beyond, real, text, list, other };
    Kind kind = Kind::null;
    uint64_t whole = 0;
    double real = 0;
    std::string text = {};
    std::vector<Value> items = {};

    bool is_number() const {
        return kind == Kind::whole || kind == Kind::beyond || kind == Kind::real;
    }
    // As a message shows it, at most 40 bytes of it.
    std::string shown() const;
};

class Fields {
  public:
    // A field twice is refused, since only one of the two could be meant; and so are too many.
    void add(std::string_view name, Value value);
    // The fields of a query: each a number, a text, a list with commas between its items, or a list
    // of such lists with semicolons between them.
    void add_query(std::string_view query);
    // The fields of a JSON object, in a time that its length bounds.
    void add_body(const std::string &body);
    void allow(std::initializer_list<std::string_view> names) const;
    const Value *find(std::string_view name) const;
    const Value &need(std::string_view name) const;

  private:
    static constexpr size_t MOST = 16;
    std::vector<std::pair<std::string, Value>> all;
};
