#include "fields.hpp"
#include <cmath>

namespace {

using Kind = Value::Kind;
constexpr size_t LONGEST_SHOWN = 40;

std::string cut(std::string_view text) {
    return std::string(text.substr(0, LONGEST_SHOWN)) + (text.size() > LONGEST_SHOWN ? ".." : "");
}

// A number of the query, or a text if it is none.
Value value_of(std::string_view text) {
    Value value;
    value.kind = Kind::text;
    const char *begin = text.data(), *end = begin + text.size();
    auto is_whole = std::from_chars(begin, end, value.whole);
    if (is_whole.ec == std::errc() && is_whole.ptr == end) {
        value.kind = Kind::whole;
        value.real = double(value.whole);
        return value;
    }
    bool digits = text.size() > 1 && (text[0] == '-' || text[0] != '.')
                  && text.find_first_not_of("0123456789", text[0] == '-') == text.npos;
    auto is_real = std::from_chars(begin, end, value.real);
    // A number of hundreds of digits is not zero.
    if (is_real.ec == std::errc::result_out_of_range) value.real = INFINITY;
    else if (is_real.ec == std::errc() && is_real.ptr == end) value.kind = Kind::real;
    if (digits) value.kind = Kind::beyond;
    value.text = value.kind == Kind::text ? std::string(text) : cut(text);
    return value;
}

// A text, a number, or a list of what is between signs; of lists, if there is a further sign.
Value list_of(std::string_view text, std::string_view signs) {
    if (signs.empty()) return value_of(text);
    if (text.find(signs[0]) == text.npos) return list_of(text, signs.substr(1));
    Value list;
    list.kind = Kind::list;
    for (size_t begin = 0, end = 0; end != text.npos; begin = end + 1) {
        end = text.find(signs[0], begin);
        list.items.push_back(
            list_of(text.substr(begin, end == text.npos ? end : end - begin), signs.substr(1)));
    }
    return list;
}

int digit_of(char sign) {
    auto place = std::string_view("0123456789abcdef").find(char(sign | 0x20));
    if (sign >= '0' && sign <= '9') return sign - '0';
    return place == std::string_view::npos || place < 10 ? -1 : int(place);
}

// A part of a query as it was meant: a blank for +, and a byte for % and two digits.
std::string decoded(std::string_view text) {
    std::string out;
    for (size_t i = 0; i < text.size(); i++) {
        int high = text[i] == '%' && i + 2 < text.size() ? digit_of(text[i + 1]) : -1;
        int low = high < 0 ? -1 : digit_of(text[i + 2]);
        if (low >= 0) out += char(16 * high + low), i += 2;
        else out += text[i] == '+' ? ' ' : text[i];
    }
    return out;
}

}  // namespace

std::string Value::shown() const {
    switch (kind) {
    case Kind::null: return "null";
    case Kind::whole: return std::to_string(whole);
    case Kind::list: return "a list of " + std::to_string(items.size());
    case Kind::text: return "'" + cut(text) + "'";
    default: return cut(text);
    }
}

void Fields::add(std::string_view name, Value value) {
    if (find(name)) throw refusal(400, "the field '" + cut(name) + "' is given twice");
    if (all.size() == MOST)
        throw refusal(400, "there are more than " + std::to_string(MOST) + " fields");
    all.emplace_back(name, std::move(value));
}

void Fields::add_query(std::string_view query) {
    for (size_t begin = 0, end = 0; end != query.npos && begin < query.size(); begin = end + 1) {
        end = query.find('&', begin);
        auto field = query.substr(begin, end == query.npos ? end : end - begin);
        auto equals = field.find('=');
        std::string text = equals == field.npos ? "" : decoded(field.substr(equals + 1));
        if (!field.empty()) add(decoded(field.substr(0, equals)), list_of(text, ";,"));
    }
}

void Fields::allow(std::initializer_list<std::string_view> names) const {
    for (auto &[name, value] : all)
        if (std::find(names.begin(), names.end(), name) == names.end())
            throw refusal(400, "there is no field '" + cut(name) + "' here");
}

const Value *Fields::find(std::string_view name) const {
    for (auto &[known, value] : all)
        if (known == name) return &value;
    return nullptr;
}

const Value &Fields::need(std::string_view name) const {
    if (auto *value = find(name)) return *value;
    throw refusal(400, "there must be a field '" + std::string(name) + "'");
}
