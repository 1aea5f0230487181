#include "heads.hpp"
#include <algorithm>
#include <cctype>
#include <microhttpd.h>
#include <strings.h>

namespace {

bool is_token(std::string_view name) {
    auto good = [](unsigned char c) {
        return std::isalnum(c)
               || (c
                   && std::string_view("!#$%&'*+-.^_`|~").find(char(c)) != std::string_view::npos);
    };
    return !name.empty() && std::all_of(name.begin(), name.end(), good);
}

bool is_printable(std::string_view value) {
    return std::none_of(value.begin(), value.end(),
        [](unsigned char c) { return (c < ' ' && c != '\t') || c == 127; });
}

bool is_named(std::string_view name, const char *known) {
    return name.size() == std::string_view(known).size()
           && !strncasecmp(name.data(), known, name.size());
}

// The headers that decide where a request ends.
struct Framing {
    int lengths = 0, codings = 0, hosts = 0;
    bool is_bad = false;
    std::string length, forwarded;

    void look(std::string_view name, std::string_view value) {
        is_bad = is_bad || !is_token(name) || !is_printable(value);
        hosts += is_named(name, "Host");
        codings += is_named(name, "Transfer-Encoding");
        if (is_named(name, "X-Forwarded-For")) forwarded = value.substr(0, 256);
        if (!is_named(name, "Content-Length")) return;
        lengths++;
        length = value;
    }
};

MHD_Result look(void *framing, MHD_ValueKind, const char *name, size_t name_size, const char *value,
    size_t size) {
    static_cast<Framing *>(framing)->look(
        {name, name_size}, value ? std::string_view(value, size) : std::string_view());
    return MHD_YES;
}

bool is_standard(std::string_view method) {
    for (auto *known : {"PUT", "DELETE", "PATCH", "TRACE", "CONNECT"})
        if (method == known) return true;
    return false;
}

}  // namespace

Refused too_long_body() {
    return refusal(413, "a body has at most " + std::to_string(LONGEST_BODY) + " bytes");
}

void check_head(Request &request, std::string_view version) {
    Framing framing;
    MHD_get_connection_values_n(request.at, MHD_HEADER_KIND, look, &framing);
    request.forwarded = framing.forwarded;
    if (framing.is_bad) throw refusal(400, "a header with a name or a value that must not be");
    if (request.line.find(' ') != std::string::npos)
        throw refusal(400, "the first line has too many parts");
    if (framing.hosts > 1 || (framing.hosts == 0 && version != "HTTP/1.0") || framing.lengths > 1
        || (framing.lengths && framing.codings))
        throw refusal(400, "a request has one Host, and one Content-Length or none");
    if (framing.codings)
        throw refusal(411, "a body must have a Content-Length, and no Transfer-Encoding");
    if (framing.length.find_first_not_of("0123456789") != std::string::npos
        || (framing.lengths && framing.length.empty()))
        throw refusal(400, "the Content-Length is not a number");
    if (framing.length.size() > 18
        || (framing.lengths && std::stoull(framing.length) > LONGEST_BODY))
        throw too_long_body();
    auto &method = request.method;
    if (method == "GET" || method == "HEAD" || method == "POST" || method == "OPTIONS") return;
    throw refusal(is_standard(method) ? 405 : 501, "the methods are GET, HEAD, POST and OPTIONS");
}

std::string path_of(std::string_view line) {
    auto path = line.substr(0, line.find('?'));
    auto scheme = path.find("://");
    if (scheme != path.npos && path[0] != '/') {
        auto slash = path.find('/', scheme + 3);
        path = slash == path.npos ? "/" : path.substr(slash);
    }
    if (path.substr(0, 4) == "/v1/") path.remove_prefix(3);
    return std::string(path);
}

std::string_view query_of(std::string_view line) {
    auto mark = line.find('?');
    return mark == line.npos ? std::string_view() : line.substr(mark + 1);
}
